/* The extension module lasso._core: the type Core, which holds an interner of lasso.h, and the calls for one text, which the type Seat has too. */
#include "core.h"

#include <pthread.h>
#include <stdarg.h>
#include <string.h>

/* The type Core, lasso.errors.error_of and WrongLayout, of the one interpreter that may load the module. */
static PyObject *core_type, *error_of, *wrong_layout;
static int64_t interpreter = -1;

/* How many forks there were from the process that loaded the module down to this one. */
static unsigned forks;

static void count_fork(void)
{
    forks++;
}

void core_after_fork(Core *core)
{
    Core *each = core;
    bool is_left = false;
    if (core->forks == forks)
        return;
    do
        is_left |= each->busy;
    while ((each = each->next) != core);
    do {
        if (is_left) {
            each->interner.own = (struct lasso)LASSO_NONE;
            each->interner.shared = (struct lasso_shared)LASSO_SHARED_NONE;
        }
        each->busy = each->closes = false;
        each->freezer = NULL;
        each->forks = forks;
        /* Whoever had it is in the parent. */
        PyThread_acquire_lock(each->lock, NOWAIT_LOCK);
        PyThread_release_lock(each->lock);
    } while ((each = each->next) != core);
}

static void wait_for(PyThread_type_lock lock)
{
    Py_BEGIN_ALLOW_THREADS
    PyThread_acquire_lock(lock, WAIT_LOCK);
    PyThread_release_lock(lock);
    Py_END_ALLOW_THREADS
}

void core_wait(Core *core)
{
    while (core->busy)
        wait_for(core->lock);
}

void core_enter(Core *core)
{
    core_after_fork(core);
    while (core->busy || core->freezer != NULL)
        wait_for(core->busy ? core->lock : core->freezer->lock);
}

void core_take(Core *core)
{
    core_enter(core);
    PyThread_acquire_lock(core->lock, WAIT_LOCK);
    core->busy = true;
}

void core_give(Core *core)
{
    core->busy = false;
    PyThread_release_lock(core->lock);
    if (core->closes)
        interner_free(&core->interner);
}

void core_without_gil(Core *core, void (*call)(void *), void *with)
{
    core_take(core);
    Py_BEGIN_ALLOW_THREADS
    call(with);
    Py_END_ALLOW_THREADS
    core_give(core);
}

PyObject *raise_status(uint32_t status, Py_ssize_t position)
{
    uint8_t message[80];
    size_t length = lasso_status_text(status, message, sizeof message);
    PyObject *fault = position < 0
        ? PyObject_CallFunction(error_of, "Is#", status, message, (Py_ssize_t)(length < 80 ? length : 80))
        : PyObject_CallFunction(error_of, "Is#n", status, message, (Py_ssize_t)(length < 80 ? length : 80), position);
    if (fault != NULL) {
        PyErr_SetObject((PyObject *)Py_TYPE(fault), fault);
        Py_DECREF(fault);
    }
    return NULL;
}

int raise_layout(Py_ssize_t position, const char *message, ...)
{
    va_list parts;
    va_start(parts, message);
    PyObject *text = PyUnicode_FromFormatV(message, parts);
    va_end(parts);
    if (text == NULL)
        return -1;
    PyObject *fault = position < 0 ? PyObject_CallFunction(wrong_layout, "O", text) : PyObject_CallFunction(wrong_layout, "On", text, position);
    Py_DECREF(text);
    if (fault != NULL) {
        PyErr_SetObject(wrong_layout, fault);
        Py_DECREF(fault);
    }
    return -1;
}

uint32_t text_of(PyObject *item, const uint8_t **text, size_t *length)
{
    Py_ssize_t size;
    *text = (const uint8_t *)PyUnicode_AsUTF8AndSize(item, &size);
    if (*text == NULL) {
        uint32_t status = PyErr_ExceptionMatches(PyExc_UnicodeEncodeError) ? LASSO_NOT_UTF8 : LASSO_NO_MEMORY;
        PyErr_Clear();
        return status;
    }
    *length = (size_t)size;
    return LASSO_DONE;
}

/* The UTF-8 of an argument, once the interner is the caller's. Returns -1 with an exception. */
static int argument(Core *core, PyObject *item, const uint8_t **text, size_t *length)
{
    if (!PyUnicode_Check(item)) {
        PyObject *name = PyType_GetName(Py_TYPE(item));
        if (name != NULL)
            PyErr_Format(PyExc_TypeError, "a text is a str, and this is a %U", name);
        Py_XDECREF(name);
        return -1;
    }
    uint32_t status = text_of(item, text, length);
    if (status != LASSO_DONE) {
        raise_status(status, -1);
        return -1;
    }
    core_enter(core);
    return 0;
}

/* A call for one text that waits for other threads. */
struct waiting {
    struct interner *interner;
    bool appends;
    const uint8_t *text;
    size_t length;
    uint32_t *code;
    uint32_t status;
};

static void wait_for_it(void *with)
{
    struct waiting *call = with;
    call->status = interner_wait(call->interner, call->appends, call->text, call->length, call->code);
}

/* Interns or looks up a text. It waits without the GIL. */
static uint32_t text_call(Core *core, bool appends, const uint8_t *text, size_t length, uint32_t *code)
{
    struct waiting call = {&core->interner, appends, text, length, code, interner_try(&core->interner, appends, text, length, code)};
    if (call.status == LASSO_BUSY)
        core_without_gil(core, wait_for_it, &call);
    return call.status;
}

PyObject *core_intern(Core *core, PyObject *item)
{
    const uint8_t *text;
    size_t length;
    uint32_t code;
    if (argument(core, item, &text, &length) < 0)
        return NULL;
    uint32_t status = text_call(core, true, text, length, &code);
    return status == LASSO_DONE ? PyLong_FromUnsignedLong(code) : raise_status(status, -1);
}

/* Whether the text is present: 1 with its code, 0, or -1 with an exception. */
static int look_up(Core *core, PyObject *item, uint32_t *code)
{
    const uint8_t *text;
    size_t length;
    if (argument(core, item, &text, &length) < 0)
        return -1;
    uint32_t status = text_call(core, false, text, length, code);
    if (status == LASSO_DONE || status == LASSO_NO_SUCH_TEXT)
        return status == LASSO_DONE;
    raise_status(status, -1);
    return -1;
}

PyObject *core_get(Core *core, PyObject *item)
{
    uint32_t code;
    int found = look_up(core, item, &code);
    if (found < 0)
        return NULL;
    if (found)
        return PyLong_FromUnsignedLong(code);
    Py_RETURN_NONE;
}

int core_contains(Core *core, PyObject *item)
{
    uint32_t code;
    return look_up(core, item, &code);
}

Py_ssize_t core_len(Core *core)
{
    core_enter(core);
    return (Py_ssize_t)interner_len(&core->interner);
}

PyObject *core_item(Core *core, PyObject *index)
{
    struct lasso_text text = LASSO_NO_TEXT;
    Py_ssize_t code = PyNumber_AsSsize_t(index, PyExc_IndexError);
    if (code == -1 && PyErr_Occurred())
        return NULL;
    core_enter(core);
    if (!interner_is_live(&core->interner))
        return raise_status(LASSO_NO_INTERNER, -1);
    if (code < 0 || (size_t)code >= interner_len(&core->interner))
        return PyErr_Format(PyExc_IndexError, "no text has the code %zd: there are %zu texts", code, interner_len(&core->interner));
    uint32_t status = interner_text(&core->interner, (uint32_t)code, &text);
    if (status != LASSO_DONE)
        return raise_status(status, -1);
    return PyUnicode_FromStringAndSize((const char *)text.bytes, (Py_ssize_t)text.length);
}

/* A list without items for the texts from a code on. Making it may run the garbage collector, and with it any code. Other threads may append to
 * a shared interner meanwhile: the list is for the texts that there were. */
static PyObject *list_for(Core *core, size_t start)
{
    for (;;) {
        core_enter(core);
        size_t texts = interner_len(&core->interner), count = texts > start ? texts - start : 0;
        PyObject *list = PyList_New((Py_ssize_t)count);
        if (list == NULL || core->interner.is_shared || (!core->busy && interner_len(&core->interner) == texts))
            return list;
        Py_DECREF(list);
    }
}

PyObject *core_texts(Core *core, PyObject *words)
{
    Py_ssize_t start = 0;
    struct lasso_text lent[256];
    if (!PyArg_ParseTuple(words, "|n:texts", &start))
        return NULL;
    if (start < 0)
        return PyErr_Format(PyExc_ValueError, "a code of %zd", start);
    PyObject *list = list_for(core, (size_t)start);
    if (list == NULL)
        return NULL;
    if (!interner_is_live(&core->interner)) {
        Py_DECREF(list);
        return raise_status(LASSO_NO_INTERNER, -1);
    }
    for (Py_ssize_t done = 0, count = PyList_Size(list); done < count;) {
        for (size_t at = 0; at < 256; at++)
            lent[at] = (struct lasso_text)LASSO_NO_TEXT;
        size_t got = interner_texts(&core->interner, (size_t)(start + done), lent, count - done < 256 ? (size_t)(count - done) : 256);
        if (got == 0) {
            Py_DECREF(list);
            return raise_status(LASSO_NO_SUCH_CODE, -1);
        }
        for (size_t at = 0; at < got; at++, done++) {
            PyObject *text = PyUnicode_FromStringAndSize((const char *)lent[at].bytes, (Py_ssize_t)lent[at].length);
            if (text == NULL || PyList_SetItem(list, done, text) < 0) {
                Py_DECREF(list);
                return NULL;
            }
        }
    }
    return list;
}

int limit_of(PyObject *number, size_t *limit)
{
    *limit = LASSO_NO_LIMIT;
    if (number == Py_None)
        return 0;
    PyObject *whole = PyNumber_Index(number);
    if (whole == NULL && PyErr_ExceptionMatches(PyExc_TypeError)) {
        PyErr_Clear();
        PyErr_Format(PyExc_TypeError, "a limit is a whole number of bytes or None, and this is %R", number);
    }
    if (whole == NULL)
        return -1;
    *limit = PyLong_AsSize_t(whole);
    bool fits = !(*limit == (size_t)-1 && PyErr_Occurred());
    if (!fits && PyErr_ExceptionMatches(PyExc_OverflowError)) {
        PyErr_Clear();
        PyErr_Format(PyExc_ValueError, "a limit of %S bytes", whole);
    }
    Py_DECREF(whole);
    return fits ? 0 : -1;
}

static PyObject *core_open(Core *core, PyObject *words)
{
    PyObject *number;
    size_t limit;
    unsigned long long seed0, seed1;
    if (!PyArg_ParseTuple(words, "OKK", &number, &seed0, &seed1) || limit_of(number, &limit) < 0)
        return NULL;
    core_enter(core);
    uint32_t status = lasso_new_seeded(&core->interner.own, limit, seed0, seed1);
    if (status != LASSO_DONE)
        return raise_status(status, -1);
    Py_RETURN_NONE;
}

PyObject *core_clone(Core *core, PyObject *other)
{
    if (!PyObject_TypeCheck(other, (PyTypeObject *)core_type))
        return PyErr_Format(PyExc_TypeError, "no interner to clone into");
    Core *clone = (Core *)other;
    if (clone == core)
        return PyErr_Format(PyExc_ValueError, "an interner is not cloned into itself");
    do {
        core_enter(core);
        core_enter(clone);
    } while (core->busy);
    uint32_t status = interner_clone(&core->interner, &clone->interner.own);
    if (status != LASSO_DONE)
        return raise_status(status, -1);
    Py_RETURN_NONE;
}

static PyObject *core_clear(Core *core, PyObject *none)
{
    (void)none;
    core_enter(core);
    uint32_t status = lasso_clear(&core->interner.own);
    if (status != LASSO_DONE)
        return raise_status(status, -1);
    Py_RETURN_NONE;
}

static PyObject *core_close(Core *core, PyObject *none)
{
    (void)none;
    core_enter(core);
    interner_free(&core->interner);
    Py_RETURN_NONE;
}

PyObject *core_closed(Core *core, void *none)
{
    (void)none;
    core_after_fork(core);
    return PyBool_FromLong(!interner_is_live(&core->interner));
}

PyObject *core_memory(Core *core, void *none)
{
    (void)none;
    core_enter(core);
    return PyLong_FromSize_t(interner_memory(&core->interner));
}

PyObject *core_limit(Core *core, void *none)
{
    (void)none;
    core_enter(core);
    size_t limit = interner_limit(&core->interner);
    if (limit == LASSO_NO_LIMIT)
        Py_RETURN_NONE;
    return PyLong_FromSize_t(limit);
}

int core_set_limit(Core *core, PyObject *number, void *none)
{
    size_t limit;
    (void)none;
    if (number == NULL) {
        PyErr_SetString(PyExc_TypeError, "a limit can't be deleted: set it to None");
        return -1;
    }
    if (limit_of(number, &limit) < 0)
        return -1;
    core_enter(core);
    uint32_t status = interner_set_limit(&core->interner, limit);
    if (status != LASSO_DONE)
        raise_status(status, -1);
    return status == LASSO_DONE ? 0 : -1;
}

PyObject *core_new(PyTypeObject *type, PyObject *words, PyObject *named)
{
    (void)words;
    (void)named;
    allocfunc allocate = (allocfunc)PyType_GetSlot(type, Py_tp_alloc);
    Core *core = (Core *)allocate(type, 0);
    if (core == NULL)
        return NULL;
    core->next = core->previous = core;
    core->forks = forks;
    core->lock = PyThread_allocate_lock();
    if (core->lock == NULL) {
        Py_DECREF(core);
        return PyErr_NoMemory();
    }
    return (PyObject *)core;
}

/* No call runs: each has a reference of its own. */
void core_dealloc(Core *core)
{
    PyTypeObject *type = Py_TYPE((PyObject *)core);
    core_after_fork(core);
    interner_free(&core->interner);
    core->next->previous = core->previous;
    core->previous->next = core->next;
    if (core->lock != NULL)
        PyThread_free_lock(core->lock);
    ((freefunc)PyType_GetSlot(type, Py_tp_free))(core);
    Py_DECREF(type);
}

static PyMethodDef methods[] = {
    {"intern", (PyCFunction)core_intern, METH_O,
     "intern($self, text, /)\n--\n\nThe code of a text, which is appended if it is absent.\n\n"
     "Raises NotUtf8; for an absent text LimitReached, CodesExhausted or OutOfMemory. The interner is as it was then."},
    {"get", (PyCFunction)core_get, METH_O, "get($self, text, /)\n--\n\nThe code of a text, or None if it is absent. Raises NotUtf8."},
    {"texts", (PyCFunction)core_texts, METH_VARARGS,
     "texts($self, start=0, /)\n--\n\nThe texts from a code on, in the order of their codes: what a reader lacks that has those before.\n\n"
     "Raises ValueError for a code below 0."},
    {"clear", (PyCFunction)core_clear, METH_NOARGS, "clear($self, /)\n--\n\nForgets every text. Codes begin from 0 again."},
    {"close", (PyCFunction)core_close, METH_NOARGS,
     "close($self, /)\n--\n\nGives the memory back. len, memory and limit are 0 then, this call does nothing, and every other raises InternerClosed."},
    {"_open", (PyCFunction)core_open, METH_VARARGS, "_open(limit, seed0, seed1): makes an interner without texts, with a limit or None."},
    {"_clone", (PyCFunction)core_clone, METH_O, "Makes a copy of the interner in another Core."},
    {"_check_rows", (PyCFunction)core_check_rows, METH_VARARGS,
     "_check_rows(items, nulls): raises TypeError for the first item of a list or a buffer of objects that is neither a str nor a null."},
    {"_rows", (PyCFunction)core_rows, METH_VARARGS,
     "_rows(items, start, stop, first, nulls, codes, appends): writes the codes of these items to codes, from the row start + first on."},
    {"_arrow_array", (PyCFunction)core_arrow_array, METH_VARARGS,
     "_arrow_array(schema, array, column, codes, appends): appends the codes of what two capsules hold."},
    {"_arrow_stream", (PyCFunction)core_arrow_stream, METH_VARARGS,
     "_arrow_stream(stream, column, codes, appends): appends the codes of what a capsule's stream gives."},
    {"_buffers", (PyCFunction)core_buffers, METH_VARARGS,
     "_buffers(validity, offsets, bytes, offset, length, large, codes, appends): appends the codes of texts in Arrow's layout."},
    {"_dictionary_array", (PyCFunction)core_dictionary_array, METH_O,
     "_dictionary_array(codes): two capsules, a schema and an array: a dictionary array of these codes and the interner's texts."},
    {NULL, NULL, 0, NULL},
};

static PyGetSetDef properties[] = {
    {"memory", (getter)core_memory, NULL, "How many bytes the texts' buckets take.", NULL},
    {"limit", (getter)core_limit, (setter)core_set_limit, "How many bytes they may take, or None. It can be set.", NULL},
    {"closed", (getter)core_closed, NULL, "Whether the interner was closed.", NULL},
    {NULL, NULL, NULL, NULL, NULL},
};

static PyType_Slot slots[] = {
    {Py_tp_doc, "What holds an interner of the library for C."},
    {Py_tp_new, core_new},
    {Py_tp_dealloc, core_dealloc},
    {Py_tp_methods, methods},
    {Py_tp_getset, properties},
    {Py_mp_length, core_len},
    {Py_mp_subscript, core_item},
    {Py_sq_contains, core_contains},
    {0, NULL},
};

static PyType_Spec spec = {"lasso._core.Core", sizeof(Core), 0, Py_TPFLAGS_DEFAULT | Py_TPFLAGS_BASETYPE, slots};

static void set(PyObject **place, PyObject *object)
{
    Py_XDECREF(*place);
    *place = object;
}

static int load(PyObject *module)
{
    int64_t here = PyInterpreterState_GetID(PyInterpreterState_Get());
    if (interpreter >= 0 && here != interpreter) {
        PyErr_SetString(PyExc_ImportError, "lasso can't be used in a subinterpreter beside another interpreter that uses it");
        return -1;
    }
    if (interpreter < 0 && pthread_atfork(NULL, NULL, count_fork) != 0) {
        PyErr_NoMemory();
        return -1;
    }
    PyObject *errors = PyImport_ImportModule("lasso.errors");
    if (errors == NULL)
        return -1;
    set(&error_of, PyObject_GetAttrString(errors, "error_of"));
    set(&wrong_layout, PyObject_GetAttrString(errors, "WrongLayout"));
    Py_DECREF(errors);
    set(&core_type, PyType_FromSpec(&spec));
    if (error_of == NULL || wrong_layout == NULL || core_type == NULL || PyModule_AddObjectRef(module, "Core", core_type) < 0)
        return -1;
    PyObject *seat = seat_type();
    if (seat == NULL || PyModule_AddObjectRef(module, "Seat", seat) < 0)
        return -1;
    interpreter = here;
    return 0;
}

static PyModuleDef_Slot parts[] = {{Py_mod_exec, load}, {0, NULL}};

static struct PyModuleDef definition = {
    PyModuleDef_HEAD_INIT, "lasso._core", "The calls of lasso's library for C.", 0, NULL, parts, NULL, NULL, NULL,
};

PyMODINIT_FUNC PyInit__core(void)
{
    return PyModuleDef_Init(&definition);
}
