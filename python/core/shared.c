/* The type Seat: one thread's handle of an interner that threads share. */
#include "core.h"

static PyObject *seats;

static PyObject *seat_new(PyTypeObject *type, PyObject *words, PyObject *named)
{
    Core *seat = (Core *)core_new(type, words, named);
    if (seat != NULL)
        seat->interner.is_shared = true;
    return (PyObject *)seat;
}

static PyObject *seat_open(Core *seat, PyObject *words)
{
    PyObject *number;
    size_t limit;
    unsigned long long seed0, seed1;
    if (!PyArg_ParseTuple(words, "OKK", &number, &seed0, &seed1) || limit_of(number, &limit) < 0)
        return NULL;
    uint32_t status = lasso_shared_new_seeded(&seat->interner.shared, seed0, seed1);
    if (status == LASSO_DONE)
        status = interner_set_limit(&seat->interner, limit);
    if (status != LASSO_DONE)
        return raise_status(status, -1);
    Py_RETURN_NONE;
}

/* A handle of the same interner, for the thread that asks for it. */
static PyObject *seat_join(Core *seat, PyObject *none)
{
    Core *other = (Core *)seat_new(Py_TYPE((PyObject *)seat), NULL, NULL);
    (void)none;
    if (other == NULL)
        return NULL;
    core_enter(seat);
    uint32_t status = lasso_shared_join(&seat->interner.shared, &other->interner.shared);
    if (status != LASSO_DONE) {
        Py_DECREF(other);
        return raise_status(status, -1);
    }
    other->next = seat->next;
    other->previous = seat;
    seat->next->previous = other;
    seat->next = other;
    return (PyObject *)other;
}

/* Frees every handle of the interner: those of calls that let the GIL go at the end of these. */
static PyObject *seat_close(Core *seat, PyObject *none)
{
    Core *each = seat;
    (void)none;
    core_after_fork(seat);
    do {
        if (each->busy)
            each->closes = true;
        else
            interner_free(&each->interner);
        each = each->next;
    } while (each != seat);
    Py_RETURN_NONE;
}

/* Frees every other handle of an interner that no call uses, freezes it by the last one, and makes the others again: a frozen one lends all texts. */
static uint32_t freeze_ring(Core *seat)
{
    Core *each;
    for (each = seat->next; each != seat; each = each->next)
        lasso_shared_free(&each->interner.shared);
    uint32_t status = lasso_shared_freeze(&seat->interner.shared);
    if (status != LASSO_DONE)
        return status;
    seat->interner.is_frozen = true;
    for (each = seat->next; each != seat; each = each->next) {
        if (lasso_shared_join(&seat->interner.shared, &each->interner.shared) != LASSO_DONE)
            status = LASSO_NO_MEMORY;
    }
    return status;
}

/* Freezes the interner, once no handle of it is in a call that let the GIL go. Until then no call begins, and no handle joins this one. */
static PyObject *seat_freeze(Core *seat, PyObject *none)
{
    Core *each, *next;
    (void)none;
    core_take(seat);
    for (each = seat->next; each != seat; each = each->next)
        each->freezer = seat;
    for (each = seat->next; each != seat; each = next) {
        Py_INCREF((PyObject *)each);
        core_wait(each);
        next = each->next;
        Py_DECREF(each);
    }
    uint32_t status = seat->closes ? LASSO_NO_INTERNER : freeze_ring(seat);
    for (each = seat->next; each != seat; each = each->next)
        each->freezer = NULL;
    core_give(seat);
    if (status != LASSO_DONE)
        return raise_status(status, -1);
    Py_RETURN_NONE;
}

static PyObject *seat_frozen(Core *seat, void *none)
{
    (void)none;
    return PyBool_FromLong(seat->interner.is_frozen);
}

static PyMethodDef methods[] = {
    {"open", (PyCFunction)seat_open, METH_VARARGS, "open($self, limit, seed0, seed1, /)\n--\n\nMakes an interner without texts, with a limit or None."},
    {"join", (PyCFunction)seat_join, METH_NOARGS, "join($self, /)\n--\n\nAnother handle of the same interner. Raises InternerClosed or OutOfMemory."},
    {"close", (PyCFunction)seat_close, METH_NOARGS, "close($self, /)\n--\n\nCloses the interner for all of its handles."},
    {"freeze", (PyCFunction)seat_freeze, METH_NOARGS,
     "freeze($self, /)\n--\n\nEnds interning by all handles of the interner. To be called on the handle that others join. Raises InternerClosed or\n"
     "OutOfMemory: then it is frozen, and a handle that got no memory holds none."},
    {"intern", (PyCFunction)core_intern, METH_O, "intern($self, text, /)\n--\n\nThe code of a text, which is appended if it is absent."},
    {"get", (PyCFunction)core_get, METH_O, "get($self, text, /)\n--\n\nThe code of a text, or None if it is absent."},
    {"texts", (PyCFunction)core_texts, METH_VARARGS, "texts($self, start=0, /)\n--\n\nThe texts from a code on, in the order of their codes."},
    {"_clone", (PyCFunction)core_clone, METH_O, "Makes a copy of the texts of now in a Core."},
    {"_check_rows", (PyCFunction)core_check_rows, METH_VARARGS, "As Core._check_rows."},
    {"_rows", (PyCFunction)core_rows, METH_VARARGS, "As Core._rows; it lets the GIL go for each batch of 1,024 rows or 32 KiB."},
    {"_arrow_array", (PyCFunction)core_arrow_array, METH_VARARGS, "As Core._arrow_array."},
    {"_arrow_stream", (PyCFunction)core_arrow_stream, METH_VARARGS, "As Core._arrow_stream."},
    {"_buffers", (PyCFunction)core_buffers, METH_VARARGS, "As Core._buffers."},
    {NULL, NULL, 0, NULL},
};

static PyGetSetDef properties[] = {
    {"memory", (getter)core_memory, NULL, "How many bytes the texts' buckets take.", NULL},
    {"limit", (getter)core_limit, (setter)core_set_limit, "How many bytes they may take, or None. It can be set.", NULL},
    {"closed", (getter)core_closed, NULL, "Whether the interner was closed.", NULL},
    {"frozen", (getter)seat_frozen, NULL, "Whether this handle froze the interner.", NULL},
    {NULL, NULL, NULL, NULL, NULL},
};

static PyType_Slot slots[] = {
    {Py_tp_doc, "One thread's handle of an interner that threads share."},
    {Py_tp_new, seat_new},
    {Py_tp_dealloc, core_dealloc},
    {Py_tp_methods, methods},
    {Py_tp_getset, properties},
    {Py_mp_length, core_len},
    {Py_mp_subscript, core_item},
    {Py_sq_contains, core_contains},
    {0, NULL},
};

static PyType_Spec spec = {"lasso._core.Seat", sizeof(Core), 0, Py_TPFLAGS_DEFAULT, slots};

PyObject *seat_type(void)
{
    Py_XDECREF(seats);
    seats = PyType_FromSpec(&spec);
    return seats;
}
