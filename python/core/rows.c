/* Rows of Python objects, str and nulls, in one pass; and the batches in which rows cross to the library. */
#include "core.h"

#include <math.h>
#include <stdlib.h>
#include <string.h>

enum { AHEAD = 16 };

void batch_begin(struct batch *batch, struct interner *interner, bool appends, uint32_t *codes, size_t first)
{
    batch->interner = interner;
    batch->lets_go = NULL;
    batch->appends = appends;
    batch->codes = codes;
    batch->first = first;
    batch->rows = batch->bytes = 0;
    batch->has_nulls = false;
    batch->offsets[0] = 0;
    memset(batch->present, 0xff, sizeof batch->present);
}

static void run_batch(void *with)
{
    struct batch *batch = with;
    struct rows rows = {batch->texts, batch->bytes, batch->offsets, false, batch->rows, batch->has_nulls ? batch->present : NULL};
    batch->status = interner_rows(batch->interner, batch->appends, &rows, batch->codes + batch->first, &batch->refused);
    batch->refused += batch->first;
}

uint32_t batch_end(struct batch *batch)
{
    Core *lets_go = batch->lets_go;
    if (batch->rows == 0)
        return LASSO_DONE;
    if (lets_go != NULL)
        core_without_gil(lets_go, run_batch, batch);
    else
        run_batch(batch);
    if (batch->status == LASSO_DONE) {
        batch_begin(batch, batch->interner, batch->appends, batch->codes, batch->first + batch->rows);
        batch->lets_go = lets_go;
    }
    return batch->status;
}

/* A text that has no room in a batch, after what was gathered. */
static uint32_t one_text(struct batch *batch, const uint8_t *text, size_t length)
{
    uint32_t *code = &batch->codes[batch->first];
    uint32_t status = interner_wait(batch->interner, batch->appends, text, length, code);
    batch->refused = batch->first;
    if (status == LASSO_NO_SUCH_TEXT) {
        *code = LASSO_ABSENT;
        status = LASSO_DONE;
    }
    batch->first += status == LASSO_DONE;
    return status;
}

uint32_t batch_text(struct batch *batch, const uint8_t *text, size_t length)
{
    if (batch->rows == BATCH_ROWS || length > BATCH_BYTES - batch->bytes) {
        uint32_t status = batch_end(batch);
        if (status != LASSO_DONE)
            return status;
        if (length > BATCH_BYTES)
            return one_text(batch, text, length);
    }
    if (length > 0)
        memcpy(batch->texts + batch->bytes, text, length);
    batch->bytes += length;
    batch->offsets[++batch->rows] = (int32_t)batch->bytes;
    return LASSO_DONE;
}

uint32_t batch_null(struct batch *batch)
{
    uint32_t status = batch_text(batch, NULL, 0);
    if (status == LASSO_DONE) {
        size_t row = batch->rows - 1;
        batch->present[row / 8] &= (uint8_t)~(1u << row % 8);
        batch->has_nulls = true;
    }
    return status;
}

/* Items of a list, or of a buffer of objects, as an array of numpy has it. They are borrowed while the GIL is kept. */
struct items {
    PyObject *list; /* NULL for a buffer */
    Py_buffer view;
    Py_ssize_t count;
};

static int items_of(PyObject *object, struct items *items)
{
    items->list = NULL;
    if (PyList_Check(object)) {
        items->list = object;
        items->count = PyList_Size(object);
        return 0;
    }
    if (PyObject_GetBuffer(object, &items->view, PyBUF_FORMAT | PyBUF_STRIDES) < 0)
        return -1;
    if (items->view.ndim != 1 || items->view.itemsize != sizeof(PyObject *) || items->view.format == NULL || strcmp(items->view.format, "O") != 0) {
        PyBuffer_Release(&items->view);
        PyErr_SetString(PyExc_TypeError, "neither a list nor an array of objects");
        return -1;
    }
    items->count = items->view.shape[0];
    return 0;
}

static void items_end(struct items *items)
{
    if (items->list == NULL)
        PyBuffer_Release(&items->view);
}

/* A borrowed item, or NULL for an array's entry without an object. */
static PyObject *item_at(const struct items *items, Py_ssize_t at)
{
    if (items->list != NULL)
        return PyList_GetItem(items->list, at);
    PyObject *item;
    memcpy(&item, (char *)items->view.buf + at * items->view.strides[0], sizeof item);
    return item;
}

static bool is_null(PyObject *item, PyObject *nulls)
{
    if (item == NULL || item == Py_None)
        return true;
    if (PyFloat_Check(item))
        return isnan(PyFloat_AsDouble(item));
    for (Py_ssize_t at = 0; at < PyTuple_Size(nulls); at++) {
        if (item == PyTuple_GetItem(nulls, at))
            return true;
    }
    return false;
}

static bool is_text(PyObject *item)
{
    return item != NULL && (Py_IS_TYPE(item, &PyUnicode_Type) || PyUnicode_Check(item));
}

/* Begins to read an item that is needed soon: what says of which type it is, and where a short text of it ends. */
static void read_ahead(const struct items *items, Py_ssize_t at, bool with_text)
{
    const char *item = at < items->count ? (const char *)item_at(items, at) : NULL;
    if (item == NULL)
        return;
    __builtin_prefetch(item);
    if (with_text)
        __builtin_prefetch(item + 64);
}

static void raise_item(PyObject *item, Py_ssize_t row)
{
    PyObject *name = PyType_GetName(Py_TYPE(item));
    if (name != NULL)
        PyErr_Format(PyExc_TypeError, "text %zd is a %U, not a str", row, name);
    Py_XDECREF(name);
}

PyObject *core_check_rows(Core *core, PyObject *words)
{
    PyObject *object, *nulls;
    struct items items;
    (void)core;
    if (!PyArg_ParseTuple(words, "OO!", &object, &PyTuple_Type, &nulls) || items_of(object, &items) < 0)
        return NULL;
    for (Py_ssize_t row = 0; row < items.count; row++) {
        read_ahead(&items, row + AHEAD, false);
        PyObject *item = item_at(&items, row);
        if (!is_text(item) && !is_null(item, nulls)) {
            raise_item(item, row);
            break;
        }
    }
    items_end(&items);
    if (PyErr_Occurred())
        return NULL;
    Py_RETURN_NONE;
}

/* Sets the exception of a refused batch. Returns -1. */
static int raise_batch(const struct batch *batch, uint32_t status)
{
    raise_status(status, status == LASSO_NO_INTERNER ? -1 : (Py_ssize_t)batch->refused);
    return -1;
}

/* Takes one more item. Returns -1 with an exception that has the row. */
static int take(Core *core, PyObject *item, Py_ssize_t row, PyObject *nulls, struct batch *batch)
{
    const uint8_t *text;
    size_t length;
    uint32_t status, refused = LASSO_DONE;
    if (is_text(item)) {
        refused = text_of(item, &text, &length);
        /* Python's own exception may have run the garbage collector, and another thread, which is in a call now. */
        if (refused != LASSO_DONE)
            core_enter(core);
        status = refused == LASSO_DONE ? batch_text(batch, text, length) : batch_end(batch);
    } else if (is_null(item, nulls)) {
        status = batch_null(batch);
    } else {
        raise_item(item, row);
        return -1;
    }
    if (status == LASSO_DONE && refused != LASSO_DONE)
        raise_status(refused, row);
    else if (status != LASSO_DONE)
        raise_batch(batch, status);
    return status == LASSO_DONE && refused == LASSO_DONE ? 0 : -1;
}

/* Takes an item that other threads may let go while the GIL is. They may have changed the list before. */
static int take_shared(Core *core, struct items *items, Py_ssize_t at, Py_ssize_t row, PyObject *nulls, struct batch *batch)
{
    items->count = items->list != NULL ? PyList_Size(items->list) : items->count;
    if (at >= items->count) {
        PyErr_SetString(PyExc_RuntimeError, "the texts changed while they were encoded");
        return -1;
    }
    PyObject *item = Py_XNewRef(item_at(items, at));
    int taken = take(core, item, row, nulls, batch);
    Py_XDECREF(item);
    return taken;
}

/* Interns or looks up the items from start up to stop. Returns -1 with an exception that has the position after `first`. */
static int pass(Core *core, struct items *items, Py_ssize_t start, Py_ssize_t stop, Py_ssize_t first, PyObject *nulls, struct batch *batch)
{
    for (Py_ssize_t at = start; at < stop; at++) {
        int taken;
        if (batch->lets_go != NULL)
            taken = take_shared(core, items, at, first + at, nulls, batch);
        else {
            read_ahead(items, at + AHEAD, true);
            taken = take(core, item_at(items, at), first + at, nulls, batch);
        }
        if (taken < 0)
            return -1;
    }
    uint32_t status = batch_end(batch);
    return status == LASSO_DONE ? 0 : raise_batch(batch, status);
}

PyObject *core_rows(Core *core, PyObject *words)
{
    PyObject *object, *nulls, *target;
    Py_ssize_t start, stop, first;
    int appends;
    Py_buffer codes;
    struct items items;
    if (!PyArg_ParseTuple(words, "OnnnO!Op", &object, &start, &stop, &first, &PyTuple_Type, &nulls, &target, &appends)
        || items_of(object, &items) < 0)
        return NULL;
    if (PyObject_GetBuffer(target, &codes, PyBUF_WRITABLE) < 0) {
        items_end(&items);
        return NULL;
    }
    /* A thread's stack may have no room for it. */
    struct batch *batch = malloc(sizeof *batch);
    core_enter(core);
    /* Another thread may have changed the list since it was counted. */
    items.count = items.list != NULL ? PyList_Size(items.list) : items.count;
    if (start < 0 || first < 0 || start > stop || stop > items.count || first > codes.len / 4 - stop)
        PyErr_SetString(PyExc_RuntimeError, "the texts changed while they were encoded");
    else if (!interner_is_live(&core->interner))
        raise_status(LASSO_NO_INTERNER, -1);
    else if (batch == NULL)
        raise_status(LASSO_NO_MEMORY, -1);
    else {
        batch_begin(batch, &core->interner, appends, codes.buf, (size_t)(first + start));
        batch->lets_go = core->interner.is_shared ? core : NULL;
        pass(core, &items, start, stop, first, nulls, batch);
    }
    free(batch);
    PyBuffer_Release(&codes);
    items_end(&items);
    if (PyErr_Occurred())
        return NULL;
    Py_RETURN_NONE;
}
