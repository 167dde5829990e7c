/* Codes as an Arrow dictionary array, whose buffers are copies: what happens to the codes and the interner later doesn't change it. */
#include "core.h"

#include <stdlib.h>
#include <string.h>

static void release_schema(struct ArrowSchema *schema)
{
    if (schema->dictionary != NULL && schema->dictionary->release != NULL)
        schema->dictionary->release(schema->dictionary);
    free(schema->dictionary);
    schema->release = NULL;
}

/* An array owns a list of three buffers, of which some may be NULL, and its dictionary. */
static void release_array(struct ArrowArray *array)
{
    if (array->dictionary != NULL && array->dictionary->release != NULL)
        array->dictionary->release(array->dictionary);
    free(array->dictionary);
    for (int at = 0; array->buffers != NULL && at < 3; at++)
        free((void *)array->buffers[at]);
    free(array->buffers);
    array->release = NULL;
}

static void end_schema(PyObject *capsule)
{
    struct ArrowSchema *schema = PyCapsule_GetPointer(capsule, "arrow_schema");
    if (schema->release != NULL)
        schema->release(schema);
    free(schema);
}

static void end_array(PyObject *capsule)
{
    struct ArrowArray *array = PyCapsule_GetPointer(capsule, "arrow_array");
    if (array->release != NULL)
        array->release(array);
    free(array);
}

/* A capsule of an empty struct of this size, whose `release` is set by the caller. NULL with an exception. */
static PyObject *capsule_of(size_t size, const char *name, PyCapsule_Destructor end, void **made)
{
    *made = calloc(1, size);
    if (*made == NULL)
        return raise_status(LASSO_NO_MEMORY, -1);
    PyObject *capsule = PyCapsule_New(*made, name, end);
    if (capsule == NULL)
        free(*made);
    return capsule;
}

static void make_schema(struct ArrowSchema *schema, const char *format)
{
    schema->format = format;
    schema->name = "";
    schema->flags = ARROW_FLAG_NULLABLE;
    schema->release = release_schema;
}

static bool make_array(struct ArrowArray *array, int64_t length, int64_t buffers)
{
    array->length = length;
    array->n_buffers = buffers;
    array->release = release_array;
    array->buffers = calloc(3, sizeof *array->buffers);
    return array->buffers != NULL;
}

/* The dictionary: all texts of the interner. Returns a status. */
static uint32_t make_texts(struct lasso *lasso, struct ArrowArray *array, bool large)
{
    struct lasso_report sizes = {0, 0, 0}, report;
    size_t count = lasso_len(lasso), width = large ? 8 : 4;
    if (!make_array(array, (int64_t)count, 3))
        return LASSO_NO_MEMORY;
    void *offsets = malloc(width * (count + 1));
    array->buffers[1] = offsets;
    if (offsets == NULL)
        return LASSO_NO_MEMORY;
    uint32_t status = large ? lasso_dictionary_large(lasso, 0, NULL, 0, offsets, count + 1, &sizes)
                            : lasso_dictionary(lasso, 0, NULL, 0, offsets, count + 1, &sizes);
    if (status != LASSO_DONE && status != LASSO_BYTES_TOO_SHORT)
        return status;
    uint8_t *bytes = malloc(sizes.bytes + 1);
    array->buffers[2] = bytes;
    if (bytes == NULL)
        return LASSO_NO_MEMORY;
    return large ? lasso_dictionary_large(lasso, 0, bytes, sizes.bytes, offsets, count + 1, &report)
                 : lasso_dictionary(lasso, 0, bytes, sizes.bytes, offsets, count + 1, &report);
}

/* A bitmap with a 0 for each null, and the nulls' indices as 0. Returns whether there was memory. */
static bool mark_nulls(struct ArrowArray *array, uint32_t *indices)
{
    uint8_t *bits = calloc((size_t)array->length / 8 + 1, 1);
    array->buffers[0] = bits;
    for (int64_t row = 0; bits != NULL && row < array->length; row++) {
        if (indices[row] == LASSO_NULL)
            indices[row] = 0;
        else
            bits[row / 8] |= (uint8_t)(1u << row % 8);
    }
    return bits != NULL;
}

/* The indices: the codes. Returns a status; LASSO_NO_SUCH_CODE with the row of a code that has no text. */
static uint32_t make_indices(struct lasso *lasso, struct ArrowArray *array, const Py_buffer *codes, int64_t *row)
{
    size_t texts = lasso_len(lasso), count = (size_t)codes->len / 4;
    uint32_t *indices = malloc(4 * count + 1);
    if (!make_array(array, (int64_t)count, 2) || indices == NULL) {
        free(indices);
        return LASSO_NO_MEMORY;
    }
    array->buffers[1] = memcpy(indices, codes->buf, 4 * count);
    for (*row = 0; *row < array->length; ++*row) {
        if (indices[*row] == LASSO_NULL)
            array->null_count++;
        else if (indices[*row] >= texts)
            return LASSO_NO_SUCH_CODE;
    }
    return array->null_count == 0 || mark_nulls(array, indices) ? LASSO_DONE : LASSO_NO_MEMORY;
}

/* Fills the two structs. Returns -1 with an exception; what was made is released with the structs. */
static int fill(struct lasso *lasso, const Py_buffer *codes, struct ArrowSchema *schema, struct ArrowArray *array)
{
    int64_t row = 0;
    bool large = false;
    if (!lasso->live)
        return raise_status(LASSO_NO_INTERNER, -1), -1;
    uint32_t status = make_indices(lasso, array, codes, &row);
    if (status == LASSO_NO_SUCH_CODE) {
        PyErr_Format(PyExc_ValueError, "the code of row %lld has no text: there are %zu texts", (long long)row, lasso_len(lasso));
        return -1;
    }
    schema->dictionary = calloc(1, sizeof *schema->dictionary);
    array->dictionary = calloc(1, sizeof *array->dictionary);
    if (status != LASSO_DONE || schema->dictionary == NULL || array->dictionary == NULL)
        return raise_status(LASSO_NO_MEMORY, -1), -1;
    status = make_texts(lasso, array->dictionary, false);
    if (status == LASSO_TOO_MANY_BYTES) {
        large = true;
        release_array(array->dictionary);
        memset(array->dictionary, 0, sizeof *array->dictionary);
        status = make_texts(lasso, array->dictionary, true);
    }
    if (status != LASSO_DONE)
        return raise_status(status, -1), -1;
    make_schema(schema->dictionary, large ? "U" : "u");
    make_schema(schema, lasso_len(lasso) > INT32_MAX ? "I" : "i");
    return 0;
}

PyObject *core_dictionary_array(Core *core, PyObject *object)
{
    struct ArrowSchema *schema;
    struct ArrowArray *array;
    Py_buffer codes;
    PyObject *pair = NULL, *first = capsule_of(sizeof *schema, "arrow_schema", end_schema, (void **)&schema);
    PyObject *second = first == NULL ? NULL : capsule_of(sizeof *array, "arrow_array", end_array, (void **)&array);
    if (second != NULL && PyObject_GetBuffer(object, &codes, PyBUF_SIMPLE) == 0) {
        core_enter(core);
        schema->release = release_schema;
        array->release = release_array;
        if (fill(&core->interner.own, &codes, schema, array) == 0)
            pair = PyTuple_Pack(2, first, second);
        PyBuffer_Release(&codes);
    }
    Py_XDECREF(first);
    Py_XDECREF(second);
    return pair;
}
