/* Arrow arrays and streams to codes: chunk by chunk, without the GIL if a chunk is long, and each released once. */
#include "core.h"

#include <stdlib.h>
#include <string.h>

/* From how many rows on a chunk lets the GIL go. */
enum { LONG_ROWS = 4096 };

/* A chunk on its way to codes. */
struct chunk {
    struct column column;
    struct interner *interner;
    bool appends;
    uint32_t *codes;
    uint32_t *known; /* for a dictionary: the code of each of its texts, once it was met */
    uint32_t status;
    bool past_dictionary;
    int64_t refused;
    struct batch batch;
};

/* Whether a row of the column, counted from the chunk's first one, is hidden by a null of its struct. */
static bool is_hidden(const struct column *column, int64_t row)
{
    return !is_present(column->struct_validity, column->struct_offset + row);
}

static uint32_t refuse(struct chunk *chunk, uint32_t status, int64_t row)
{
    chunk->refused = row;
    return status;
}

/* Rows from one up to another by batches, into which the texts are copied. */
static uint32_t gather(struct chunk *chunk, int64_t from, int64_t to)
{
    struct batch *batch = &chunk->batch;
    batch_begin(batch, chunk->interner, chunk->appends, chunk->codes, (size_t)from);
    for (int64_t row = from; row < to; row++) {
        const uint8_t *text = NULL;
        size_t length = 0;
        uint32_t wrong = is_hidden(&chunk->column, row) ? LASSO_DONE : text_at(&chunk->column.texts, chunk->column.offset + row, &text, &length);
        uint32_t status = wrong != LASSO_DONE ? batch_end(batch) : text == NULL ? batch_null(batch) : batch_text(batch, text, length);
        if (status != LASSO_DONE)
            return refuse(chunk, status, (int64_t)batch->refused);
        if (wrong != LASSO_DONE)
            return refuse(chunk, wrong, row);
    }
    /* First: it says which row is refused. */
    uint32_t status = batch_end(batch);
    return refuse(chunk, status, (int64_t)batch->refused);
}

/* Rows from one up to the end as they are, without a copy. Of a bitmap the first of these rows has the first bit of a byte. */
static uint32_t lend(struct chunk *chunk, int64_t from)
{
    struct texts *texts = &chunk->column.texts;
    int64_t row = chunk->column.offset + from;
    bool is_large = texts->layout == LAYOUT_LARGE;
    struct rows rows = {
        .bytes = texts->bytes,
        .bytes_length = (size_t)texts->size,
        .offsets = (const uint8_t *)texts->offsets + (is_large ? 8 : 4) * row,
        .has_long_offsets = is_large,
        .count = (size_t)(chunk->column.length - from),
        .present = texts->validity == NULL ? NULL : texts->validity + row / 8,
    };
    size_t refused;
    uint32_t status = interner_rows(chunk->interner, chunk->appends, &rows, chunk->codes + from, &refused);
    return refuse(chunk, status, from + (int64_t)refused);
}

/* The code of a text of the dictionary, once it is met first. */
static uint32_t meet(struct chunk *chunk, int64_t index, uint32_t *code)
{
    const uint8_t *text;
    size_t length;
    uint32_t status = text_at(&chunk->column.texts, chunk->column.texts.offset + index, &text, &length);
    *code = LASSO_NULL;
    if (status != LASSO_DONE || text == NULL)
        return status;
    status = interner_wait(chunk->interner, chunk->appends, text, length, code);
    return status == LASSO_NO_SUCH_TEXT ? LASSO_DONE : status;
}

/* Rows that are indices into a dictionary: a text is interned when the first row has it. */
static uint32_t by_dictionary(struct chunk *chunk)
{
    struct column *column = &chunk->column;
    uint8_t *met = (uint8_t *)(chunk->known + column->texts.length);
    for (int64_t row = 0; row < column->length; row++) {
        chunk->codes[row] = LASSO_NULL;
        if (is_hidden(column, row) || !is_present(column->rows_validity, column->offset + row))
            continue;
        int64_t index = index_at(column, column->offset + row);
        if (index < 0) {
            chunk->past_dictionary = true;
            return refuse(chunk, LASSO_NO_SUCH_CODE, row);
        }
        if (!met[index]) {
            uint32_t status = meet(chunk, index, &chunk->known[index]);
            if (status != LASSO_DONE)
                return refuse(chunk, status, row);
            met[index] = 1;
        }
        chunk->codes[row] = chunk->known[index];
    }
    return LASSO_DONE;
}

/* The whole chunk. It needs no GIL. */
static void encode_chunk(void *with)
{
    struct chunk *chunk = with;
    struct column *column = &chunk->column;
    bool as_it_is = column->texts.layout <= LAYOUT_LARGE && column->struct_validity == NULL && (chunk->appends || column->texts.validity == NULL);
    /* Rows before the first one that begins a byte of the bitmap. */
    int64_t head = column->texts.validity == NULL ? 0 : (8 - column->offset % 8) % 8;
    if (!as_it_is || head > column->length)
        head = column->length;
    if (!interner_is_live(chunk->interner))
        chunk->status = LASSO_NO_INTERNER;
    else if (column->index != 0)
        chunk->status = by_dictionary(chunk);
    else {
        chunk->status = gather(chunk, 0, head);
        if (chunk->status == LASSO_DONE && head < column->length)
            chunk->status = lend(chunk, head);
    }
}

/* Sets the exception of a refused chunk, whose first row is the row `first` of all. */
static void raise_chunk(const struct chunk *chunk, Py_ssize_t first)
{
    Py_ssize_t row = first + (Py_ssize_t)chunk->refused;
    if (chunk->past_dictionary)
        raise_layout(row, "an index is past the Arrow array's dictionary of %lld texts", (long long)chunk->column.texts.length);
    else
        raise_status(chunk->status, chunk->status == LASSO_NO_INTERNER ? -1 : row);
}

/* Appends the codes to an array of Python. */
static int append_codes(PyObject *codes, uint32_t *from, size_t count)
{
    PyObject *view = PyMemoryView_FromMemory((char *)from, (Py_ssize_t)(4 * count), PyBUF_READ);
    if (view == NULL)
        return -1;
    PyObject *none = PyObject_CallMethod(codes, "frombytes", "O", view);
    Py_DECREF(view);
    Py_XDECREF(none);
    return none == NULL ? -1 : 0;
}

/* Interns or looks up a checked column, and appends its codes. Returns -1 with an exception. */
static int encode_column(Core *core, const struct column *column, bool appends, PyObject *codes)
{
    Py_ssize_t first = PyObject_Size(codes);
    struct chunk *chunk = calloc(1, sizeof *chunk);
    size_t texts = column->index == 0 ? 0 : (size_t)column->texts.length;
    if (first < 0 || chunk == NULL) {
        free(chunk);
        return first < 0 ? -1 : (raise_status(LASSO_NO_MEMORY, -1), -1);
    }
    chunk->column = *column;
    chunk->interner = &core->interner;
    chunk->appends = appends;
    chunk->codes = malloc(4 * (size_t)column->length + 1);
    chunk->known = calloc(texts + 1, 5);
    if (chunk->codes == NULL || chunk->known == NULL)
        raise_status(LASSO_NO_MEMORY, -1);
    else {
        core_enter(core);
        if (column->length < LONG_ROWS)
            encode_chunk(chunk);
        else
            core_without_gil(core, encode_chunk, chunk);
        if (chunk->status != LASSO_DONE)
            raise_chunk(chunk, first);
        else
            append_codes(codes, chunk->codes, (size_t)column->length);
    }
    free(chunk->codes);
    free(chunk->known);
    free(chunk);
    return PyErr_Occurred() ? -1 : 0;
}

/* What a capsule of this name points to. */
static void *pointer_of(PyObject *capsule, const char *name)
{
    if (PyCapsule_IsValid(capsule, name))
        return PyCapsule_GetPointer(capsule, name);
    PyErr_Format(PyExc_TypeError, "no capsule '%s' came from an Arrow array", name);
    return NULL;
}

/* A struct is taken out of its capsule, which is empty then, and released here, once. What is released may run code of Python, which must not
 * see an exception that was set before. */
#define RELEASE(kind)                                   \
    static void release_##kind(struct kind *taken)      \
    {                                                   \
        PyObject *type, *fault, *traceback;             \
        if (taken->release == NULL)                     \
            return;                                     \
        PyErr_Fetch(&type, &fault, &traceback);         \
        taken->release(taken);                          \
        taken->release = NULL;                          \
        PyErr_Restore(type, fault, traceback);          \
    }
RELEASE(ArrowSchema)
RELEASE(ArrowArray)
RELEASE(ArrowArrayStream)

/* Reads and encodes one array, which stays the caller's. */
static int encode_array(Core *core, const struct ArrowArray *array, const struct type *type, bool appends, PyObject *codes)
{
    struct column column;
    return read_array(array, type, &column) < 0 ? -1 : encode_column(core, &column, appends, codes);
}

PyObject *core_arrow_array(Core *core, PyObject *words)
{
    PyObject *schema_capsule, *array_capsule, *codes;
    const char *column;
    int appends;
    struct type type;
    if (!PyArg_ParseTuple(words, "OOzOp", &schema_capsule, &array_capsule, &column, &codes, &appends))
        return NULL;
    struct ArrowSchema *schema_struct = pointer_of(schema_capsule, "arrow_schema"), schema;
    struct ArrowArray *array_struct = schema_struct == NULL ? NULL : pointer_of(array_capsule, "arrow_array"), array;
    if (array_struct == NULL)
        return NULL;
    schema = *schema_struct;
    schema_struct->release = NULL;
    array = *array_struct;
    array_struct->release = NULL;
    if (read_schema(&schema, column, &type) == 0)
        encode_array(core, &array, &type, appends, codes);
    release_ArrowArray(&array);
    release_ArrowSchema(&schema);
    if (PyErr_Occurred())
        return NULL;
    Py_RETURN_NONE;
}

/* Sets the exception of a stream's error number. Returns -1. */
static int raise_stream(struct ArrowArrayStream *stream, int number)
{
    const char *said = stream->get_last_error == NULL ? NULL : stream->get_last_error(stream);
    PyObject *message = said == NULL ? NULL : PyUnicode_DecodeUTF8(said, (Py_ssize_t)strlen(said), "replace");
    PyErr_Clear();
    PyObject *fault = message == NULL ? PyObject_CallFunction(PyExc_OSError, "is", number, "the Arrow stream failed, and doesn't say why")
                                      : PyObject_CallFunction(PyExc_OSError, "iO", number, message);
    Py_XDECREF(message);
    if (fault != NULL) {
        PyErr_SetObject((PyObject *)Py_TYPE(fault), fault);
        Py_DECREF(fault);
    }
    return -1;
}

/* Asks the stream for its schema, or its next array, without the GIL: it may wait for another thread. */
static int ask(struct ArrowArrayStream *stream, struct ArrowSchema *schema, struct ArrowArray *array)
{
    int number;
    Py_BEGIN_ALLOW_THREADS
    number = schema != NULL ? stream->get_schema(stream, schema) : stream->get_next(stream, array);
    Py_END_ALLOW_THREADS
    return number == 0 ? 0 : raise_stream(stream, number);
}

/* Encodes the arrays of a stream up to its end. */
static int encode_stream(Core *core, struct ArrowArrayStream *stream, const char *column, bool appends, PyObject *codes)
{
    struct ArrowSchema schema = {0};
    struct type type;
    if (stream->release == NULL || stream->get_schema == NULL || stream->get_next == NULL)
        return raise_layout(-1, "an Arrow stream that was released already");
    if (ask(stream, &schema, NULL) < 0)
        return -1;
    int done = read_schema(&schema, column, &type);
    while (done == 0) {
        struct ArrowArray array = {0};
        done = ask(stream, NULL, &array);
        if (done < 0 || array.release == NULL)
            break;
        done = encode_array(core, &array, &type, appends, codes);
        release_ArrowArray(&array);
        if (done == 0)
            done = PyErr_CheckSignals();
    }
    release_ArrowSchema(&schema);
    return done;
}

PyObject *core_arrow_stream(Core *core, PyObject *words)
{
    PyObject *capsule, *codes;
    const char *column;
    int appends;
    struct ArrowArrayStream stream;
    if (!PyArg_ParseTuple(words, "OzOp", &capsule, &column, &codes, &appends))
        return NULL;
    struct ArrowArrayStream *stream_struct = pointer_of(capsule, "arrow_array_stream");
    if (stream_struct == NULL)
        return NULL;
    stream = *stream_struct;
    stream_struct->release = NULL;
    encode_stream(core, &stream, column, appends, codes);
    release_ArrowArrayStream(&stream);
    if (PyErr_Occurred())
        return NULL;
    Py_RETURN_NONE;
}

/* A buffer of Python, or none for None, with at least this many bytes. */
static int get_buffer(PyObject *object, Py_buffer *view, const char *name, int64_t least)
{
    view->obj = NULL;
    view->buf = NULL;
    view->len = 0;
    if (object == Py_None)
        return 0;
    if (PyObject_GetBuffer(object, view, PyBUF_SIMPLE) < 0)
        return -1;
    if (view->len >= least)
        return 0;
    return raise_layout(-1, "a buffer of %s with %zd bytes, where %lld are needed", name, view->len, (long long)least);
}

static void no_release(struct ArrowArray *array)
{
    array->release = NULL;
}

/* Encodes texts whose three buffers were got. Offsets that go past the bytes are refused by the row. */
static int encode_buffers(Core *core, Py_buffer *views, int64_t offset, int64_t length, bool large, bool appends, PyObject *codes)
{
    const void *buffers[3] = {views[0].buf, views[1].buf, views[2].buf != NULL ? views[2].buf : ""};
    struct ArrowArray array = {.length = length, .null_count = -1, .offset = offset, .n_buffers = 3, .buffers = buffers, .release = no_release};
    struct type type = {.layout = large ? LAYOUT_LARGE : LAYOUT_SMALL, .child = -1};
    struct column column;
    if (read_array(&array, &type, &column) < 0)
        return -1;
    column.texts.size = views[2].len;
    return encode_column(core, &column, appends, codes);
}

PyObject *core_buffers(Core *core, PyObject *words)
{
    PyObject *validity, *offsets, *bytes, *codes;
    long long offset, length;
    int large, appends;
    Py_buffer views[3] = {{0}, {0}, {0}};
    if (!PyArg_ParseTuple(words, "OOOLLpOp", &validity, &offsets, &bytes, &offset, &length, &large, &codes, &appends))
        return NULL;
    if (offset < 0 || length < 0 || offset > INT64_MAX / 64 || length > INT64_MAX / 64)
        raise_layout(-1, "an Arrow array of %lld rows from row %lld on", length, offset);
    else if (get_buffer(validity, &views[0], "validity", length == 0 ? 0 : (offset + length + 7) / 8) == 0
             && get_buffer(offsets, &views[1], "offsets", length == 0 ? 0 : (offset + length + 1) * (large ? 8 : 4)) == 0
             && get_buffer(bytes, &views[2], "bytes", 0) == 0)
        encode_buffers(core, views, offset, length, large, appends, codes);
    for (int at = 0; at < 3; at++)
        PyBuffer_Release(&views[at]);
    if (PyErr_Occurred())
        return NULL;
    Py_RETURN_NONE;
}
