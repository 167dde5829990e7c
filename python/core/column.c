/* Reads schemas and arrays of the Arrow C data interface, and checks whatever they tell before it is used. */
#include "core.h"

#include <stdlib.h>
#include <string.h>

/* Names of types that hold no texts, for messages. */
static const struct {
    const char *format, *name;
} NAMES[] = {
    {"b", "bool"}, {"c", "int8"}, {"C", "uint8"}, {"s", "int16"}, {"S", "uint16"}, {"i", "int32"}, {"I", "uint32"}, {"l", "int64"},
    {"L", "uint64"}, {"e", "float16"}, {"f", "float32"}, {"g", "float64"}, {"z", "binary"}, {"Z", "large_binary"}, {"vz", "binary_view"},
    {"tdD", "date32"}, {"tdm", "date64"}, {"+l", "list"}, {"+L", "large_list"}, {"+m", "map"}, {"+s", "struct"},
};

static const char *name_of(const char *format)
{
    for (size_t at = 0; at < sizeof NAMES / sizeof *NAMES; at++) {
        if (strcmp(format, NAMES[at].format) == 0)
            return NAMES[at].name;
    }
    return "another type";
}

/* Whether a format is one of texts. */
static bool layout_of(const char *format, enum layout *layout)
{
    static const char *FORMATS[] = {"u", "U", "vu", "n"};
    for (int at = 0; at < 4; at++) {
        if (strcmp(format, FORMATS[at]) == 0) {
            *layout = (enum layout)at;
            return true;
        }
    }
    return false;
}

static int check_schema(const struct ArrowSchema *schema)
{
    if (schema == NULL || schema->release == NULL)
        return raise_layout(-1, "an Arrow schema that was released already");
    if (schema->format == NULL)
        return raise_layout(-1, "an Arrow schema without a format");
    return 0;
}

static int read_type(const struct ArrowSchema *schema, struct type *type)
{
    const struct ArrowSchema *texts = schema->dictionary != NULL ? schema->dictionary : schema;
    type->index = 0;
    if (schema->dictionary != NULL) {
        if (check_schema(texts) < 0)
            return -1;
        if (strlen(schema->format) != 1 || strchr("cCsSiIlL", schema->format[0]) == NULL)
            return raise_layout(-1, "an Arrow dictionary whose indices have the format '%.20s'", schema->format);
        type->index = schema->format[0];
    }
    if (texts->dictionary == NULL && layout_of(texts->format, &type->layout))
        return 0;
    PyErr_Format(PyExc_TypeError, "an Arrow %s of %s (format '%.40s'), and no column of strings", texts == schema ? "array" : "dictionary",
                 name_of(texts->format), texts->format);
    return -1;
}

/* The names of a struct's columns, for a message. */
static PyObject *columns_of(const struct ArrowSchema *schema)
{
    PyObject *names = PyUnicode_FromString("");
    for (int64_t at = 0; at < schema->n_children && at < 20 && names != NULL; at++) {
        const struct ArrowSchema *child = schema->children[at];
        PyObject *more = PyUnicode_FromFormat("%U%s'%.100s'", names, at == 0 ? "" : ", ", child != NULL && child->name != NULL ? child->name : "");
        Py_DECREF(names);
        names = more;
    }
    return names;
}

static int raise_columns(const struct ArrowSchema *schema, const char *name)
{
    PyObject *names = columns_of(schema);
    if (names == NULL)
        return -1;
    if (name == NULL)
        PyErr_Format(PyExc_TypeError, "an Arrow struct of the columns %U: name one, as by column='name'", names);
    else
        PyErr_Format(PyExc_KeyError, "no one column '%.100s' is among the columns %U", name, names);
    Py_DECREF(names);
    return -1;
}

int read_schema(const struct ArrowSchema *schema, const char *name, struct type *type)
{
    type->child = -1;
    if (check_schema(schema) < 0)
        return -1;
    if (strcmp(schema->format, "+s") != 0) {
        if (name == NULL)
            return read_type(schema, type);
        PyErr_Format(PyExc_TypeError, "an Arrow array has no column '%.100s': it is one of %s", name, name_of(schema->format));
        return -1;
    }
    if (schema->n_children < 0 || (schema->n_children > 0 && schema->children == NULL))
        return raise_layout(-1, "an Arrow schema of a struct without its columns");
    type->children = schema->n_children;
    if (name == NULL)
        return raise_columns(schema, NULL);
    for (int64_t at = 0; at < schema->n_children; at++) {
        const struct ArrowSchema *child = schema->children[at];
        if (child == NULL || child->name == NULL || strcmp(child->name, name) != 0)
            continue;
        if (type->child >= 0)
            return raise_columns(schema, name);
        type->child = at;
    }
    if (type->child < 0)
        return raise_columns(schema, name);
    return check_schema(schema->children[type->child]) < 0 ? -1 : read_type(schema->children[type->child], type);
}

/* Whether there is memory for the codes of these rows. A length that no memory has room for is not believed, and nothing is read by it. */
static bool is_credible(int64_t rows)
{
    void *volatile room = malloc(4 * (size_t)rows + 1);
    free(room);
    return room != NULL;
}

/* Checks what each array has: that it wasn't released, its numbers, its buffers, and its bitmap. `buffers` is how many it has to have, or
 * at least. */
static int check_array(const struct ArrowArray *array, int64_t buffers, bool more)
{
    /* So that no sum or product of positions below overflows. */
    const int64_t most = INT64_MAX / 64;
    if (array == NULL || array->release == NULL)
        return raise_layout(-1, "an Arrow array that was released already");
    if (array->length < 0 || array->offset < 0 || array->length > most || array->offset > most)
        return raise_layout(-1, "an Arrow array of %lld rows from row %lld on", (long long)array->length, (long long)array->offset);
    if (!is_credible(array->length) || !is_credible(array->offset))
        return raise_status(LASSO_NO_MEMORY, -1), -1;
    if (more ? array->n_buffers < buffers || array->n_buffers > INT32_MAX : array->n_buffers != buffers)
        return raise_layout(-1, "an Arrow array with %lld buffers, where %s%lld belong", (long long)array->n_buffers, more ? "at least " : "",
                            (long long)buffers);
    if (buffers > 0 && array->buffers == NULL)
        return raise_layout(-1, "an Arrow array without its buffers");
    if (array->length > 0 && buffers > 0 && array->buffers[0] == NULL && array->null_count > 0)
        return raise_layout(-1, "an Arrow array with %lld nulls and no validity buffer", (long long)array->null_count);
    return 0;
}

static int64_t offset_at(const struct texts *texts, int64_t row)
{
    if (texts->layout == LAYOUT_LARGE)
        return ((const int64_t *)texts->offsets)[row];
    return ((const int32_t *)texts->offsets)[row];
}

/* Of texts by offsets the last one says how many bytes there are. */
static int read_offsets(const struct ArrowArray *array, struct texts *texts)
{
    texts->offsets = array->buffers[1];
    if (texts->offsets == NULL)
        return raise_layout(-1, "an Arrow array of strings without its offsets");
    if ((uintptr_t)texts->offsets % (texts->layout == LAYOUT_LARGE ? 8 : 4) != 0)
        return raise_layout(-1, "an Arrow array of strings with offsets that are not aligned");
    int64_t first = offset_at(texts, texts->offset), last = offset_at(texts, texts->offset + texts->length);
    texts->bytes = array->buffers[2];
    texts->size = last < 0 ? 0 : last;
    if (texts->bytes != NULL)
        return 0;
    texts->bytes = (const uint8_t *)"";
    return first == 0 && last == 0 ? 0 : raise_layout(-1, "an Arrow array of strings without its bytes");
}

static int read_views(const struct ArrowArray *array, struct texts *texts)
{
    texts->offsets = array->buffers[1];
    texts->part_count = array->n_buffers - 3;
    texts->parts = (const uint8_t **)array->buffers + 2;
    texts->sizes = array->buffers[array->n_buffers - 1];
    if (texts->offsets == NULL)
        return raise_layout(-1, "an Arrow array of string views without its views");
    if (texts->sizes == NULL && texts->part_count > 0)
        return raise_layout(-1, "an Arrow array of string views without the sizes of its buffers");
    return 0;
}

static int read_texts(const struct ArrowArray *array, enum layout layout, struct texts *texts)
{
    static const int64_t BUFFERS[] = {[LAYOUT_SMALL] = 3, [LAYOUT_LARGE] = 3, [LAYOUT_VIEWS] = 3, [LAYOUT_NULLS] = 0};
    memset(texts, 0, sizeof *texts);
    if (check_array(array, BUFFERS[layout], layout >= LAYOUT_VIEWS) < 0)
        return -1;
    texts->layout = layout;
    texts->offset = array->offset;
    texts->length = array->length;
    if (layout == LAYOUT_NULLS || array->length == 0)
        return 0;
    texts->validity = array->buffers[0];
    return layout == LAYOUT_VIEWS ? read_views(array, texts) : read_offsets(array, texts);
}

/* An array that is a column: texts, or indices into a dictionary of texts. */
static int read_column(const struct ArrowArray *array, const struct type *type, struct column *column)
{
    if (type->index == 0) {
        if (read_texts(array, type->layout, &column->texts) < 0)
            return -1;
        column->offset = array->offset;
        column->length = array->length;
        return 0;
    }
    if (check_array(array, 2, false) < 0)
        return -1;
    column->index = type->index;
    column->offset = array->offset;
    column->length = array->length;
    if (array->length == 0)
        return 0;
    column->rows_validity = array->buffers[0];
    column->indices = array->buffers[1];
    if (column->indices == NULL)
        return raise_layout(-1, "an Arrow dictionary array without its indices");
    return read_texts(array->dictionary, type->layout, &column->texts);
}

int read_array(const struct ArrowArray *array, const struct type *type, struct column *column)
{
    memset(column, 0, sizeof *column);
    if (type->child < 0)
        return read_column(array, type, column);
    if (check_array(array, 1, false) < 0)
        return -1;
    if (array->n_children != type->children || array->children == NULL)
        return raise_layout(-1, "an Arrow struct with %lld columns, where its schema has %lld", (long long)array->n_children,
                            (long long)type->children);
    const struct ArrowArray *child = array->children[type->child];
    if (read_column(child, type, column) < 0)
        return -1;
    if (column->length < array->offset + array->length)
        return raise_layout(-1, "a column of an Arrow struct with %lld rows, where the struct has rows up to %lld", (long long)column->length,
                            (long long)(array->offset + array->length));
    column->struct_validity = array->length == 0 ? NULL : array->buffers[0];
    column->struct_offset = array->offset;
    column->offset += array->offset;
    column->length = array->length;
    return 0;
}

bool is_present(const uint8_t *bitmap, int64_t row)
{
    return bitmap == NULL || (bitmap[row / 8] >> row % 8 & 1);
}

/* A view: the number of bytes, and these, if they are at most 12, or else their part and where they begin in it. */
static uint32_t view_at(const struct texts *texts, int64_t row, const uint8_t **text, size_t *length)
{
    const uint8_t *view = (const uint8_t *)texts->offsets + 16 * row;
    int32_t size, part, start;
    int64_t part_size;
    memcpy(&size, view, 4);
    memcpy(&part, view + 8, 4);
    memcpy(&start, view + 12, 4);
    if (size < 0)
        return LASSO_OFFSETS_FALL;
    *length = (size_t)size;
    *text = view + 4;
    if (size <= 12)
        return LASSO_DONE;
    if (part < 0 || part >= texts->part_count || start < 0 || texts->parts[part] == NULL)
        return LASSO_OFFSET_PAST_BYTES;
    memcpy(&part_size, (const uint8_t *)texts->sizes + 8 * (size_t)part, 8);
    if (part_size < (int64_t)start + size)
        return LASSO_OFFSET_PAST_BYTES;
    *text = texts->parts[part] + start;
    return LASSO_DONE;
}

uint32_t text_at(const struct texts *texts, int64_t row, const uint8_t **text, size_t *length)
{
    *text = NULL;
    *length = 0;
    if (texts->layout == LAYOUT_NULLS || !is_present(texts->validity, row))
        return LASSO_DONE;
    if (texts->layout == LAYOUT_VIEWS)
        return view_at(texts, row, text, length);
    int64_t start = offset_at(texts, row), end = offset_at(texts, row + 1);
    if (start < 0 || end > texts->size)
        return LASSO_OFFSET_PAST_BYTES;
    if (end < start)
        return end < 0 ? LASSO_OFFSET_PAST_BYTES : LASSO_OFFSETS_FALL;
    *text = texts->bytes + start;
    *length = (size_t)(end - start);
    return LASSO_DONE;
}

#define READ_INDEX(kind)                                                                        \
    {                                                                                           \
        kind number;                                                                            \
        memcpy(&number, (const uint8_t *)column->indices + sizeof number * (size_t)row, sizeof number); \
        index = (uint64_t)number;                                                               \
        break;                                                                                  \
    }

int64_t index_at(const struct column *column, int64_t row)
{
    uint64_t index = UINT64_MAX;
    switch (column->index) {
    case 'c': READ_INDEX(int8_t)
    case 'C': READ_INDEX(uint8_t)
    case 's': READ_INDEX(int16_t)
    case 'S': READ_INDEX(uint16_t)
    case 'i': READ_INDEX(int32_t)
    case 'I': READ_INDEX(uint32_t)
    case 'l': READ_INDEX(int64_t)
    case 'L': READ_INDEX(uint64_t)
    }
    return index < (uint64_t)column->texts.length ? (int64_t)index : -1;
}
