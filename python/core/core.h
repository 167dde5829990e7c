/* What the parts of the extension module lasso._core share: the types that hold an interner, their errors, batches of rows, the structs of the
 * Arrow C data interface and the C stream interface, as their specification publishes them, and columns of texts in Arrow's layout. */
#ifndef LASSO_CORE_H
#define LASSO_CORE_H

/* The oldest stable ABI that has the buffer protocol. */
#define Py_LIMITED_API 0x030B0000
#define PY_SSIZE_T_CLEAN
#include <Python.h>
#include <pythread.h>

#include "lasso.h"

/* An interner of one thread at a time, or a handle of one that threads share. The other of the two holds none. */
struct interner {
    bool is_shared;
    bool is_frozen; /* of the handle that froze it */
    struct lasso own;
    struct lasso_shared shared;
};

/* Texts in Arrow's layout, and a bitmap of nulls or NULL. */
struct rows {
    const uint8_t *bytes;
    size_t bytes_length;
    const void *offsets; /* one more than there are rows */
    bool has_long_offsets; /* of 64 bits */
    size_t count;
    const uint8_t *present;
};

bool interner_is_live(const struct interner *interner);
size_t interner_len(struct interner *interner);

/* Interns or looks up a text. They return LASSO_BUSY if another thread is inside a step of a shared interner, or wait as long as one is. */
uint32_t interner_try(struct interner *interner, bool appends, const uint8_t *text, size_t length, uint32_t *code);
uint32_t interner_wait(struct interner *interner, bool appends, const uint8_t *text, size_t length, uint32_t *code);

/* Interns or looks up rows in order: a null has the code LASSO_NULL, and an absent text that is looked up LASSO_ABSENT. They wait. Sets *refused
 * to the row of a status that is not LASSO_DONE. */
uint32_t interner_rows(struct interner *interner, bool appends, const struct rows *rows, uint32_t *codes, size_t *refused);

/* Lends texts as lasso_text and lasso_texts do. */
uint32_t interner_text(struct interner *interner, uint32_t code, struct lasso_text *text);
size_t interner_texts(struct interner *interner, size_t from, struct lasso_text *texts, size_t room);

/* How many bytes the buckets take, and may take: 0 without an interner. They wait as long as another thread is inside a step. */
size_t interner_memory(struct interner *interner);
size_t interner_limit(struct interner *interner);
uint32_t interner_set_limit(struct interner *interner, size_t limit);

/* Copies the texts of now into another interner, of one thread, under the same codes. */
uint32_t interner_clone(struct interner *interner, struct lasso *clone);

void interner_free(struct interner *interner);

/* An interner as Python holds it. A call that keeps the GIL needs no lock. A call that lets the GIL go holds `lock` and sets `busy`, and every
 * other call waits for it in `core_enter`. While `lock` is held no Python code runs, so no thread waits for itself. In a forked child no such call
 * ever ends: its interner is left, and its handles hold none.
 *
 * A handle of a shared interner is used by one thread. All handles of it are in a ring, so that any thread can close them: one that is busy is
 * freed at the end of its call. Of one that is being frozen no call begins. */
typedef struct core {
    PyObject ob_base;
    struct interner interner;
    PyThread_type_lock lock;
    bool busy;
    bool closes;
    struct core *freezer; /* the handle that freezes the interner now, and holds its own lock for that long, or NULL */
    unsigned forks; /* how many forks there were when it was entered last */
    struct core *next, *previous;
} Core;

/* Leaves an interner that a call of the parent's was in, if the process was forked since it was entered last. Every call begins so. */
void core_after_fork(Core *core);

/* Waits until no other thread is in a call that let the GIL go. */
void core_wait(Core *core);

/* Waits for that, and until no thread freezes the interner. Until the GIL is let go next, the interner is the caller's. */
void core_enter(Core *core);

/* Enters, and keeps other threads from entering, though the GIL is let go, until core_give. */
void core_take(Core *core);
void core_give(Core *core);

/* Takes the interner, runs `call` without the GIL, and gives the interner back. */
void core_without_gil(Core *core, void (*call)(void *), void *with);

/* What both types make and let go. */
PyObject *core_new(PyTypeObject *type, PyObject *words, PyObject *named);
void core_dealloc(Core *core);

/* Sets the exception of a status, which is not LASSO_DONE. A position below 0 is none. Returns NULL. */
PyObject *raise_status(uint32_t status, Py_ssize_t position);

/* A limit of Python's as lasso.h has it. Returns -1 with an exception. */
int limit_of(PyObject *number, size_t *limit);

/* Sets WrongLayout with this message and position. Returns -1. */
int raise_layout(Py_ssize_t position, const char *message, ...);

/* The UTF-8 of a str, lent by it. Returns LASSO_DONE, LASSO_NOT_UTF8 for a lone surrogate or LASSO_NO_MEMORY, and sets no exception. */
uint32_t text_of(PyObject *item, const uint8_t **text, size_t *length);

enum { BATCH_ROWS = 1024, BATCH_BYTES = 32768 };

/* Rows that are gathered in Arrow's layout, and interned or looked up together. */
struct batch {
    struct interner *interner;
    Core *lets_go;   /* whose calls let the GIL go, or NULL if the caller keeps it or has let it go */
    bool appends;    /* absent texts are interned; else their code is LASSO_ABSENT */
    uint32_t *codes; /* of all rows: a code goes to the place of its row */
    size_t first;    /* the first gathered row */
    size_t rows;
    size_t bytes;
    bool has_nulls;
    uint32_t status; /* of the rows that were interned last */
    size_t refused;  /* the row of a status that is not LASSO_DONE */
    int32_t offsets[BATCH_ROWS + 1];
    uint8_t present[BATCH_ROWS / 8];
    uint8_t texts[BATCH_BYTES];
};

void batch_begin(struct batch *batch, struct interner *interner, bool appends, uint32_t *codes, size_t first);

/* Each takes one more row, and interns what was gathered if it has no room. Returns LASSO_DONE, or what the row `refused` gave. */
uint32_t batch_text(struct batch *batch, const uint8_t *text, size_t length);
uint32_t batch_null(struct batch *batch);

/* Interns or looks up what was gathered. */
uint32_t batch_end(struct batch *batch);

/* Methods, with one docstring each where they are listed. */
Py_ssize_t core_len(Core *core);
int core_contains(Core *core, PyObject *item);
PyObject *core_item(Core *core, PyObject *index);
PyObject *core_intern(Core *core, PyObject *item);
PyObject *core_get(Core *core, PyObject *item);
PyObject *core_texts(Core *core, PyObject *words);
PyObject *core_closed(Core *core, void *none);
PyObject *core_memory(Core *core, void *none);
PyObject *core_limit(Core *core, void *none);
int core_set_limit(Core *core, PyObject *number, void *none);
PyObject *core_clone(Core *core, PyObject *other);
PyObject *core_check_rows(Core *core, PyObject *words);
PyObject *core_rows(Core *core, PyObject *words);
PyObject *core_arrow_array(Core *core, PyObject *words);
PyObject *core_arrow_stream(Core *core, PyObject *words);
PyObject *core_buffers(Core *core, PyObject *words);
PyObject *core_dictionary_array(Core *core, PyObject *codes);

/* The type Seat, or NULL with an exception. */
PyObject *seat_type(void);

#define ARROW_FLAG_NULLABLE 2

struct ArrowSchema {
    const char *format;
    const char *name;
    const char *metadata;
    int64_t flags;
    int64_t n_children;
    struct ArrowSchema **children;
    struct ArrowSchema *dictionary;
    void (*release)(struct ArrowSchema *);
    void *private_data;
};

struct ArrowArray {
    int64_t length;
    int64_t null_count;
    int64_t offset;
    int64_t n_buffers;
    int64_t n_children;
    const void **buffers;
    struct ArrowArray **children;
    struct ArrowArray *dictionary;
    void (*release)(struct ArrowArray *);
    void *private_data;
};

struct ArrowArrayStream {
    int (*get_schema)(struct ArrowArrayStream *, struct ArrowSchema *out);
    int (*get_next)(struct ArrowArrayStream *, struct ArrowArray *out);
    const char *(*get_last_error)(struct ArrowArrayStream *);
    void (*release)(struct ArrowArrayStream *);
    void *private_data;
};

/* How texts are laid out: by 32-bit offsets, by 64-bit offsets, by views, or not at all, as all rows are nulls. */
enum layout { LAYOUT_SMALL, LAYOUT_LARGE, LAYOUT_VIEWS, LAYOUT_NULLS };

/* What a schema says. */
struct type {
    enum layout layout;
    char index;    /* the format of the indices of a dictionary, or 0 */
    int64_t child; /* the column of a struct, or -1 */
    int64_t children;
};

/* Texts of an array, from one on. */
struct texts {
    enum layout layout;
    int64_t offset;
    int64_t length;
    const uint8_t *validity; /* NULL if all are present */
    const void *offsets;     /* or views */
    const uint8_t *bytes;
    int64_t size;            /* how many bytes there are */
    const uint8_t **parts;   /* of views */
    const void *sizes;       /* 64-bit numbers, maybe unaligned */
    int64_t part_count;
};

/* A column of an array that was checked as far as the interface tells what there is. */
struct column {
    struct texts texts;      /* the rows, or the texts of the dictionary */
    const uint8_t *rows_validity; /* of the rows of a dictionary's indices */
    const void *indices;     /* NULL without a dictionary */
    char index;
    int64_t offset;          /* of the rows */
    int64_t length;
    const uint8_t *struct_validity;
    int64_t struct_offset;
};

/* Reads a schema: texts, a dictionary of texts, or the column of a struct that `name` (NULL for none) names. Returns -1 with an exception. */
int read_schema(const struct ArrowSchema *schema, const char *name, struct type *type);

/* Checks an array of that type, whose first row is the row `first` of all. Returns -1 with an exception. */
int read_array(const struct ArrowArray *array, const struct type *type, struct column *column);

/* What went wrong at a row, without the GIL. */
enum fault { FAULT_NONE = 0, FAULT_STATUS, FAULT_VIEW, FAULT_INDEX };

/* A row of texts: sets *text to NULL for a null. Returns LASSO_DONE, LASSO_OFFSETS_FALL or LASSO_OFFSET_PAST_BYTES. */
uint32_t text_at(const struct texts *texts, int64_t row, const uint8_t **text, size_t *length);

/* The index of a row into the dictionary, or -1 if there is none such. */
int64_t index_at(const struct column *column, int64_t row);

/* Whether the bit of a row is 1. Without a bitmap it is. */
bool is_present(const uint8_t *bitmap, int64_t row);

#endif
