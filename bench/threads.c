/* How long calls of threads take, from C: `threads INTERNER < LINES` prints lines `CALL THREADS NANOSECONDS` of one round, as
 * bench/baseline/interners does: the time until all threads have ended, by the calls of one of them. `shared` is the library's shared interner,
 * with a handle a thread, `mutex` its interner for one thread under a lock, and `glib` what a program over GLib has under that lock; `alone` and
 * `glib-alone` are these two in one thread without it. Each sum of codes, of first bytes or of absent texts is compared. */
#define _POSIX_C_SOURCE 200809L
#include "lasso.h"
#include "lines.h"

#include <glib.h>
#include <pthread.h>
#include <string.h>
#include <time.h>

enum { MOST_THREADS = 4, STRIDE = 7919, CHUNK = 1 << 16, OTHER = '~' };

static const int THREADS[] = {1, 2, 4};

/* What a program over GLib has: texts that end with a NUL, a table of their codes, and an array of them by code. */
struct glib {
    GStringChunk *chunk;
    GHashTable *codes;
    GPtrArray *texts;
};

enum kind { SHARED, LASSO, GLIB };

/* One of the interners. */
struct interner {
    enum kind kind;
    bool has_lock;
    struct lasso own;
    struct lasso_shared shared;
    struct glib glib;
    pthread_mutex_t lock;
};

static const struct {
    const char *name;
    enum kind kind;
    bool has_lock;
} INTERNERS[] = {{"shared", SHARED, false}, {"mutex", LASSO, true}, {"glib", GLIB, true}, {"alone", LASSO, false}, {"glib-alone", GLIB, false}};

/* A part of the calls: the lines that are interned, in their order, or the codes that are resolved, and the sum of what the calls give. */
struct part {
    pthread_t thread;
    struct interner *interner;
    struct lasso_shared handle;
    const struct lines *lines;
    const uint32_t *codes;
    size_t first, count;
    uint64_t sum;
};

static void enter(struct interner *interner)
{
    if (interner->has_lock)
        pthread_mutex_lock(&interner->lock);
}

static void leave(struct interner *interner)
{
    if (interner->has_lock)
        pthread_mutex_unlock(&interner->lock);
}

/* The code of a text in GLib's table, where an absent one is interned or has none. */
static uint32_t glib_code(struct glib *glib, const char *text, bool is_interned)
{
    gpointer code;
    if (g_hash_table_lookup_extended(glib->codes, text, NULL, &code))
        return GPOINTER_TO_UINT(code);
    if (!is_interned)
        return LASSO_NULL;
    char *kept = g_string_chunk_insert(glib->chunk, text);
    g_hash_table_insert(glib->codes, kept, GUINT_TO_POINTER(glib->texts->len));
    g_ptr_array_add(glib->texts, kept);
    return glib->texts->len - 1;
}

/* The code of a line, where an absent one is interned or has none. */
static uint32_t code_of(struct part *part, size_t line, bool is_interned)
{
    struct interner *interner = part->interner;
    const int32_t *at = part->lines->offsets + line;
    const uint8_t *text = part->lines->bytes + at[0];
    size_t length = (size_t)(at[1] - at[0]) - 1;
    uint32_t code = LASSO_NULL, status = LASSO_DONE;
    enter(interner);
    if (interner->kind == GLIB)
        code = glib_code(&interner->glib, (const char *)text, is_interned);
    else if (interner->kind == LASSO)
        status = is_interned ? lasso_intern(&interner->own, text, length, &code) : lasso_get(&interner->own, text, length, &code);
    else
        status = is_interned ? lasso_shared_intern_wait(&part->handle, text, length, &code) : lasso_shared_get_wait(&part->handle, text, length, &code);
    leave(interner);
    if (status != LASSO_DONE && (is_interned || status != LASSO_NO_SUCH_TEXT))
        fail("a text was refused");
    return code;
}

static void *intern_all(void *argument)
{
    struct part *part = argument;
    for (size_t at = 0; at < part->count; at++)
        part->sum += code_of(part, part->first + at, true);
    return NULL;
}

static void *get_all(void *argument)
{
    struct part *part = argument;
    for (size_t at = 0; at < part->count; at++)
        part->sum += code_of(part, part->first + at, false) == LASSO_NULL;
    return NULL;
}

/* The bytes of a code's text, which is not empty. */
static const uint8_t *bytes_of(struct part *part, uint32_t code)
{
    struct interner *interner = part->interner;
    struct lasso_text text = LASSO_NO_TEXT;
    enter(interner);
    if (interner->kind == GLIB)
        text.bytes = g_ptr_array_index(interner->glib.texts, code);
    else if (interner->kind == LASSO)
        lasso_text(&interner->own, code, &text);
    else
        lasso_shared_text_now(&part->handle, code, &text);
    leave(interner);
    return text.bytes;
}

static void *resolve_all(void *argument)
{
    struct part *part = argument;
    for (size_t at = 0; at < part->count; at++)
        part->sum += *bytes_of(part, part->codes[at]);
    return NULL;
}

static void begin(struct interner *interner)
{
    uint32_t status = LASSO_DONE;
    if (interner->kind == GLIB)
        interner->glib = (struct glib){g_string_chunk_new(CHUNK), g_hash_table_new(g_str_hash, g_str_equal), g_ptr_array_new()};
    else
        status = interner->kind == SHARED ? lasso_shared_new(&interner->shared) : lasso_new(&interner->own, LASSO_NO_LIMIT);
    if (status != LASSO_DONE || pthread_mutex_init(&interner->lock, NULL) != 0)
        fail("out of memory");
}

static void end(struct interner *interner)
{
    lasso_free(&interner->own);
    lasso_shared_free(&interner->shared);
    if (interner->kind == GLIB) {
        g_hash_table_destroy(interner->glib.codes);
        g_ptr_array_free(interner->glib.texts, TRUE);
        g_string_chunk_free(interner->glib.chunk);
    }
    pthread_mutex_destroy(&interner->lock);
}

/* Runs the parts in threads, prints the time of a call, and fails unless the sums are right in all. */
static void time_parts(const char *call, int threads, struct part *parts, void *work(void *), uint64_t want)
{
    struct timespec start, stop;
    uint64_t sum = 0;
    for (int at = 0; at < threads; at++)
        if (parts[at].interner->kind == SHARED && lasso_shared_join(&parts[at].interner->shared, &parts[at].handle) != LASSO_DONE)
            fail("out of memory");
    clock_gettime(CLOCK_MONOTONIC, &start);
    for (int at = 1; at < threads; at++)
        if (pthread_create(&parts[at].thread, NULL, work, &parts[at]) != 0)
            fail("no thread");
    work(&parts[0]);
    for (int at = 1; at < threads; at++)
        pthread_join(parts[at].thread, NULL);
    clock_gettime(CLOCK_MONOTONIC, &stop);
    for (int at = 0; at < threads; at++) {
        sum += parts[at].sum;
        lasso_shared_free(&parts[at].handle);
    }
    if (sum != want)
        fail("a wrong code or text");
    double nanoseconds = (double)(stop.tv_sec - start.tv_sec) * 1e9 + (double)(stop.tv_nsec - start.tv_nsec);
    printf("%s %d %.1f\n", call, threads, nanoseconds / (double)parts[0].count);
}

/* The lines in another order with their codes, those with another first byte, the texts in the order of their codes, and what the sums have to be. */
struct work {
    struct lines again, absent, texts;
    uint32_t *codes;
    uint64_t positions, first_bytes;
};

static struct lines room_for(const struct lines *lines)
{
    struct lines made = {room(lines->length), 0, room((lines->count + 1) * sizeof *made.offsets), 0};
    made.offsets[0] = 0;
    return made;
}

static void free_lines(struct lines *lines)
{
    free(lines->bytes);
    free(lines->offsets);
}

/* Appends a line of others. */
static void append(struct lines *lines, const struct lines *others, size_t line)
{
    size_t length = (size_t)(others->offsets[line + 1] - others->offsets[line]);
    memcpy(lines->bytes + lines->length, others->bytes + others->offsets[line], length);
    lines->length += length;
    lines->offsets[++lines->count] = (int32_t)lines->length;
}

static struct work read_work(struct interner *filled)
{
    struct lines lines = read_lines(stdin, true);
    struct work work = {room_for(&lines), room_for(&lines), room_for(&lines), room(lines.count * sizeof *work.codes), 0, 0};
    struct part part = {.interner = filled, .lines = &lines};
    if (filled->kind == SHARED && lasso_shared_join(&filled->shared, &part.handle) != LASSO_DONE)
        fail("out of memory");
    for (size_t line = 0; line < lines.count; line++) {
        if (lines.offsets[line + 1] - lines.offsets[line] == 1)
            fail("an empty line has no first byte");
        uint32_t code = code_of(&part, line, true);
        if (code > work.texts.count)
            fail("a wrong code");
        if (code == work.texts.count)
            append(&work.texts, &lines, line);
        work.positions += code;
    }
    for (size_t at = 0; at < lines.count; at++) {
        size_t line = at * STRIDE % lines.count;
        append(&work.again, &lines, line);
        append(&work.absent, &lines, line);
        work.absent.bytes[work.absent.offsets[at]] = OTHER;
        work.first_bytes += lines.bytes[lines.offsets[line]];
        work.codes[at] = code_of(&part, line, true);
    }
    lasso_shared_free(&part.handle);
    free_lines(&lines);
    return work;
}

/* One round of calls by this number of threads. */
static void time_calls(struct interner *filled, const struct work *work, int threads)
{
    struct interner fresh = {.kind = filled->kind, .has_lock = filled->has_lock};
    struct part absent = {.interner = filled, .lines = &work->absent, .count = work->absent.count};
    struct part present[MOST_THREADS] = {{0}}, fill[MOST_THREADS] = {{0}}, resolve[MOST_THREADS] = {{0}};
    size_t texts = work->texts.count, share = (texts + (size_t)threads - 1) / (size_t)threads;
    for (int at = 0; at < threads; at++) {
        size_t first = share * (size_t)at, left = first < texts ? texts - first : 0;
        present[at] = (struct part){.interner = filled, .lines = &work->again, .count = work->again.count};
        resolve[at] = (struct part){.interner = filled, .codes = work->codes, .count = work->again.count};
        fill[at] = (struct part){.interner = &fresh, .lines = &work->texts, .first = first, .count = left < share ? left : share};
    }
    time_parts("present", threads, present, intern_all, (uint64_t)threads * work->positions);
    if (threads == 1)
        time_parts("absent", 1, &absent, get_all, work->again.count);
    begin(&fresh);
    time_parts("new", threads, fill, intern_all, (uint64_t)texts * (texts - 1) / 2);
    end(&fresh);
    time_parts("resolve", threads, resolve, resolve_all, (uint64_t)threads * work->first_bytes);
}

int main(int argc, char **argv)
{
    size_t kind = 0;
    while (kind < sizeof INTERNERS / sizeof *INTERNERS && (argc != 2 || strcmp(argv[1], INTERNERS[kind].name) != 0))
        kind++;
    if (kind == sizeof INTERNERS / sizeof *INTERNERS)
        fail("usage: threads shared|mutex|glib|alone|glib-alone < LINES");
    struct interner filled = {.kind = INTERNERS[kind].kind, .has_lock = INTERNERS[kind].has_lock};
    begin(&filled);
    struct work work = read_work(&filled);
    for (size_t at = 0; at < sizeof THREADS / sizeof *THREADS; at++)
        if (THREADS[at] == 1 || filled.kind == SHARED || filled.has_lock)
            time_calls(&filled, &work, THREADS[at]);
    end(&filled);
    free_lines(&work.again);
    free_lines(&work.absent);
    free_lines(&work.texts);
    free(work.codes);
    end_output();
    return 0;
}
