/* The library's calls, of an interner of one thread or of a handle of one that threads share. LASSO_BUSY goes no further than to interner_try. */
#include "core.h"

bool interner_is_live(const struct interner *interner)
{
    return interner->is_shared ? interner->shared.live : interner->own.live;
}

size_t interner_len(struct interner *interner)
{
    return interner->is_shared ? lasso_shared_len(&interner->shared) : lasso_len(&interner->own);
}

uint32_t interner_try(struct interner *interner, bool appends, const uint8_t *text, size_t length, uint32_t *code)
{
    if (interner->is_shared)
        return appends ? lasso_shared_intern(&interner->shared, text, length, code) : lasso_shared_get(&interner->shared, text, length, code);
    return appends ? lasso_intern(&interner->own, text, length, code) : lasso_get(&interner->own, text, length, code);
}

uint32_t interner_wait(struct interner *interner, bool appends, const uint8_t *text, size_t length, uint32_t *code)
{
    if (!interner->is_shared)
        return interner_try(interner, appends, text, length, code);
    return appends ? lasso_shared_intern_wait(&interner->shared, text, length, code)
                   : lasso_shared_get_wait(&interner->shared, text, length, code);
}

static bool has_text(const struct rows *rows, size_t row)
{
    return rows->present == NULL || (rows->present[row / 8] >> row % 8 & 1);
}

static int64_t offset_at(const struct rows *rows, size_t at)
{
    return rows->has_long_offsets ? ((const int64_t *)rows->offsets)[at] : ((const int32_t *)rows->offsets)[at];
}

/* One row of a shared interner. */
static uint32_t shared_row(struct interner *interner, bool appends, const struct rows *rows, size_t row, uint32_t *code)
{
    int64_t start = offset_at(rows, row), end = offset_at(rows, row + 1), most = (int64_t)rows->bytes_length;
    if (start < 0 || start > most || end < 0 || end > most)
        return LASSO_OFFSET_PAST_BYTES;
    if (end < start)
        return LASSO_OFFSETS_FALL;
    *code = LASSO_NULL;
    if (!has_text(rows, row))
        return LASSO_DONE;
    uint32_t status = interner_wait(interner, appends, rows->bytes + start, (size_t)(end - start), code);
    return status == LASSO_NO_SUCH_TEXT ? LASSO_DONE : status;
}

/* Rows of an interner of one thread, by the library's calls for batches. */
static uint32_t own_rows(struct lasso *own, bool appends, const struct rows *rows, uint32_t *codes, struct lasso_report *report)
{
    size_t offsets = rows->count + 1, bits = rows->present == NULL ? 0 : (rows->count + 7) / 8;
    if (!appends)
        return rows->has_long_offsets
            ? lasso_get_batch_large(own, rows->bytes, rows->bytes_length, rows->offsets, offsets, LASSO_ABSENT, codes, rows->count, report)
            : lasso_get_batch(own, rows->bytes, rows->bytes_length, rows->offsets, offsets, LASSO_ABSENT, codes, rows->count, report);
    return rows->has_long_offsets
        ? lasso_intern_batch_nulls_large(own, rows->bytes, rows->bytes_length, rows->offsets, offsets, rows->present, bits, LASSO_NULL, codes,
                                         rows->count, report)
        : lasso_intern_batch_nulls(own, rows->bytes, rows->bytes_length, rows->offsets, offsets, rows->present, bits, LASSO_NULL, codes,
                                   rows->count, report);
}

uint32_t interner_rows(struct interner *interner, bool appends, const struct rows *rows, uint32_t *codes, size_t *refused)
{
    struct lasso_report report = {0, 0, 0};
    uint32_t status = LASSO_DONE;
    if (!interner->is_shared) {
        status = own_rows(&interner->own, appends, rows, codes, &report);
        *refused = report.at;
        /* A null was looked up as the text between its offsets. */
        for (size_t row = 0; status == LASSO_DONE && !appends && rows->present != NULL && row < rows->count; row++)
            codes[row] = has_text(rows, row) ? codes[row] : LASSO_NULL;
        return status;
    }
    for (*refused = 0; *refused < rows->count; ++*refused) {
        status = shared_row(interner, appends, rows, *refused, &codes[*refused]);
        if (status != LASSO_DONE)
            return status;
    }
    return status;
}

uint32_t interner_text(struct interner *interner, uint32_t code, struct lasso_text *text)
{
    return interner->is_shared ? lasso_shared_text_now(&interner->shared, code, text) : lasso_text(&interner->own, code, text);
}

size_t interner_texts(struct interner *interner, size_t from, struct lasso_text *texts, size_t room)
{
    size_t got = 0;
    if (!interner->is_shared)
        return lasso_texts(&interner->own, from, texts, room);
    while (got < room && from < UINT32_MAX - got && interner_text(interner, (uint32_t)(from + got), &texts[got]) == LASSO_DONE)
        got++;
    return got;
}

size_t interner_memory(struct interner *interner)
{
    size_t bytes = 0;
    if (!interner->is_shared)
        return lasso_memory(&interner->own);
    return lasso_shared_memory_wait(&interner->shared, &bytes) == LASSO_DONE ? bytes : 0;
}

size_t interner_limit(struct interner *interner)
{
    size_t bytes = 0;
    if (!interner->is_shared)
        return lasso_limit(&interner->own);
    return lasso_shared_limit_wait(&interner->shared, &bytes) == LASSO_DONE ? bytes : 0;
}

uint32_t interner_set_limit(struct interner *interner, size_t limit)
{
    return interner->is_shared ? lasso_shared_set_limit_wait(&interner->shared, limit) : lasso_set_limit(&interner->own, limit);
}

uint32_t interner_clone(struct interner *interner, struct lasso *clone)
{
    if (!interner->is_shared)
        return lasso_clone(&interner->own, clone);
    lasso_shared_see(&interner->shared);
    return lasso_shared_copy(&interner->shared, clone);
}

void interner_free(struct interner *interner)
{
    lasso_free(&interner->own);
    lasso_shared_free(&interner->shared);
}
