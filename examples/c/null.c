/* Calls with NULL for arrays of no elements, as a caller with empty vectors makes them, and lasso_free(NULL). It is good C and good C++. */
#include "lasso.h"

#include "check.h"

#include <string.h>

static int tells(const struct lasso_report *report, size_t texts, size_t bytes, size_t at)
{
    return report->texts == texts && report->bytes == bytes && report->at == at;
}

int main(void)
{
    struct lasso_report report = {7, 7, 7};
    const uint8_t bytes[] = {'r', 'e', 'd', 'r', 'e', 'd'};
    const int32_t offsets[] = {0, 3, 6, 6}, empty_texts[] = {0, 0};
    uint32_t codes[3];
    int32_t written[3] = {9, 9, 9};

    /* No text, and no room: the dictionary of no text has one offset. */
    CHECK(lasso_encode(NULL, 0, NULL, 0, NULL, 0, NULL, 0, NULL, 0, &report) == LASSO_OFFSETS_TOO_SHORT);
    CHECK(tells(&report, 0, 0, 0));
    CHECK(lasso_encode(NULL, 0, NULL, 0, NULL, 0, NULL, 0, written, 3, &report) == LASSO_DONE);
    CHECK(tells(&report, 0, 0, 0) && written[0] == 0 && written[1] == 9);
    /* An empty text has no bytes. */
    CHECK(lasso_encode(NULL, 0, empty_texts, 2, codes, 3, NULL, 0, written, 3, &report) == LASSO_DONE);
    CHECK(tells(&report, 1, 0, 0) && codes[0] == 0 && written[0] == 0 && written[1] == 0 && written[2] == 9);
    /* Without room a call tells what is needed: "red" and "". */
    CHECK(lasso_encode(bytes, 6, offsets, 4, NULL, 0, NULL, 0, NULL, 0, &report) == LASSO_CODES_TOO_SHORT);
    CHECK(tells(&report, 2, 3, 0));

    /* "red", a null and "": without a bitmap "red" is there twice. */
    const uint8_t present[] = {5};
    uint8_t texts[3];
    CHECK(lasso_encode_nulls(bytes, 6, offsets, 4, present, 1, LASSO_NULL, codes, 3, texts, 3, written, 3, &report) == LASSO_DONE);
    CHECK(tells(&report, 2, 3, 0) && codes[0] == 0 && codes[1] == LASSO_NULL && codes[2] == 1);
    CHECK(lasso_encode_nulls(bytes, 6, offsets, 4, NULL, 0, LASSO_NULL, codes, 3, texts, 3, written, 3, &report) == LASSO_DONE);
    CHECK(tells(&report, 2, 3, 0) && codes[0] == 0 && codes[1] == 0 && codes[2] == 1);
    CHECK(lasso_encode_nulls(NULL, 0, NULL, 0, NULL, 0, LASSO_NULL, NULL, 0, NULL, 0, written, 1, &report) == LASSO_DONE);

    CHECK(lasso_decode(NULL, 0, NULL, 0, NULL, 0, NULL, 0, written, 1, &report) == LASSO_DONE);
    CHECK(tells(&report, 0, 0, 0) && written[0] == 0);
    codes[0] = 1;
    CHECK(lasso_decode(bytes, 6, offsets, 4, codes, 1, NULL, 0, written, 2, &report) == LASSO_BYTES_TOO_SHORT);
    CHECK(tells(&report, 1, 3, 0));
    CHECK(lasso_decode(NULL, 0, empty_texts, 2, codes, 1, NULL, 0, NULL, 0, &report) == LASSO_NO_SUCH_CODE);

    /* "red", a null and "" again, with a bit for each. */
    const uint32_t column[] = {0, LASSO_NULL, 1};
    const int32_t starts[] = {0, 3, 3};
    uint8_t row[6] = {9, 9, 9, 9, 9, 9}, bits[2] = {9, 9};
    int32_t rows[5] = {9, 9, 9, 9, 9};
    CHECK(lasso_decode_nulls(bytes, 3, starts, 3, column, 3, LASSO_NULL, row, 6, rows, 5, NULL, 0, &report) == LASSO_BITMAP_TOO_SHORT);
    CHECK(tells(&report, 0, 0, 0) && row[0] == 9 && rows[0] == 9 && bits[0] == 9);
    CHECK(lasso_decode_nulls(bytes, 3, starts, 3, column, 3, LASSO_NULL, NULL, 0, rows, 5, bits, 1, &report) == LASSO_BYTES_TOO_SHORT);
    CHECK(tells(&report, 3, 3, 0) && rows[0] == 9 && bits[0] == 9);
    CHECK(lasso_decode_nulls(bytes, 3, starts, 3, column, 3, LASSO_NULL, row, 6, rows, 5, bits, 2, &report) == LASSO_DONE);
    CHECK(tells(&report, 3, 3, 0) && memcmp(row, "red\t\t\t", 6) == 0 && bits[0] == 5 && bits[1] == 9);
    CHECK(rows[0] == 0 && rows[1] == 3 && rows[2] == 3 && rows[3] == 3 && rows[4] == 9);
    CHECK(lasso_decode_nulls(NULL, 0, NULL, 0, NULL, 0, LASSO_NULL, NULL, 0, rows, 5, NULL, 0, &report) == LASSO_DONE);
    CHECK(tells(&report, 0, 0, 0) && rows[0] == 0);

    CHECK(lasso_status_text(LASSO_DONE, NULL, 0) == strlen("done"));
    CHECK(lasso_version() == LASSO_VERSION);

    /* The empty text, in an interner. */
    const uint8_t absent[] = {0};
    struct lasso lasso = LASSO_NONE;
    uint32_t code = 7;
    size_t whole = 7;
    CHECK(lasso_get(&lasso, NULL, 0, &code) == LASSO_NO_INTERNER && code == 7);
    CHECK(lasso_new(&lasso, LASSO_NO_LIMIT) == LASSO_DONE);
    CHECK(lasso_intern_batch(&lasso, NULL, 0, NULL, 0, NULL, 0, &report) == LASSO_DONE && tells(&report, 0, 0, 0));
    CHECK(lasso_intern(&lasso, NULL, 0, &code) == LASSO_DONE && code == 0);
    CHECK(lasso_get(&lasso, NULL, 0, &code) == LASSO_DONE && code == 0);
    CHECK(lasso_intern_static(&lasso, NULL, 0, &code) == LASSO_DONE && code == 0);
    CHECK(lasso_intern_batch_nulls(&lasso, bytes, 3, empty_texts, 2, NULL, 0, LASSO_NULL, codes, 1, &report) == LASSO_DONE);
    CHECK(tells(&report, 1, 0, 0) && codes[0] == 0);
    CHECK(lasso_intern_batch_nulls(&lasso, bytes, 6, offsets, 2, NULL, 0, LASSO_NULL, NULL, 0, &report) == LASSO_CODES_TOO_SHORT);
    CHECK(lasso_intern_batch_nulls(&lasso, bytes, 6, offsets, 2, absent, 1, LASSO_NULL, codes, 1, &report) == LASSO_DONE);
    CHECK(tells(&report, 1, 0, 0) && codes[0] == LASSO_NULL);
    CHECK(lasso_get_batch(&lasso, NULL, 0, NULL, 0, LASSO_ABSENT, NULL, 0, &report) == LASSO_DONE && tells(&report, 0, 0, 0));
    CHECK(lasso_get_batch(&lasso, bytes, 6, offsets, 4, LASSO_ABSENT, NULL, 0, &report) == LASSO_CODES_TOO_SHORT);
    CHECK(tells(&report, 3, 0, 0));
    CHECK(lasso_get_batch(&lasso, bytes, 6, offsets, 4, LASSO_ABSENT, codes, 3, &report) == LASSO_DONE && tells(&report, 3, 0, 0));
    CHECK(codes[0] == LASSO_ABSENT && codes[1] == LASSO_ABSENT && codes[2] == 0);
    CHECK(lasso_resolve(&lasso, 0, NULL, 0, &whole) == LASSO_DONE && whole == 0);
    CHECK(lasso_dictionary(&lasso, 0, NULL, 0, NULL, 0, &report) == LASSO_OFFSETS_TOO_SHORT && tells(&report, 1, 0, 0));
    CHECK(lasso_dictionary(&lasso, 0, NULL, 0, written, 2, &report) == LASSO_DONE && tells(&report, 1, 0, 0));
    CHECK(written[0] == 0 && written[1] == 0);
    lasso_free(&lasso);

    /* No handle, by the name and by its address. */
    void (*release)(struct lasso *) = lasso_free;
    lasso_free(NULL);
    release(NULL);
    lasso_shared_free(NULL);

    /* The same in an interner that threads share. */
    struct lasso_shared shared = LASSO_SHARED_NONE;
    CHECK(lasso_shared_get(&shared, NULL, 0, &code) == LASSO_NO_INTERNER);
    CHECK(lasso_shared_new(&shared) == LASSO_DONE && lasso_shared_get(&shared, NULL, 0, &code) == LASSO_NO_SUCH_TEXT);
    CHECK(lasso_shared_intern_wait(&shared, NULL, 0, &code) == LASSO_DONE && code == 0);
    CHECK(lasso_shared_get_wait(&shared, NULL, 0, &code) == LASSO_DONE && code == 0);
    CHECK(lasso_shared_resolve(&shared, 0, NULL, 0, &whole) == LASSO_DONE && whole == 0);
    lasso_shared_free(&shared);
    return 0;
}
