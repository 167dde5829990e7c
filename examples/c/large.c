/* Calls with offsets of 64 bits, as arrays of large strings have them. It is good C and good C++. */
#include "lasso.h"

#include "check.h"

#include <string.h>

static int tells(const struct lasso_report *report, size_t texts, size_t bytes, size_t at)
{
    return report->texts == texts && report->bytes == bytes && report->at == at;
}

/* Interning and looking up. An offset of 2^32 + 3 would be 3 if it were cut to 32 bits. */
static int check_texts(struct lasso *lasso)
{
    const uint8_t *bytes = (const uint8_t *)"redbluered", present[] = {5};
    const int64_t offsets[] = {0, 3, 7, 10}, far[] = {0, 3, INT64_C(4294967299)}, negative[] = {0, -1}, falling[] = {3, 0};
    uint32_t codes[4] = {9, 9, 9, 9};
    struct lasso_report report = {7, 7, 7};
    CHECK(lasso_intern_batch_large(lasso, bytes, 10, far, 3, codes, 4, &report) == LASSO_OFFSET_PAST_BYTES);
    CHECK(tells(&report, 1, 0, 1) && codes[0] == 0 && codes[1] == 9 && lasso_len(lasso) == 1);
    CHECK(lasso_intern_batch_large(lasso, bytes, 10, negative, 2, codes, 4, &report) == LASSO_OFFSET_PAST_BYTES);
    CHECK(lasso_intern_batch_large(lasso, bytes, 10, falling, 2, codes, 4, &report) == LASSO_OFFSETS_FALL);
    CHECK(lasso_intern_batch_large(lasso, bytes, 10, offsets, 4, codes, 2, &report) == LASSO_CODES_TOO_SHORT);
    CHECK(lasso_len(lasso) == 1);

    /* "red", a null and "red"; and then "blue" is absent. */
    CHECK(lasso_intern_batch_nulls_large(lasso, bytes, 10, offsets, 4, present, 1, LASSO_NULL, codes, 4, &report) == LASSO_DONE);
    CHECK(tells(&report, 3, 0, 0) && codes[0] == 0 && codes[1] == LASSO_NULL && codes[2] == 0 && codes[3] == 9);
    CHECK(lasso_get_batch_large(lasso, bytes, 10, offsets, 4, LASSO_ABSENT, codes, 4, &report) == LASSO_DONE);
    CHECK(tells(&report, 3, 0, 0) && codes[0] == 0 && codes[1] == LASSO_ABSENT && codes[2] == 0 && codes[3] == 9);
    CHECK(lasso_get_batch_large(lasso, bytes, 10, far, 3, LASSO_ABSENT, codes, 4, &report) == LASSO_OFFSET_PAST_BYTES);
    CHECK(tells(&report, 0, 0, 1));
    CHECK(lasso_intern_batch_large(lasso, bytes, 10, offsets, 4, codes, 4, &report) == LASSO_DONE);
    CHECK(tells(&report, 3, 0, 0) && codes[0] == 0 && codes[1] == 1 && codes[2] == 0 && codes[3] == 9);
    return 0;
}

/* The dictionary: "red" and "blue". */
static int check_dictionary(struct lasso *lasso)
{
    uint8_t texts[8] = {9, 9, 9, 9, 9, 9, 9, 9};
    int64_t starts[4] = {9, 9, 9, 9};
    struct lasso_report report = {7, 7, 7};
    CHECK(lasso_dictionary_large(lasso, 0, NULL, 0, starts, 4, &report) == LASSO_BYTES_TOO_SHORT && tells(&report, 2, 7, 0));
    CHECK(lasso_dictionary_large(lasso, 0, texts, 8, starts, 2, &report) == LASSO_OFFSETS_TOO_SHORT && tells(&report, 2, 7, 0));
    CHECK(texts[0] == 9 && starts[0] == 9);
    CHECK(lasso_dictionary_large(lasso, 0, texts, 8, starts, 4, &report) == LASSO_DONE && tells(&report, 2, 7, 0));
    CHECK(memcmp(texts, "redblue\t", 8) == 0 && starts[0] == 0 && starts[1] == 3 && starts[2] == 7 && starts[3] == 9);
    CHECK(lasso_dictionary_large(lasso, 2, NULL, 0, starts, 4, &report) == LASSO_DONE && tells(&report, 0, 0, 0) && starts[0] == 0);
    return 0;
}

int main(void)
{
    struct lasso lasso = LASSO_NONE;
    struct lasso_report report = {7, 7, 7};
    CHECK(lasso_intern_batch_large(&lasso, NULL, 0, NULL, 0, NULL, 0, &report) == LASSO_NO_INTERNER && tells(&report, 0, 0, 0));
    CHECK(lasso_get_batch_large(&lasso, NULL, 0, NULL, 0, 0, NULL, 0, &report) == LASSO_NO_INTERNER);
    CHECK(lasso_dictionary_large(&lasso, 0, NULL, 0, NULL, 0, &report) == LASSO_NO_INTERNER);
    CHECK(lasso_new(&lasso, LASSO_NO_LIMIT) == LASSO_DONE);
    CHECK(lasso_intern_batch_large(&lasso, NULL, 0, NULL, 0, NULL, 0, &report) == LASSO_DONE && tells(&report, 0, 0, 0));
    CHECK(lasso_intern_batch_nulls_large(&lasso, NULL, 0, NULL, 0, NULL, 0, 0, NULL, 0, &report) == LASSO_DONE);
    int failed = check_texts(&lasso) || check_dictionary(&lasso);
    lasso_free(&lasso);
    return failed;
}
