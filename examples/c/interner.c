/* An interner that is held from call to call: every call of it, its refusals, a copy by dictionaries, and a handle a thread. */
#include "check.h"
#include "lasso.h"

#include <pthread.h>
#include <stdlib.h>
#include <string.h>

static uint32_t intern(struct lasso *lasso, const char *text, uint32_t *code)
{
    return lasso_intern(lasso, (const uint8_t *)text, strlen(text), code);
}

static uint32_t get(struct lasso *lasso, const char *text, uint32_t *code)
{
    return lasso_get(lasso, (const uint8_t *)text, strlen(text), code);
}

/* A number as a text. */
static const char *number(char *room, size_t length, size_t n)
{
    snprintf(room, length, "text %zu", n);
    return room;
}

/* Texts by hand: codes from 0 on, equal texts by equal codes, and what is refused. */
static int check_calls(void)
{
    struct lasso lasso = LASSO_NONE;
    uint32_t code = 77;
    size_t whole = 77;
    uint8_t text[8] = {'.', '.', '.', '.', '.', '.', '.', '.'};
    CHECK(sizeof lasso == 16);
    CHECK(intern(&lasso, "red", &code) == LASSO_NO_INTERNER && code == 77);
    CHECK(lasso_len(&lasso) == 0 && lasso_memory(&lasso) == 0 && lasso_limit(&lasso) == 0);
    CHECK(lasso_clear(&lasso) == LASSO_NO_INTERNER && lasso_set_limit(&lasso, 9) == LASSO_NO_INTERNER);
    lasso_free(&lasso);
    CHECK(lasso.at == NULL && !lasso.live);

    CHECK(lasso_new(&lasso, LASSO_NO_LIMIT) == LASSO_DONE);
    CHECK(lasso_len(&lasso) == 0 && lasso_memory(&lasso) == 4096 && lasso_limit(&lasso) == LASSO_NO_LIMIT);
    CHECK(intern(&lasso, "red", &code) == LASSO_DONE && code == 0);
    CHECK(intern(&lasso, "blue", &code) == LASSO_DONE && code == 1);
    CHECK(intern(&lasso, "red", &code) == LASSO_DONE && code == 0);
    code = 77;
    CHECK(intern(&lasso, "\xc3", &code) == LASSO_NOT_UTF8 && code == 77);
    CHECK(get(&lasso, "green", &code) == LASSO_NO_SUCH_TEXT && code == 77);
    CHECK(get(&lasso, "blue", &code) == LASSO_DONE && code == 1);
    CHECK(lasso_resolve(&lasso, 1, text, 8, &whole) == LASSO_DONE && whole == 4 && memcmp(text, "blue....", 8) == 0);
    CHECK(lasso_resolve(&lasso, 0, text, 2, &whole) == LASSO_DONE && whole == 3 && memcmp(text, "reue....", 8) == 0);
    CHECK(lasso_resolve(&lasso, 2, text, 8, &whole) == LASSO_NO_SUCH_CODE && whole == 3);
    CHECK(lasso_resolve(&lasso, UINT32_MAX, text, 8, &whole) == LASSO_NO_SUCH_CODE);

    /* A handle is moved, and the copy that is left is not used. */
    struct lasso moved = lasso;
    CHECK(lasso_len(&moved) == 2);
    CHECK(lasso_clear(&moved) == LASSO_DONE && lasso_len(&moved) == 0);
    CHECK(intern(&moved, "blue", &code) == LASSO_DONE && code == 0);
    /* A new interner lets the old one go. */
    CHECK(lasso_new(&moved, 5000) == LASSO_DONE && lasso_len(&moved) == 0 && lasso_limit(&moved) == 5000);
    lasso_free(&moved);
    CHECK(moved.at == NULL && !moved.live);
    lasso_free(&moved);
    CHECK(lasso_len(&moved) == 0);
    return 0;
}

/* What is refused for the limit leaves all as it was, and a greater limit takes it. */
static int check_limit(void)
{
    struct lasso lasso = LASSO_NONE;
    char room[32];
    uint32_t code = 77, status;
    size_t count = 0;
    CHECK(lasso_new(&lasso, 5000) == LASSO_DONE);
    while ((status = intern(&lasso, number(room, sizeof room, 1000000 + count), &code)) == LASSO_DONE && code == count)
        count++;
    size_t memory = lasso_memory(&lasso);
    code = 77;
    CHECK(status == LASSO_LIMIT_REACHED && memory <= 5000 && lasso_len(&lasso) == count && count > 300);
    CHECK(intern(&lasso, room, &code) == LASSO_LIMIT_REACHED && code == 77 && lasso_memory(&lasso) == memory);
    CHECK(intern(&lasso, number(room, sizeof room, 1000000), &code) == LASSO_DONE && code == 0);
    CHECK(lasso_set_limit(&lasso, LASSO_NO_LIMIT) == LASSO_DONE);
    CHECK(intern(&lasso, number(room, sizeof room, 1000000 + count), &code) == LASSO_DONE && code == count);
    lasso_free(&lasso);
    return 0;
}

/* Batches keep the texts before a refused one; deltas of the dictionary give a second interner the same codes. */
static int check_batches(void)
{
    struct lasso lasso = LASSO_NONE, copy = LASSO_NONE;
    struct lasso_report report;
    const uint8_t bytes[] = "redbluered\xc3";
    const int32_t offsets[] = {0, 3, 7, 10, 11};
    uint32_t codes[5] = {9, 9, 9, 9, 9};
    uint8_t texts[8] = {'.', '.', '.', '.', '.', '.', '.', '.'};
    int32_t starts[4] = {9, 9, 9, 9};
    CHECK(lasso_new(&lasso, LASSO_NO_LIMIT) == LASSO_DONE && lasso_new(&copy, LASSO_NO_LIMIT) == LASSO_DONE);
    CHECK(lasso_intern_batch(&lasso, bytes, 11, offsets, 5, codes, 3, &report) == LASSO_CODES_TOO_SHORT);
    CHECK(report.texts == 0 && codes[0] == 9 && lasso_len(&lasso) == 0);
    CHECK(lasso_intern_batch(&lasso, bytes, 11, offsets, 5, codes, 5, &report) == LASSO_NOT_UTF8);
    CHECK(report.texts == 3 && report.bytes == 0 && report.at == 3 && lasso_len(&lasso) == 2);
    CHECK(codes[0] == 0 && codes[1] == 1 && codes[2] == 0 && codes[3] == 9 && codes[4] == 9);

    CHECK(lasso_dictionary(&lasso, 1, texts, 2, starts, 4, &report) == LASSO_BYTES_TOO_SHORT);
    CHECK(report.texts == 1 && report.bytes == 4 && starts[0] == 9);
    CHECK(lasso_dictionary(&lasso, 1, texts, 8, starts, 1, &report) == LASSO_OFFSETS_TOO_SHORT && report.bytes == 4);
    CHECK(lasso_dictionary(&lasso, 1, texts, 8, starts, 4, &report) == LASSO_DONE && report.texts == 1 && report.bytes == 4);
    CHECK(starts[0] == 0 && starts[1] == 4 && starts[2] == 9 && memcmp(texts, "blue....", 8) == 0);
    CHECK(lasso_dictionary(&lasso, SIZE_MAX, texts, 8, starts, 4, &report) == LASSO_DONE && report.texts == 0);

    CHECK(lasso_dictionary(&lasso, 0, texts, 8, starts, 4, &report) == LASSO_DONE && report.texts == 2);
    CHECK(lasso_intern_batch(&copy, texts, report.bytes, starts, report.texts + 1, codes, 5, &report) == LASSO_DONE);
    CHECK(report.texts == 2 && codes[0] == 0 && codes[1] == 1 && lasso_len(&copy) == 2);
    lasso_free(&lasso);
    lasso_free(&copy);
    return 0;
}

static void *fill(void *handle)
{
    struct lasso *lasso = handle;
    char room[32];
    for (uint32_t n = 0; n < 10000; n++) {
        uint32_t code;
        if (intern(lasso, number(room, sizeof room, n), &code) != LASSO_DONE || code != n)
            return handle;
    }
    return NULL;
}

/* Four handles that are made here, filled by a thread each, and let go here. */
static int check_threads(void)
{
    struct lasso lassos[4] = {LASSO_NONE, LASSO_NONE, LASSO_NONE, LASSO_NONE};
    pthread_t threads[4];
    void *wrong;
    for (int k = 0; k < 4; k++) {
        CHECK(lasso_new(&lassos[k], LASSO_NO_LIMIT) == LASSO_DONE);
        CHECK(pthread_create(&threads[k], NULL, fill, &lassos[k]) == 0);
    }
    for (int k = 0; k < 4; k++)
        CHECK(pthread_join(threads[k], &wrong) == 0 && wrong == NULL && lasso_len(&lassos[k]) == 10000);
    for (int k = 0; k < 4; k++)
        lasso_free(&lassos[k]);
    return 0;
}

int main(void)
{
    return check_calls() || check_limit() || check_batches() || check_threads();
}
