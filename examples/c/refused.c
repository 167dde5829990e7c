/* Each request for memory is refused in turn. Then a call says so, nothing has changed, nothing is lost, and a second try is done.
 * Link with -Wl,--wrap=malloc,--wrap=realloc,--wrap=free. */
#include "check.h"
#include "lasso.h"

#include <stdlib.h>
#include <string.h>

/* How many more requests are granted, where a number is set; and how many blocks there are. */
static long granted = -1, blocks = 0;

void *__real_malloc(size_t size);
void *__real_realloc(void *block, size_t size);
void __real_free(void *block);

static bool refuses(void)
{
    if (granted > 0)
        granted--;
    else if (granted == 0)
        return true;
    return false;
}

void *__wrap_malloc(size_t size)
{
    void *block = refuses() ? NULL : __real_malloc(size);
    blocks += block != NULL;
    return block;
}

void *__wrap_realloc(void *block, size_t size)
{
    if (refuses())
        return NULL;
    void *moved = __real_realloc(block, size);
    blocks += block == NULL && moved != NULL;
    return moved;
}

void __wrap_free(void *block)
{
    blocks -= block != NULL;
    __real_free(block);
}

/* Interns 3,000 texts with so many requests granted, and counts the calls that were refused. */
static int try_with(long grant, long *new_refused, long *text_refused)
{
    struct lasso lasso = LASSO_NONE;
    char text[32];
    uint32_t code, status;
    granted = grant;
    status = lasso_new(&lasso, LASSO_NO_LIMIT);
    if (status != LASSO_DONE) {
        CHECK(status == LASSO_NO_MEMORY && lasso.at == NULL && !lasso.live && blocks == 0);
        ++*new_refused;
        return 0;
    }
    for (uint32_t n = 0; n < 3000; n++) {
        size_t length = (size_t)snprintf(text, sizeof text, "text %u", n);
        code = 7777;
        status = lasso_intern(&lasso, (const uint8_t *)text, length, &code);
        if (status != LASSO_DONE) {
            CHECK(status == LASSO_NO_MEMORY && code == 7777 && lasso_len(&lasso) == n);
            /* A refused lasso_new keeps the interner. */
            CHECK(lasso_new(&lasso, 9) == LASSO_NO_MEMORY && lasso_len(&lasso) == n);
            granted = -1;
            ++*text_refused;
            status = lasso_intern(&lasso, (const uint8_t *)text, length, &code);
        }
        CHECK(status == LASSO_DONE && code == n);
    }
    granted = -1;
    lasso_free(&lasso);
    CHECK(blocks == 0);
    return 0;
}

/* The same of an interner that threads share, by two handles in turn. */
static int try_shared_with(long grant, long *made_refused, long *text_refused)
{
    struct lasso_shared handles[2] = {LASSO_SHARED_NONE, LASSO_SHARED_NONE};
    char text[32];
    uint32_t code, status;
    granted = grant;
    status = lasso_shared_new(&handles[0]);
    if (status != LASSO_DONE) {
        CHECK(status == LASSO_NO_MEMORY && handles[0].at == NULL && !handles[0].live && blocks == 0);
        ++*made_refused;
        return 0;
    }
    status = lasso_shared_join(&handles[0], &handles[1]);
    if (status != LASSO_DONE) {
        CHECK(status == LASSO_NO_MEMORY && !handles[1].live && lasso_shared_len(&handles[0]) == 0);
        granted = -1;
        ++*made_refused;
        CHECK(lasso_shared_join(&handles[0], &handles[1]) == LASSO_DONE);
    }
    for (uint32_t n = 0; n < 10000; n++) {
        struct lasso_shared *shared = &handles[n % 2];
        size_t length = (size_t)snprintf(text, sizeof text, "text %u", n);
        code = 7777777;
        status = lasso_shared_intern(shared, (const uint8_t *)text, length, &code);
        if (status != LASSO_DONE) {
            CHECK(status == LASSO_NO_MEMORY && code == 7777777 && lasso_shared_len(shared) == n);
            CHECK(lasso_shared_get(shared, (const uint8_t *)text, length, &code) == LASSO_NO_SUCH_TEXT);
            granted = -1;
            ++*text_refused;
            status = lasso_shared_intern(shared, (const uint8_t *)text, length, &code);
        }
        CHECK(status == LASSO_DONE && code == n);
    }
    granted = -1;
    lasso_shared_free(&handles[0]);
    lasso_shared_free(&handles[1]);
    CHECK(blocks == 0);
    return 0;
}

int main(void)
{
    long new_refused = 0, text_refused = 0;
    for (long grant = 0; grant < 60; grant++)
        if (try_with(grant, &new_refused, &text_refused) != 0)
            return 1;
    /* Both were tried, and the last tries had all that they asked for. */
    CHECK(new_refused > 0 && text_refused > 0 && new_refused + text_refused < 60);

    long made_refused = 0;
    text_refused = 0;
    for (long grant = 0; grant < 400; grant++)
        if (try_shared_with(grant, &made_refused, &text_refused) != 0)
            return 1;
    CHECK(made_refused > 0 && text_refused > 0 && made_refused + text_refused < 400);
    return 0;
}
