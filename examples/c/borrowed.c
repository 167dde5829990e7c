/* Texts that an interner lends: each as it was interned, long ones where they were while others come, short ones lent again after the
 * list of texts grew; and the makers, whose texts are lent. It is good C and good C++. */
#include "lasso.h"

#include "check.h"

#include <string.h>

enum { TEXTS = 100000, ROOM = 1000 };

static const struct lasso_text NO_TEXT = LASSO_NO_TEXT;

/* A text of a number: of at most 14 bytes if the number is odd, else of more. */
static size_t text_of(char *room, size_t length, size_t number)
{
    return (size_t)snprintf(room, length, number % 2 ? "w%zu" : "a text of more than fourteen bytes %zu", number);
}

static int is_text(const struct lasso_text *text, size_t number)
{
    char room[64];
    size_t length = text_of(room, sizeof room, number);
    return text->length == length && memcmp(text->bytes, room, length) == 0;
}

/* Interns the texts of the numbers from one on, up to another. */
static int fill(struct lasso *lasso, size_t from, size_t to)
{
    char room[64];
    for (size_t number = from; number < to; number++) {
        uint32_t code;
        size_t length = text_of(room, sizeof room, number);
        CHECK(lasso_intern(lasso, (const uint8_t *)room, length, &code) == LASSO_DONE && code == number);
    }
    return 0;
}

/* Without an interner, and past the last text, nothing is lent. */
static int check_refusals(void)
{
    struct lasso lasso = LASSO_NONE;
    struct lasso_text text = NO_TEXT, texts[2] = {NO_TEXT, NO_TEXT};
    CHECK(lasso_text(&lasso, 0, &text) == LASSO_NO_INTERNER && text.bytes == NO_TEXT.bytes && text.length == 0);
    CHECK(lasso_texts(&lasso, 0, texts, 2) == 0 && lasso_capacity(&lasso) == 0);
    CHECK(lasso_new(&lasso, LASSO_NO_LIMIT) == LASSO_DONE);
    CHECK(lasso_text(&lasso, 0, &text) == LASSO_NO_SUCH_CODE && text.bytes == NO_TEXT.bytes && text.length == 0);
    CHECK(lasso_texts(&lasso, 0, NULL, 0) == 0 && lasso_texts(&lasso, 0, texts, 2) == 0);
    CHECK(fill(&lasso, 0, 1) == 0);
    CHECK(lasso_texts(&lasso, 0, NULL, 0) == 0);
    CHECK(lasso_texts(&lasso, 0, texts, 2) == 1 && is_text(&texts[0], 0) && texts[1].bytes == NO_TEXT.bytes);
    CHECK(lasso_text(&lasso, 1, &text) == LASSO_NO_SUCH_CODE && lasso_text(&lasso, UINT32_MAX, &text) == LASSO_NO_SUCH_CODE);
    CHECK(text.bytes == NO_TEXT.bytes && text.length == 0);
    lasso_free(&lasso);
    return 0;
}

/* Texts of both kinds, which are read through reading calls. */
static int check_reading_calls(struct lasso *lasso)
{
    struct lasso_text first = NO_TEXT, second = NO_TEXT, texts[3] = {NO_TEXT, NO_TEXT, NO_TEXT};
    struct lasso copy = LASSO_NONE;
    struct lasso_report report;
    uint8_t byte, bytes[64];
    int32_t offsets[2];
    int64_t large[2];
    const int32_t ends[] = {0, 1};
    const int64_t large_ends[] = {0, 1};
    uint32_t code;
    size_t whole;
    CHECK(lasso_text(lasso, 0, &first) == LASSO_DONE && lasso_text(lasso, 1, &second) == LASSO_DONE);
    CHECK(lasso_texts(lasso, 0, texts, 3) == 3);
    CHECK(lasso_get(lasso, (const uint8_t *)"w1", 2, &code) == LASSO_DONE && code == 1);
    CHECK(lasso_get_batch(lasso, (const uint8_t *)"w", 1, ends, 2, LASSO_ABSENT, &code, 1, &report) == LASSO_DONE);
    CHECK(lasso_get_batch_large(lasso, (const uint8_t *)"w", 1, large_ends, 2, LASSO_ABSENT, &code, 1, &report) == LASSO_DONE);
    CHECK(lasso_resolve(lasso, 1, &byte, 1, &whole) == LASSO_DONE && byte == 'w');
    CHECK(lasso_dictionary(lasso, lasso_len(lasso) - 1, bytes, sizeof bytes, offsets, 2, &report) == LASSO_DONE);
    CHECK(lasso_dictionary_large(lasso, lasso_len(lasso) - 1, bytes, sizeof bytes, large, 2, &report) == LASSO_DONE);
    CHECK(lasso_memory(lasso) <= lasso_limit(lasso) && lasso_len(lasso) <= lasso_capacity(lasso));
    CHECK(lasso_clone(lasso, &copy) == LASSO_DONE);
    lasso_free(&copy);
    CHECK(is_text(&first, 0) && is_text(&second, 1));
    CHECK(is_text(&texts[0], 0) && is_text(&texts[1], 1) && is_text(&texts[2], 2));
    return 0;
}

/* A long text stays while others come and the list grows; a short one is lent again, and is then the same text. */
static int check_growth(void)
{
    struct lasso lasso = LASSO_NONE;
    struct lasso_text stays = NO_TEXT, again = NO_TEXT;
    static struct lasso_text texts[ROOM];
    size_t seen = 0, count;
    CHECK(lasso_new(&lasso, LASSO_NO_LIMIT) == LASSO_DONE && fill(&lasso, 0, 3) == 0);
    CHECK(lasso_text(&lasso, 2, &stays) == LASSO_DONE && check_reading_calls(&lasso) == 0);
    CHECK(fill(&lasso, 3, TEXTS) == 0 && lasso_capacity(&lasso) >= TEXTS);
    CHECK(is_text(&stays, 2));
    CHECK(lasso_text(&lasso, 1, &again) == LASSO_DONE && is_text(&again, 1));
    CHECK(lasso_text(&lasso, 2, &again) == LASSO_DONE && again.bytes == stays.bytes);
    do {
        for (size_t n = 0; n < ROOM; n++)
            texts[n] = NO_TEXT;
        count = lasso_texts(&lasso, seen, texts, ROOM - 1);
        for (size_t n = 0; n < count; n++)
            CHECK(is_text(&texts[n], seen + n));
        CHECK(texts[ROOM - 1].bytes == NO_TEXT.bytes);
        seen += count;
    } while (count > 0);
    CHECK(seen == TEXTS);
    lasso_free(&lasso);
    return 0;
}

/* The makers: a size that is never left, keys, and a clone that outlives its interner. */
static int check_makers(void)
{
    struct lasso lasso = LASSO_NONE, keyed = LASSO_NONE, clone = LASSO_NONE;
    struct lasso_text text = NO_TEXT;
    CHECK(lasso_clone(&lasso, &clone) == LASSO_NO_INTERNER && lasso_len(&clone) == 0);
    CHECK(lasso_new_sized(&lasso, 5000, 250000, 250000) == LASSO_DONE);
    size_t capacity = lasso_capacity(&lasso);
    CHECK(capacity >= 5000 && lasso_memory(&lasso) == 250000 && lasso_limit(&lasso) == 250000);
    CHECK(fill(&lasso, 0, 5000) == 0 && lasso_capacity(&lasso) == capacity && lasso_memory(&lasso) == 250000);
    CHECK(lasso_new_sized(&keyed, SIZE_MAX, 1, 1) == LASSO_NO_MEMORY && lasso_len(&keyed) == 0);

    CHECK(lasso_new_keyed(&keyed, LASSO_NO_LIMIT, 7, UINT64_MAX) == LASSO_DONE && fill(&keyed, 0, 5000) == 0);
    CHECK(lasso_text(&keyed, 4999, &text) == LASSO_DONE && is_text(&text, 4999));
    CHECK(lasso_new_sized_keyed(&keyed, 5000, 250000, 250000, 7, UINT64_MAX) == LASSO_DONE && lasso_len(&keyed) == 0);
    CHECK(lasso_capacity(&keyed) == capacity && fill(&keyed, 0, 5000) == 0 && lasso_memory(&keyed) == 250000);
    CHECK(lasso_new_sized_keyed(&keyed, SIZE_MAX, 1, 1, 7, 7) == LASSO_NO_MEMORY && lasso_len(&keyed) == 5000);

    text = NO_TEXT;
    CHECK(lasso_clone(&keyed, &clone) == LASSO_DONE && lasso_len(&clone) == 5000 && lasso_len(&keyed) == 5000);
    CHECK(lasso_clone(&lasso, &clone) == LASSO_DONE && lasso_len(&clone) == 5000 && lasso_limit(&clone) == 250000);
    lasso_free(&lasso);
    CHECK(lasso_text(&clone, 4998, &text) == LASSO_DONE && is_text(&text, 4998));
    CHECK(lasso_clone(&lasso, &clone) == LASSO_NO_INTERNER && is_text(&text, 4998) && lasso_len(&clone) == 5000);
    lasso_free(&keyed);
    lasso_free(&clone);
    return 0;
}

int main(void)
{
    return check_refusals() || check_growth() || check_makers();
}
