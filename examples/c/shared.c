/* An interner that threads share: every call of it, its refusals, handles that come and go, and the replies of 1 to 16 threads,
 * which one list has to explain. */
#include "check.h"
#include "lasso.h"

#include <pthread.h>
#include <stdlib.h>
#include <string.h>

enum { MOST_THREADS = 16, CALLS = 20000, DISTINCT = 3000 };

static uint32_t intern(struct lasso_shared *shared, const char *text, uint32_t *code)
{
    return lasso_shared_intern(shared, (const uint8_t *)text, strlen(text), code);
}

static uint32_t get(struct lasso_shared *shared, const char *text, uint32_t *code)
{
    return lasso_shared_get(shared, (const uint8_t *)text, strlen(text), code);
}

/* A number as a text: short ones, long ones, and some that are not ASCII. */
static const char *text_of(char room[64], uint32_t number)
{
    snprintf(room, 64, number % 7 ? "text %u" : "a somewhat longer text, gr\xc3\xbcn, number %u", (unsigned)number);
    return room;
}

static bool is_lent(const struct lasso_text *text, const char *want)
{
    return text->length == strlen(want) && memcmp(text->bytes, want, text->length) == 0;
}

/* By hand, in one thread, where no call is busy: codes from 0 on, equal texts by equal codes, and what is refused. */
static int check_calls(void)
{
    struct lasso_shared shared = LASSO_SHARED_NONE, other = LASSO_SHARED_NONE;
    struct lasso_text lent = LASSO_NO_TEXT;
    uint32_t code = 77;
    size_t whole = 77;
    uint8_t text[8] = {'.', '.', '.', '.', '.', '.', '.', '.'};
    CHECK(sizeof shared == 16);
    CHECK(intern(&shared, "red", &code) == LASSO_NO_INTERNER && get(&shared, "red", &code) == LASSO_NO_INTERNER && code == 77);
    CHECK(lasso_shared_len(&shared) == 0 && lasso_shared_see(&shared) == LASSO_NO_INTERNER);
    CHECK(lasso_shared_resolve(&shared, 0, text, 8, &whole) == LASSO_NO_INTERNER && whole == 77);
    CHECK(lasso_shared_text(&shared, 0, &lent) == LASSO_NO_INTERNER && lent.length == 0);
    CHECK(lasso_shared_join(&shared, &other) == LASSO_NO_INTERNER && !other.live);
    lasso_shared_free(&shared);
    CHECK(shared.at == NULL && !shared.live);

    CHECK(lasso_shared_new(&shared) == LASSO_DONE && lasso_shared_len(&shared) == 0);
    CHECK(intern(&shared, "\xc3", &code) == LASSO_NOT_UTF8 && get(&shared, "\xc3", &code) == LASSO_NOT_UTF8 && code == 77);
    CHECK(get(&shared, "red", &code) == LASSO_NO_SUCH_TEXT && code == 77);
    CHECK(intern(&shared, "red", &code) == LASSO_DONE && code == 0);
    CHECK(intern(&shared, "", &code) == LASSO_DONE && code == 1);
    CHECK(lasso_shared_intern(&shared, NULL, 0, &code) == LASSO_DONE && code == 1);
    CHECK(intern(&shared, "blue", &code) == LASSO_DONE && code == 2);
    CHECK(intern(&shared, "red", &code) == LASSO_DONE && code == 0);
    CHECK(get(&shared, "blue", &code) == LASSO_DONE && code == 2);
    CHECK(lasso_shared_len(&shared) == 3);
    CHECK(lasso_shared_resolve(&shared, 2, text, 8, &whole) == LASSO_DONE && whole == 4 && memcmp(text, "blue....", 8) == 0);
    CHECK(lasso_shared_resolve(&shared, 0, text, 2, &whole) == LASSO_DONE && whole == 3 && memcmp(text, "reue....", 8) == 0);
    CHECK(lasso_shared_resolve(&shared, 0, NULL, 0, &whole) == LASSO_DONE && whole == 3);
    CHECK(lasso_shared_resolve(&shared, 3, text, 8, &whole) == LASSO_NO_SUCH_CODE && whole == 3);
    CHECK(lasso_shared_resolve(&shared, UINT32_MAX, text, 8, &whole) == LASSO_NO_SUCH_CODE && memcmp(text, "reue....", 8) == 0);

    /* A handle lends what it has seen: nothing yet, then all. Another sees at first what there is when it is made. */
    CHECK(lasso_shared_text(&shared, 0, &lent) == LASSO_NO_SUCH_CODE && lent.length == 0);
    CHECK(lasso_shared_see(&shared) == LASSO_DONE && lasso_shared_text(&shared, 0, &lent) == LASSO_DONE && is_lent(&lent, "red"));
    CHECK(lasso_shared_join(&shared, &other) == LASSO_DONE && lasso_shared_len(&other) == 3);
    CHECK(intern(&other, "green", &code) == LASSO_DONE && code == 3 && get(&shared, "green", &code) == LASSO_DONE && code == 3);
    CHECK(lasso_shared_text(&other, 2, &lent) == LASSO_DONE && is_lent(&lent, "blue"));
    CHECK(lasso_shared_text(&other, 3, &lent) == LASSO_NO_SUCH_CODE && is_lent(&lent, "blue"));
    CHECK(lasso_shared_text_now(&other, 3, &lent) == LASSO_DONE && is_lent(&lent, "green"));
    CHECK(lasso_shared_text_now(&other, 4, &lent) == LASSO_NO_SUCH_CODE);
    CHECK(lasso_shared_text_now(&other, UINT32_MAX, &lent) == LASSO_NO_SUCH_CODE);

    /* A handle is moved; the first one is freed; and a new interner in a handle lets go of its part of the old one. */
    struct lasso_shared moved = other;
    lasso_shared_free(&shared);
    CHECK(!shared.live && lasso_shared_len(&shared) == 0 && is_lent(&lent, "green"));
    CHECK(intern(&moved, "red", &code) == LASSO_DONE && code == 0);
    CHECK(lasso_shared_join(&moved, &shared) == LASSO_DONE && lasso_shared_new(&moved) == LASSO_DONE);
    CHECK(lasso_shared_len(&moved) == 0 && lasso_shared_len(&shared) == 4);
    CHECK(intern(&moved, "green", &code) == LASSO_DONE && code == 0 && is_lent(&lent, "green"));
    CHECK(lasso_shared_join(&moved, &shared) == LASSO_DONE && lasso_shared_len(&shared) == 1);
    lasso_shared_free(&moved);
    lasso_shared_free(&shared);
    lasso_shared_free(&shared);
    return 0;
}

/* More texts than the hints and the first buckets are made for, in one thread: no call is busy. */
static int check_many(void)
{
    struct lasso_shared shared = LASSO_SHARED_NONE;
    struct lasso_text lent = LASSO_NO_TEXT;
    static char long_text[200000];
    char room[64];
    uint32_t code;
    memset(long_text, 'x', sizeof long_text - 1);
    CHECK(lasso_shared_new(&shared) == LASSO_DONE);
    for (uint32_t round = 0; round < 2; round++)
        for (uint32_t n = 0; n < 30000; n++)
            CHECK(intern(&shared, text_of(room, n), &code) == LASSO_DONE && code == n);
    CHECK(intern(&shared, long_text, &code) == LASSO_DONE && code == 30000 && get(&shared, long_text, &code) == LASSO_DONE);
    for (uint32_t n = 0; n < 30000; n++)
        CHECK(lasso_shared_text_now(&shared, n, &lent) == LASSO_DONE && is_lent(&lent, text_of(room, n)));
    CHECK(lasso_shared_text_now(&shared, 30000, &lent) == LASSO_DONE && is_lent(&lent, long_text));
    lasso_shared_free(&shared);
    return 0;
}

/* A limit is of all handles: it refuses a text that neither a bucket's room nor what it leaves has room for, and no present one. */
static int check_limit(void)
{
    struct lasso_shared shared = LASSO_SHARED_NONE, other = LASSO_SHARED_NONE;
    static char text[5001];
    size_t bytes = 77;
    uint32_t code = 77;
    CHECK(lasso_shared_set_limit(&shared, 10) == LASSO_NO_INTERNER && lasso_shared_limit(&shared, &bytes) == LASSO_NO_INTERNER);
    CHECK(lasso_shared_memory(&shared, &bytes) == LASSO_NO_INTERNER && bytes == 77);
    CHECK(lasso_shared_new(&shared) == LASSO_DONE && lasso_shared_join(&shared, &other) == LASSO_DONE);
    CHECK(lasso_shared_limit_wait(&shared, &bytes) == LASSO_DONE && bytes == LASSO_NO_LIMIT);
    CHECK(lasso_shared_set_limit_wait(&other, 5000) == LASSO_DONE);
    CHECK(lasso_shared_limit(&shared, &bytes) == LASSO_DONE && bytes == 5000);
    CHECK(intern(&shared, "red", &code) == LASSO_DONE && code == 0);
    memset(text, 'x', 4094);
    CHECK(intern(&other, text, &code) == LASSO_LIMIT_REACHED && code == 0 && lasso_shared_len(&other) == 1);
    CHECK(lasso_shared_memory_wait(&shared, &bytes) == LASSO_DONE && bytes == 4096);
    text[4093] = 0;
    CHECK(intern(&other, text, &code) == LASSO_DONE && code == 1 && intern(&other, "red", &code) == LASSO_DONE && code == 0);
    memset(text, 'y', 905);
    text[905] = 0;
    CHECK(intern(&shared, text, &code) == LASSO_LIMIT_REACHED && get(&shared, text, &code) == LASSO_NO_SUCH_TEXT && code == 0);
    CHECK(intern(&shared, "blue", &code) == LASSO_DONE && code == 2 && lasso_shared_memory(&other, &bytes) == LASSO_DONE && bytes == 5000);
    CHECK(lasso_shared_set_limit(&shared, LASSO_NO_LIMIT) == LASSO_DONE && intern(&other, text, &code) == LASSO_DONE && code == 3);
    CHECK(lasso_shared_memory(&shared, &bytes) == LASSO_DONE && bytes == 5000 + 8192);
    lasso_shared_free(&shared);
    lasso_shared_free(&other);
    return 0;
}

/* The last handle freezes the interner: it and later ones lend the whole list, and intern no more. */
static int check_freezing(void)
{
    struct lasso_shared shared = LASSO_SHARED_NONE, other = LASSO_SHARED_NONE;
    struct lasso_text lent = LASSO_NO_TEXT, kept = LASSO_NO_TEXT;
    const int32_t offsets[] = {0, 3};
    struct lasso_report report = {7, 7, 7};
    uint32_t code = 77;
    size_t bytes = 77;
    CHECK(lasso_shared_freeze(&shared) == LASSO_NO_INTERNER);
    CHECK(lasso_shared_new_sized(&shared, 0, 10, 20) == LASSO_DONE && lasso_shared_join(&shared, &other) == LASSO_DONE);
    CHECK(intern(&shared, "red", &code) == LASSO_DONE && intern(&other, "a text of more bytes", &code) == LASSO_LIMIT_REACHED);
    CHECK(lasso_shared_freeze(&shared) == LASSO_OTHER_HANDLES && lasso_shared_freeze(&other) == LASSO_OTHER_HANDLES);
    CHECK(lasso_shared_text(&shared, 0, &lent) == LASSO_NO_SUCH_CODE);
    CHECK(intern(&other, "blue", &code) == LASSO_DONE && code == 1 && lasso_shared_text_now(&other, 1, &kept) == LASSO_DONE);
    lasso_shared_free(&other);
    CHECK(lasso_shared_freeze(&shared) == LASSO_DONE && lasso_shared_text(&shared, 1, &lent) == LASSO_DONE && is_lent(&lent, "blue"));
    CHECK(lent.bytes == kept.bytes && lasso_shared_len(&shared) == 2 && get(&shared, "red", &code) == LASSO_DONE && code == 0);
    CHECK(intern(&shared, "red", &code) == LASSO_FROZEN && intern(&shared, "new", &code) == LASSO_FROZEN && code == 0);
    CHECK(lasso_shared_intern_batch_wait(&shared, (const uint8_t *)"red", 3, offsets, 2, &code, 1, &report) == LASSO_FROZEN);
    CHECK(report.texts == 0 && report.bytes == 0 && report.at == 0 && code == 0);
    CHECK(lasso_shared_join(&shared, &other) == LASSO_DONE && lasso_shared_freeze(&shared) == LASSO_DONE);
    CHECK(lasso_shared_text(&other, 1, &lent) == LASSO_DONE && intern(&other, "new", &code) == LASSO_FROZEN);
    CHECK(lasso_shared_memory_wait(&other, &bytes) == LASSO_DONE && bytes == 10 && lasso_shared_len(&other) == 2);
    lasso_shared_free(&shared);
    lasso_shared_free(&other);
    return 0;
}

/* A copy for one thread has the texts that the handle has seen, under their codes. */
static int check_copy(struct lasso_shared *shared, const char *const *texts, size_t count)
{
    struct lasso copy = LASSO_NONE;
    struct lasso_text lent = LASSO_NO_TEXT;
    uint32_t code;
    CHECK(lasso_shared_copy(shared, &copy) == LASSO_DONE && lasso_len(&copy) == count);
    for (uint32_t k = 0; k < count; k++) {
        CHECK(lasso_text(&copy, k, &lent) == LASSO_DONE && is_lent(&lent, texts[k]));
        CHECK(lasso_get(&copy, (const uint8_t *)texts[k], strlen(texts[k]), &code) == LASSO_DONE && code == k);
    }
    lasso_free(&copy);
    return 0;
}

/* Batches, texts from a code on, meetings and copies of one interner, by hand. */
static int check_lists_of(struct lasso_shared *shared)
{
    static const char *const texts[] = {"red", "blue", ""};
    static const int32_t offsets[] = {0, 3, 7, 10, 10}, falling[] = {0, 3, 2};
    const uint8_t *bytes = (const uint8_t *)"redbluered";
    struct lasso_shared other = LASSO_SHARED_NONE;
    struct lasso_text lent[4] = {LASSO_NO_TEXT, LASSO_NO_TEXT, LASSO_NO_TEXT, LASSO_NO_TEXT};
    struct lasso_report report;
    uint32_t codes[4] = {77, 77, 77, 77};
    CHECK(lasso_shared_join(shared, &other) == LASSO_DONE);
    CHECK(lasso_shared_intern_batch(shared, bytes, 10, offsets, 5, codes, 3, &report) == LASSO_CODES_TOO_SHORT && report.texts == 0);
    CHECK(lasso_shared_intern_batch(shared, NULL, 0, NULL, 0, NULL, 0, &report) == LASSO_DONE && report.texts == 0 && codes[0] == 77);
    CHECK(lasso_shared_intern_batch_wait(shared, bytes, 10, offsets, 5, codes, 4, &report) == LASSO_DONE);
    CHECK(report.texts == 4 && report.at == 0 && codes[0] == 0 && codes[1] == 1 && codes[2] == 0 && codes[3] == 2);
    CHECK(lasso_shared_intern_batch(shared, bytes, 10, falling, 3, codes, 4, &report) == LASSO_OFFSETS_FALL);
    CHECK(report.texts == 1 && report.at == 1 && lasso_shared_len(shared) == 3);
    CHECK(lasso_shared_texts(&other, 0, lent, 4) == 0 && is_lent(&lent[0], ""));
    CHECK(lasso_shared_meet(&other, shared) == LASSO_DONE);
    CHECK(lasso_shared_texts(&other, 0, lent, 4) == 3 && is_lent(&lent[0], "red") && is_lent(&lent[1], "blue") && is_lent(&lent[2], ""));
    CHECK(lasso_shared_texts(&other, 1, lent, 1) == 1 && is_lent(&lent[0], "blue") && lasso_shared_texts(&other, 3, lent, 4) == 0);
    CHECK(lasso_shared_texts(&other, 0, NULL, 0) == 0);
    CHECK(check_copy(&other, texts, 3) == 0 && check_copy(shared, texts, 0) == 0);
    lasso_shared_free(&other);
    CHECK(lasso_shared_meet(shared, &other) == LASSO_NO_INTERNER && lasso_shared_meet(&other, shared) == LASSO_NO_INTERNER);
    return 0;
}

/* The same by an interner of each maker. */
static int check_lists(void)
{
    struct lasso_shared shared = LASSO_SHARED_NONE;
    struct lasso copy = LASSO_NONE;
    CHECK(lasso_shared_copy(&shared, &copy) == LASSO_NO_INTERNER && !copy.live);
    CHECK(lasso_shared_new(&shared) == LASSO_DONE && check_lists_of(&shared) == 0);
    CHECK(lasso_shared_new_sized(&shared, 100000, 65536, LASSO_NO_LIMIT) == LASSO_DONE && check_lists_of(&shared) == 0);
    CHECK(lasso_shared_new_seeded(&shared, 7, UINT64_MAX) == LASSO_DONE && check_lists_of(&shared) == 0);
    CHECK(lasso_shared_new_sized_seeded(&shared, 0, 0, 100, 7, 8) == LASSO_DONE && check_lists_of(&shared) == 0);
    CHECK(lasso_shared_new_keyed(&shared, UINT64_MAX, 7) == LASSO_DONE && check_lists_of(&shared) == 0);
    CHECK(lasso_shared_new_sized_keyed(&shared, 1000, 1000, 0, 8, 7) == LASSO_DONE && check_lists_of(&shared) == 0);
    CHECK(lasso_shared_new_sized(&shared, SIZE_MAX, 1, LASSO_NO_LIMIT) == LASSO_NO_MEMORY && lasso_shared_len(&shared) == 3);
    CHECK(lasso_shared_new_sized(&shared, 1, SIZE_MAX, 10) == LASSO_NO_MEMORY && lasso_shared_len(&shared) == 3);
    lasso_shared_free(&shared);
    return 0;
}

struct worker {
    pthread_t thread;
    struct lasso_shared handle;
    uint32_t state, number[CALLS], code[CALLS];
    struct lasso_text kept;
};

static uint32_t next(uint32_t *state)
{
    *state ^= *state << 13;
    *state ^= *state >> 17;
    return *state ^= *state << 5;
}

/* Interns texts of which low numbers are frequent, and looks each up again by all calls. */
static int work_through(struct worker *worker)
{
    char room[64];
    uint8_t text[64];
    size_t whole;
    for (uint32_t k = 0; k < CALLS; k++) {
        uint32_t number = next(&worker->state) % DISTINCT * (next(&worker->state) % 1000) / 1000, code, again;
        const char *want = text_of(room, number);
        struct lasso_text lent = LASSO_NO_TEXT;
        CHECK(lasso_shared_intern_wait(&worker->handle, (const uint8_t *)want, strlen(want), &code) == LASSO_DONE);
        worker->number[k] = number;
        worker->code[k] = code;
        CHECK(lasso_shared_resolve(&worker->handle, code, text, sizeof text, &whole) == LASSO_DONE);
        CHECK(whole == strlen(want) && memcmp(text, want, whole) == 0);
        CHECK(lasso_shared_text_now(&worker->handle, code, &lent) == LASSO_DONE && is_lent(&lent, want));
        CHECK(lasso_shared_get_wait(&worker->handle, (const uint8_t *)want, strlen(want), &again) == LASSO_DONE && again == code);
        CHECK(lasso_shared_get_wait(&worker->handle, (const uint8_t *)"absent", 6, &again) == LASSO_NO_SUCH_TEXT);
        CHECK(lasso_shared_len(&worker->handle) > code);
        if (k == 0)
            worker->kept = lent;
    }
    return 0;
}

static void *work(void *worker)
{
    return work_through(worker) == 0 ? NULL : worker;
}

/* One list explains the replies: a text has one code, a code one text, and the codes are those below the length. */
static int check_replies(struct lasso_shared *shared, const struct worker *workers, int threads)
{
    static uint32_t code_of[DISTINCT];
    static bool has[DISTINCT];
    char room[64];
    size_t found = 0;
    for (uint32_t number = 0; number < DISTINCT; number++)
        code_of[number] = LASSO_NULL;
    memset(has, 0, sizeof has);
    for (int k = 0; k < threads; k++)
        for (uint32_t call = 0; call < CALLS; call++) {
            uint32_t number = workers[k].number[call], code = workers[k].code[call];
            CHECK(code < DISTINCT && (code_of[number] == code || (code_of[number] == LASSO_NULL && !has[code])));
            found += code_of[number] == LASSO_NULL;
            code_of[number] = code;
            has[code] = true;
        }
    CHECK(found == lasso_shared_len(shared));
    for (uint32_t code = 0; code < found; code++)
        CHECK(has[code]);
    for (uint32_t number = 0; number < DISTINCT; number++) {
        struct lasso_text lent = LASSO_NO_TEXT;
        if (code_of[number] != LASSO_NULL)
            CHECK(lasso_shared_text_now(shared, code_of[number], &lent) == LASSO_DONE && is_lent(&lent, text_of(room, number)));
    }
    return 0;
}

static int check_threads(struct worker *workers, int threads)
{
    struct lasso_shared shared = LASSO_SHARED_NONE, last = LASSO_SHARED_NONE;
    void *wrong;
    char room[64];
    CHECK(lasso_shared_new(&shared) == LASSO_DONE);
    for (int k = 0; k < threads; k++) {
        workers[k].state = 88172645u + (uint32_t)k;
        CHECK(lasso_shared_join(&shared, &workers[k].handle) == LASSO_DONE);
        CHECK(pthread_create(&workers[k].thread, NULL, work, &workers[k]) == 0);
    }
    for (int k = 0; k < threads; k++)
        CHECK(pthread_join(workers[k].thread, &wrong) == 0 && wrong == NULL);
    CHECK(check_replies(&shared, workers, threads) == 0);
    /* What a thread was lent stays until the last handle goes, whichever that is. */
    lasso_shared_free(&shared);
    CHECK(lasso_shared_join(&workers[0].handle, &last) == LASSO_DONE);
    for (int k = 0; k < threads; k++)
        lasso_shared_free(&workers[k].handle);
    for (int k = 0; k < threads; k++)
        CHECK(is_lent(&workers[k].kept, text_of(room, workers[k].number[0])));
    lasso_shared_free(&last);
    return 0;
}

/* Interns texts of four bytes that fill the first bucket. Returns NULL if none is refused. */
static void *fill(void *handle)
{
    static const char digits[] = "0123456789abcdef";
    uint32_t code;
    for (uint32_t number = 0; number < 1024; number++) {
        const uint8_t text[4] = {'x', (uint8_t)digits[number >> 8], (uint8_t)digits[number >> 4 & 15], (uint8_t)digits[number & 15]};
        if (lasso_shared_intern_wait(handle, text, sizeof text, &code) != LASSO_DONE)
            return handle;
    }
    return NULL;
}

/* Threads fill the 4,096 bytes of the first bucket, and there is no other one: so no call that was busy has kept bytes. */
static int check_last_byte(void)
{
    struct lasso_shared shared = LASSO_SHARED_NONE, handles[MOST_THREADS] = {LASSO_SHARED_NONE};
    pthread_t threads[MOST_THREADS];
    void *refused;
    uint32_t code;
    CHECK(lasso_shared_new(&shared) == LASSO_DONE && lasso_shared_set_limit(&shared, 0) == LASSO_DONE);
    for (int k = 0; k < MOST_THREADS; k++) {
        CHECK(lasso_shared_join(&shared, &handles[k]) == LASSO_DONE);
        CHECK(pthread_create(&threads[k], NULL, fill, &handles[k]) == 0);
    }
    for (int k = 0; k < MOST_THREADS; k++)
        CHECK(pthread_join(threads[k], &refused) == 0 && refused == NULL);
    CHECK(lasso_shared_len(&shared) == 1024 && intern(&shared, "y", &code) == LASSO_LIMIT_REACHED);
    for (int k = 0; k < MOST_THREADS; k++)
        lasso_shared_free(&handles[k]);
    lasso_shared_free(&shared);
    return 0;
}

int main(void)
{
    struct worker *workers = calloc(MOST_THREADS, sizeof *workers);
    int wrong = workers == NULL || check_calls() || check_limit() || check_freezing() || check_many() || check_lists();
    for (int round = 0; round < 20 && !wrong; round++)
        wrong = check_last_byte();
    for (int threads = 1; threads <= MOST_THREADS && !wrong; threads *= 2)
        wrong = check_threads(workers, threads);
    free(workers);
    return wrong;
}
