/* Threads intern into one shared interner of lasso.h, and one list has to explain every reply. trials/shared builds and runs it.

   usage: shared rounds SECONDS SEED     rounds of 1 to 16 threads for so many seconds, and at least one
          shared refused                 calls in one thread, each made again if it is out of memory

   In some rounds a thread sets limits that fall and rise: of two looks at the memory under one limit, the second has more only up to that limit.
   In a round each of some places makes calls by a handle of its own. Now and then the thread of a place ends: the handle for the next thread
   of the place meets its own, which it frees, while others go on. Each reply is noted with the times before and after the call, and each of
   a batch. In the end the last handle freezes the interner, and the list is lent at once, and copied for one thread; as long as there are others,
   no handle freezes it. No call takes a second in a round in which a thread that sleeps wakes in time. On a busy machine that is not so, and
   threads wait for others that do not run. */
#include "lasso.h"

#include <pthread.h>
#include <stdatomic.h>
#include <stdio.h>
#include <stdlib.h>
#include <string.h>
#include <time.h>

enum { MOST_PLACES = 16, CALLS = 20000, TEXTS = 16 * CALLS + 1000, LIVES = 8, KEPT = 64, LONG = 400, BATCH = 8 };
enum kind { ZIPF, DISTINCT, FEW, STARVED, LIMITED, KINDS };
enum call { INTERN, GET, RESOLVE, LEN, INTERN_BATCH };

static const uint64_t SECOND = 1000000000, NAP = 5000000, IN_TIME = 10000000, LOOK = 200000;

/* A reply: the call's times in nanoseconds, the number of its text, and a code or the length. UINT32_MAX is no code, or no text. */
struct reply {
    uint64_t start, end;
    enum call call;
    uint32_t number, code;
};

struct place {
    pthread_t threads[LIVES];
    struct lasso_shared handle;
    int lives, life;
    uint32_t number, state, done;
    uint64_t busy, refused, longest;
    struct reply replies[CALLS];
    struct lasso_text kept[KEPT];
    uint32_t kept_number[KEPT];
};

static struct place places[MOST_PLACES];
static enum kind kind;
static int place_count;
static bool is_raced;
static atomic_bool is_written, is_over;
static uint64_t late;
static struct lasso_shared limiter;

#define FAULT(...) (fprintf(stderr, __VA_ARGS__), fputc('\n', stderr), exit(1))

static uint64_t now(clockid_t clock)
{
    struct timespec time;
    clock_gettime(clock, &time);
    return (uint64_t)time.tv_sec * SECOND + (uint64_t)time.tv_nsec;
}

static uint32_t next(uint32_t *state)
{
    *state ^= *state << 13;
    *state ^= *state >> 17;
    return *state ^= *state << 5;
}

/* A number's text: mostly short, some longer and not ASCII, few of a bucket's size. Returns its length. */
static size_t text_of(uint32_t number, uint8_t room[LONG])
{
    const char *form = number % 7 ? "%u" : number % 49 ? "a longer text, gr\xc3\xbcn, of number %u" : "%u, and %300s";
    return (size_t)snprintf((char *)room, LONG, form, (unsigned)number, "x");
}

/* The number of a text, if it is one of these. */
static uint32_t number_of(const uint8_t *text, size_t length)
{
    uint8_t want[LONG];
    size_t at = 0;
    uint64_t number = 0;
    while (at < length && (text[at] < '0' || text[at] > '9'))
        at++;
    for (; at < length && text[at] >= '0' && text[at] <= '9' && number < TEXTS; at++)
        number = number * 10 + (uint64_t)(text[at] - '0');
    if (number >= TEXTS || text_of((uint32_t)number, want) != length || memcmp(want, text, length) != 0)
        FAULT("a text that nobody interned, of %zu bytes", length);
    return (uint32_t)number;
}

/* The number of the next text of a place. */
static uint32_t choose(struct place *place)
{
    uint32_t random = next(&place->state) >> 12, skewed;
    switch (kind) {
    case FEW:
        return random % 50;
    case ZIPF:
        skewed = (uint32_t)((uint64_t)random * random >> 20);
        return (uint32_t)((uint64_t)skewed * skewed >> 26);
    default:
        return is_raced ? place->done : place->done * MOST_PLACES + place->number;
    }
}

/* Interns or looks up a text, as the calls of lasso.h do whose names end with _wait, and counts how often others were busy. */
static uint32_t call_text(struct place *place, enum call call, const uint8_t *text, size_t length, uint32_t *code)
{
    uint32_t status;
    while ((status = call == INTERN ? lasso_shared_intern(&place->handle, text, length, code)
                                    : lasso_shared_get(&place->handle, text, length, code)) == LASSO_BUSY) {
        place->busy++;
        sched_yield();
    }
    return status;
}

/* Resolves a code by a copy, or has its text lent, which is kept now and then. */
static void resolve(struct place *place, struct reply *reply)
{
    struct lasso_text lent = LASSO_NO_TEXT;
    uint8_t room[LONG];
    size_t whole = 0;
    bool copies = next(&place->state) % 2;
    uint32_t status = copies ? lasso_shared_resolve(&place->handle, reply->code, room, sizeof room, &whole)
                             : lasso_shared_text_now(&place->handle, reply->code, &lent);
    reply->end = now(CLOCK_MONOTONIC);
    if (status != LASSO_DONE) {
        if (status != LASSO_NO_SUCH_CODE)
            FAULT("status %u of a code", (unsigned)status);
        return;
    }
    reply->number = copies ? number_of(room, whole) : number_of(lent.bytes, lent.length);
    if (!copies) {
        place->kept[place->done % KEPT] = lent;
        place->kept_number[place->done % KEPT] = reply->number;
    }
}

/* Makes one call, and notes the reply. */
static void make_call(struct place *place, struct reply *reply, enum call call, uint32_t number)
{
    uint8_t text[LONG];
    size_t length = text_of(number, text);
    uint32_t status = LASSO_DONE;
    *reply = (struct reply){.call = call, .number = UINT32_MAX, .code = UINT32_MAX};
    if (call == RESOLVE) /* one code of those that there may be */
        reply->code = place->done == 0 ? 0 : place->replies[next(&place->state) % place->done].code + next(&place->state) % 3 / 2;
    reply->start = now(CLOCK_MONOTONIC);
    if (call == RESOLVE) {
        resolve(place, reply);
    } else if (call == LEN) {
        reply->code = (uint32_t)lasso_shared_len(&place->handle);
        reply->end = now(CLOCK_MONOTONIC);
    } else {
        status = call_text(place, call, text, length, &reply->code);
        reply->end = now(CLOCK_MONOTONIC);
        reply->number = number;
    }
    bool is_refused = kind == LIMITED && call == INTERN && status == LASSO_LIMIT_REACHED;
    if (status != LASSO_DONE && !is_refused && (call != GET || status != LASSO_NO_SUCH_TEXT))
        FAULT("status %u of call %d", (unsigned)status, (int)call);
    place->refused += is_refused;
    place->done++;
}

/* Interns at most `most` texts, at least one, as a batch, and notes a reply for each. */
static void make_batch(struct place *place, struct reply *replies, uint32_t most)
{
    uint8_t bytes[BATCH * LONG];
    int32_t offsets[BATCH + 1] = {0};
    uint32_t codes[BATCH], count = next(&place->state) % BATCH + 1;
    struct lasso_report report;
    count = count < most ? count : most;
    for (uint32_t at = 0; at < count; at++) {
        replies[at] = (struct reply){.call = INTERN, .number = choose(place)};
        offsets[at + 1] = offsets[at] + (int32_t)text_of(replies[at].number, bytes + offsets[at]);
        place->done++;
    }
    uint64_t start = now(CLOCK_MONOTONIC);
    uint32_t status = lasso_shared_intern_batch_wait(&place->handle, bytes, sizeof bytes, offsets, count + 1, codes, BATCH, &report);
    uint64_t end = now(CLOCK_MONOTONIC);
    if (status != LASSO_DONE || report.texts != count || report.at != 0)
        FAULT("status %u of a batch of %u texts, %zu done", (unsigned)status, (unsigned)count, report.texts);
    for (uint32_t at = 0; at < count; at++) {
        replies[at].code = codes[at];
        replies[at].start = start;
        replies[at].end = end;
    }
}

/* The call that a place makes next. Where a writer may starve, the others look up absent texts, which takes a lock, as long as it writes. */
static enum call choose_call(struct place *place)
{
    uint32_t random = next(&place->state) >> 8 & 15;
    if (kind == STARVED)
        return place->number == 0 ? INTERN : GET;
    return random < 8 || (random < 9 && kind == LIMITED) ? INTERN : random < 9 ? INTERN_BATCH : random < 12 ? GET : random < 15 ? RESOLVE : LEN;
}

/* A handle that met a place's lends each text that the place was told of, with no look at the list. */
static void check_met(const struct place *place, struct lasso_shared *handle)
{
    struct lasso_text lent = LASSO_NO_TEXT;
    for (const struct reply *reply = place->replies; reply < place->replies + place->done; reply++)
        if (reply->call != LEN && reply->number != UINT32_MAX && reply->code != UINT32_MAX
            && (lasso_shared_text(handle, reply->code, &lent) != LASSO_DONE || number_of(lent.bytes, lent.length) != reply->number))
            FAULT("a handle that met another one does not lend code %u as text %u", (unsigned)reply->code, (unsigned)reply->number);
}

static void *work(void *argument)
{
    struct place *place = argument;
    struct lasso_shared handle = LASSO_SHARED_NONE;
    uint32_t last = CALLS * (uint32_t)(place->life + 1) / (uint32_t)place->lives;
    if (lasso_shared_join(&place->handle, &handle) != LASSO_DONE)
        FAULT("no handle for the next thread");
    while (place->done < last && !(kind == STARVED && place->number != 0 && is_written)) {
        struct reply *reply = &place->replies[place->done];
        enum call call = choose_call(place);
        if (call == INTERN_BATCH)
            make_batch(place, reply, last - place->done);
        else
            make_call(place, reply, call, choose(place));
        uint64_t took = reply->end - reply->start;
        place->longest = took > place->longest ? took : place->longest;
        if (kind == STARVED && place->number != 0 && place->done == last)
            place->done = 0; /* what a reader was told first is noted no more */
    }
    if (kind == STARVED && place->number == 0)
        is_written = true;
    if (lasso_shared_freeze(&handle) != LASSO_OTHER_HANDLES)
        FAULT("an interner with other handles was frozen");
    if (lasso_shared_meet(&handle, &place->handle) != LASSO_DONE)
        FAULT("two handles did not meet");
    check_met(place, &handle);
    lasso_shared_free(&place->handle);
    place->handle = handle;
    if (++place->life == place->lives)
        return NULL;
    if (pthread_create(&place->threads[place->life], NULL, work, place) != 0)
        FAULT("no thread");
    return NULL;
}

/* By number and by code, from all replies: which code a text has, when a reply first showed it, and when it was first given to intern. */
static uint32_t code_of[TEXTS], number_at[TEXTS];
static uint64_t shown[TEXTS], begun[TEXTS];

static void gather(void)
{
    memset(code_of, 0xff, sizeof code_of);
    memset(number_at, 0xff, sizeof number_at);
    memset(shown, 0xff, sizeof shown);
    memset(begun, 0xff, sizeof begun);
    for (struct place *place = places; place < places + place_count; place++)
        for (struct reply *reply = place->replies; reply < place->replies + place->done; reply++) {
            uint32_t number = reply->number, code = reply->code;
            if (reply->call == LEN || number == UINT32_MAX || code == UINT32_MAX)
                continue;
            if (code >= TEXTS || (code_of[number] != UINT32_MAX && code_of[number] != code)
                || (number_at[code] != UINT32_MAX && number_at[code] != number))
                FAULT("text %u has the codes %u and %u, or code %u two texts", (unsigned)number, (unsigned)code_of[number], (unsigned)code,
                      (unsigned)code);
            code_of[number] = code;
            number_at[code] = number;
            shown[code] = reply->end < shown[code] ? reply->end : shown[code];
            if (reply->call == INTERN)
                begun[code] = reply->start < begun[code] ? reply->start : begun[code];
        }
}

/* When the list can have had the first texts of a number at the earliest, and when it had to have them at the latest. */
static uint64_t earliest[TEXTS + 1], latest[TEXTS + 1];

static void order(size_t length)
{
    earliest[0] = 0;
    latest[length] = UINT64_MAX;
    for (size_t code = 0; code < length; code++) {
        if (number_at[code] == UINT32_MAX || begun[code] == UINT64_MAX)
            FAULT("nobody interned the text of code %zu of %zu", code, length);
        earliest[code + 1] = begun[code] > earliest[code] ? begun[code] : earliest[code];
    }
    for (size_t code = length; code > 0; code--)
        latest[code - 1] = shown[code - 1] < latest[code] ? shown[code - 1] : latest[code];
}

/* The list had at least `texts` texts when the reply ended: those were given to intern before. */
static void check_has(const struct reply *reply, size_t texts, size_t length)
{
    if (texts > length || earliest[texts] > reply->end)
        FAULT("a reply of call %d knows %zu texts of %zu, and not all were interned before it ended", (int)reply->call, texts, length);
}

/* The list had not yet `texts` texts when the reply began: no reply that ended before had shown them. */
static void check_lacks(const struct reply *reply, size_t texts, size_t length)
{
    if (texts <= length && latest[texts - 1] < reply->start)
        FAULT("a reply of call %d does not know %zu texts, which were shown before it began", (int)reply->call, texts);
}

static void check_reply(const struct reply *reply, size_t length)
{
    if (reply->call == LEN) {
        check_has(reply, reply->code, length);
        check_lacks(reply, (size_t)reply->code + 1, length);
    } else if (reply->number != UINT32_MAX && reply->code != UINT32_MAX) {
        check_has(reply, (size_t)reply->code + 1, length);
    } else if (reply->call == RESOLVE && reply->code != UINT32_MAX) {
        check_lacks(reply, (size_t)reply->code + 1, length);
    } else if ((reply->call == GET || reply->call == INTERN) && code_of[reply->number] != UINT32_MAX) {
        check_lacks(reply, (size_t)code_of[reply->number] + 1, length);
    }
}

/* The list of a frozen interner as it is lent from a code on, and a copy of it for one thread, have these texts. */
static void check_whole(struct lasso_shared *shared, size_t length)
{
    static struct lasso_text texts[TEXTS];
    struct lasso_text lent = LASSO_NO_TEXT;
    struct lasso copy = LASSO_NONE;
    for (size_t code = 0; code < TEXTS; code++)
        texts[code] = (struct lasso_text)LASSO_NO_TEXT;
    if (lasso_shared_texts(shared, 0, texts, TEXTS) != length)
        FAULT("not all texts are lent");
    if (lasso_shared_copy(shared, &copy) != LASSO_DONE || lasso_len(&copy) != length)
        FAULT("not all texts are copied");
    for (uint32_t code = 0; code < length; code++) {
        if (number_of(texts[code].bytes, texts[code].length) != number_at[code])
            FAULT("code %u is lent with another text", (unsigned)code);
        if (lasso_text(&copy, code, &lent) != LASSO_DONE || number_of(lent.bytes, lent.length) != number_at[code])
            FAULT("code %u is copied with another text", (unsigned)code);
    }
    lasso_free(&copy);
}

/* The last handle freezes the interner, and so it stays. */
static void freeze(struct lasso_shared *shared)
{
    struct lasso_shared later = LASSO_SHARED_NONE;
    uint32_t code = UINT32_MAX;
    if (lasso_shared_freeze(shared) != LASSO_DONE)
        FAULT("the last handle did not freeze the interner");
    if (lasso_shared_join(shared, &later) != LASSO_DONE || lasso_shared_freeze(shared) != LASSO_DONE)
        FAULT("a frozen interner has no other handle, or is not frozen");
    if (lasso_shared_intern(shared, (const uint8_t *)"more", 4, &code) != LASSO_FROZEN || lasso_shared_intern(&later, NULL, 0, &code) != LASSO_FROZEN)
        FAULT("a frozen interner interns");
    lasso_shared_free(&later);
}

/* One growing list of distinct texts explains all replies, and lent texts are as they were. */
static size_t check_round(struct lasso_shared *shared)
{
    size_t length = lasso_shared_len(shared), calls = 0;
    struct lasso_text lent = LASSO_NO_TEXT;
    freeze(shared);
    gather();
    order(length);
    for (struct place *place = places; place < places + place_count; place++) {
        for (struct reply *reply = place->replies; reply < place->replies + place->done; reply++)
            check_reply(reply, length);
        for (int at = 0; at < KEPT; at++)
            if (place->kept[at].length > 0 && number_of(place->kept[at].bytes, place->kept[at].length) != place->kept_number[at])
                FAULT("a lent text has changed");
        calls += place->done;
    }
    for (uint32_t code = 0; code < length; code++)
        if (lasso_shared_text(shared, code, &lent) != LASSO_DONE || number_of(lent.bytes, lent.length) != number_at[code])
            FAULT("code %u has another text in the end", (unsigned)code);
    if (lasso_shared_text_now(shared, (uint32_t)length, &lent) != LASSO_NO_SUCH_CODE)
        FAULT("there is a text past the last one");
    check_whole(shared, length);
    return calls;
}

/* An interner by one of the makers. */
static uint32_t make_interner(uint32_t *state, struct lasso_shared *shared)
{
    uint32_t texts = next(state) >> 8 & 8191, bytes = next(state) >> 8 & 8191, one = next(state), other = next(state);
    switch (next(state) >> 8 & 7) {
    case 0:
        return lasso_shared_new_sized(shared, texts, bytes, LASSO_NO_LIMIT);
    case 1:
        return lasso_shared_new_seeded(shared, one, other);
    case 2:
        return lasso_shared_new_sized_seeded(shared, texts, bytes, LASSO_NO_LIMIT, one, other);
    case 3:
        return lasso_shared_new_keyed(shared, one, other);
    case 4:
        return lasso_shared_new_sized_keyed(shared, texts, bytes, LASSO_NO_LIMIT, one, other);
    default:
        return lasso_shared_new(shared);
    }
}

/* Draws a round, and gives each place a handle. */
static void begin_round(uint32_t *state, struct lasso_shared *shared)
{
    kind = (enum kind)((next(state) >> 8) % KINDS);
    place_count = kind == STARVED ? MOST_PLACES : (int)(next(state) >> 8) % MOST_PLACES + 1;
    is_raced = next(state) >> 8 & 1;
    is_written = is_over = false;
    late = 0;
    if (make_interner(state, shared) != LASSO_DONE)
        FAULT("no interner");
    if (kind == LIMITED && lasso_shared_join(shared, &limiter) != LASSO_DONE)
        FAULT("no handle for limits");
    for (int at = 0; at < place_count; at++) {
        struct place *place = &places[at];
        memset(place, 0, sizeof *place);
        place->number = (uint32_t)at;
        place->state = next(state);
        place->lives = kind == STARVED ? 1 : (int)(next(state) >> 8) % LIVES + 1;
        if (lasso_shared_join(shared, &place->handle) != LASSO_DONE)
            FAULT("no handle");
    }
    if (next(state) >> 8 & 1)
        lasso_shared_free(shared);
}

/* Sleeps as long as a round lasts, and notes by how much it woke late at most: that is the machine's doing. */
static void *sleep_through(void *none)
{
    const struct timespec nap = {0, (long)NAP};
    while (!is_over) {
        uint64_t start = now(CLOCK_MONOTONIC);
        nanosleep(&nap, NULL);
        uint64_t over = now(CLOCK_MONOTONIC) - start - NAP;
        late = over > late ? over : late;
    }
    return none;
}

/* Sets limits as long as a round lasts. Nobody else sets one, so what is taken under it grows up to it alone. */
static void *set_limits(void *none)
{
    const struct timespec nap = {0, (long)LOOK};
    uint32_t state = 2463534242u;
    size_t before = 0, after = 0, found = 0;
    while (!is_over) {
        size_t limit = next(&state) >> 8 & 0x7ffff;
        if (lasso_shared_set_limit_wait(&limiter, limit) != LASSO_DONE || lasso_shared_memory_wait(&limiter, &before) != LASSO_DONE)
            FAULT("a limit was not set");
        nanosleep(&nap, NULL);
        if (lasso_shared_memory_wait(&limiter, &after) != LASSO_DONE || lasso_shared_limit_wait(&limiter, &found) != LASSO_DONE)
            FAULT("a limit was not read");
        if (found != limit || after < before || (after > before && after > limit))
            FAULT("%zu bytes were taken, and then %zu, under the limit %zu, which is told as %zu", before, after, limit, found);
    }
    lasso_shared_free(&limiter);
    return none;
}

/* The longest call of a round. It may take a second only if a sleeping thread woke late, too. */
static uint64_t longest_call(void)
{
    uint64_t longest = 0;
    for (int at = 0; at < place_count; at++)
        longest = places[at].longest > longest ? places[at].longest : longest;
    if (longest > SECOND && late < IN_TIME)
        FAULT("a call took %.1f s with %d threads, where a sleeping one woke at most %.3f s late", (double)longest / 1e9, place_count,
              (double)late / 1e9);
    return longest;
}

/* Runs the places of a round. Returns how many calls they made. */
static size_t run_round(uint32_t *state)
{
    struct lasso_shared shared = LASSO_SHARED_NONE;
    pthread_t sleeper, limits;
    begin_round(state, &shared);
    if (pthread_create(&sleeper, NULL, sleep_through, NULL) != 0 || (kind == LIMITED && pthread_create(&limits, NULL, set_limits, NULL) != 0))
        FAULT("no thread");
    for (int at = 0; at < place_count; at++)
        if (pthread_create(&places[at].threads[0], NULL, work, &places[at]) != 0)
            FAULT("no thread");
    for (int at = 0; at < place_count; at++)
        for (int life = 0; life < places[at].lives; life++)
            pthread_join(places[at].threads[life], NULL);
    is_over = true;
    pthread_join(sleeper, NULL);
    if (kind == LIMITED)
        pthread_join(limits, NULL);
    if (!shared.live && lasso_shared_join(&places[0].handle, &shared) != LASSO_DONE)
        FAULT("no handle in the end");
    for (int at = 0; at < place_count; at++)
        lasso_shared_free(&places[at].handle);
    size_t calls = check_round(&shared);
    lasso_shared_free(&shared);
    return calls;
}

static int run_rounds(double seconds, uint32_t seed)
{
    uint64_t start = now(CLOCK_MONOTONIC), calls = 0, busy = 0, refused = 0, longest = 0, latest_wake = 0, rounds = 0, slow = 0;
    uint32_t state = seed * 2654435769u | 1;
    do {
        calls += run_round(&state);
        uint64_t longest_here = longest_call();
        for (int at = 0; at < place_count; at++) {
            busy += places[at].busy;
            refused += places[at].refused;
        }
        longest = longest_here > longest ? longest_here : longest;
        latest_wake = late > latest_wake ? late : latest_wake;
        slow += longest_here > SECOND;
        rounds++;
    } while ((double)(now(CLOCK_MONOTONIC) - start) < seconds * 1e9);
    printf("%llu rounds, %llu calls, busy %llu times, %llu refused by a limit, the longest call %.3f s, over a second in %llu rounds; a sleeping thread woke up to %.3f s late\n",
           (unsigned long long)rounds, (unsigned long long)calls, (unsigned long long)busy, (unsigned long long)refused, (double)longest / 1e9, (unsigned long long)slow,
           (double)latest_wake / 1e9);
    return fflush(stdout) != 0 || ferror(stdout);
}

/* Whether a call is to be made again: it was out of memory, and nothing has changed. */
static bool again(uint32_t status, struct lasso_shared *shared, size_t length)
{
    if (status != LASSO_DONE && status != LASSO_NO_MEMORY)
        FAULT("status %u where memory was refused", (unsigned)status);
    if (status == LASSO_NO_MEMORY && lasso_shared_len(shared) != length)
        FAULT("out of memory, and the interner has another length");
    return status == LASSO_NO_MEMORY;
}

/* A hundred new texts as a batch, which goes on after the texts that it interned before memory ran out. */
static void intern_refused_batch(struct lasso_shared *shared)
{
    uint8_t bytes[100 * LONG];
    int32_t offsets[101] = {0};
    uint32_t codes[100], status;
    size_t done = 0;
    struct lasso_report report;
    for (uint32_t at = 0; at < 100; at++)
        offsets[at + 1] = offsets[at] + (int32_t)text_of(7000 + at, bytes + offsets[at]);
    do {
        status = lasso_shared_intern_batch(shared, bytes, sizeof bytes, offsets + done, 101 - done, codes + done, 100 - done, &report);
        done += report.texts;
    } while (again(status, shared, 6001 + done));
    for (uint32_t at = 0; at < 100; at++)
        if (codes[at] != 6001 + at)
            FAULT("text %u of a batch has the code %u", (unsigned)at, (unsigned)codes[at]);
}

/* Every call in one thread, with more texts than the first buckets and the hints are made for. The requests are the library's alone. */
static int run_refused(void)
{
    static uint8_t long_text[200000];
    struct lasso_shared first = LASSO_SHARED_NONE, other = LASSO_SHARED_NONE, *handles[] = {&first, &other};
    struct lasso copy = LASSO_NONE;
    uint8_t text[LONG];
    uint32_t code = 0;
    memset(long_text, 'x', sizeof long_text);
    while (again(lasso_shared_new(&first), &first, 0))
        continue;
    while (again(lasso_shared_new_sized_keyed(&first, 100, 100, LASSO_NO_LIMIT, 1, 2), &first, 0))
        continue;
    while (again(lasso_shared_join(&first, &other), &first, 0))
        continue;
    for (uint32_t call = 0; call < 12000; call++) {
        uint32_t number = call < 6000 ? call : call - 6000;
        size_t length = text_of(number, text), texts = call < 6000 ? call : 6000;
        while (again(lasso_shared_intern(handles[call % 2], text, length, &code), &first, texts))
            continue;
        while (again(lasso_shared_get(handles[call / 2 % 2], text, length, &code), &first, texts + (call < 6000)))
            continue;
        if (code != number)
            FAULT("text %u has the code %u", (unsigned)number, (unsigned)code);
    }
    while (again(lasso_shared_intern(&other, long_text, sizeof long_text, &code), &first, 6000))
        continue;
    if (code != 6000 || lasso_shared_len(&first) != 6001)
        FAULT("a long text has the code %u", (unsigned)code);
    intern_refused_batch(&first);
    if (lasso_shared_meet(&other, &first) != LASSO_DONE)
        FAULT("two handles did not meet");
    while (again(lasso_shared_copy(&other, &copy), &first, 6101))
        continue;
    if (lasso_len(&copy) != 6101)
        FAULT("a copy has %zu texts", lasso_len(&copy));
    lasso_free(&copy);
    lasso_shared_free(&first);
    if (lasso_shared_freeze(&other) != LASSO_DONE)
        FAULT("no memory is asked for, and the interner is not frozen");
    lasso_shared_free(&other);
    return puts("6101 texts") < 0 || fflush(stdout) != 0;
}

int main(int count, char **words)
{
    if (count == 2 && strcmp(words[1], "refused") == 0)
        return run_refused();
    if (count == 4 && strcmp(words[1], "rounds") == 0)
        return run_rounds(strtod(words[2], NULL), (uint32_t)strtoul(words[3], NULL, 10));
    fputs("usage: shared rounds SECONDS SEED, or shared refused\n", stderr);
    return 2;
}
