/* Changes what a program gets from the system, as words in the environment say. Preloaded before the C library (LD_PRELOAD). A word that
   is not there, or a number 0, changes nothing. Calls are counted from 1: those of standard input, and those of standard output.

   SHORT_READ, SHORT_WRITE      a read, or a write, moves at most this number of bytes
   LINE_READ                    a read gives at most one line
   FAIL_READ, FAIL_WRITE        the call of this number fails, and a further one ends the program by SIGABRT
   FAIL_WITH                    how: by EIO (unless given) or one of `errors`, or by NOTHING: a write that takes no byte
   EINTR_READ, EINTR_WRITE      the call of this number is interrupted
   EINTR_TIMES                  and further ones, so that this number of calls in a row are
   FAIL_SAY                     writes to standard error are made, but report EIO
   SEED                         each random byte is this number
   FAIL_SEED                    there are no random bytes: asking for them fails by EIO
   CLOCK_STEP, CLOCK_GOOD       the clock moves by this number of milliseconds each time it is read, and fails after this number of times
   REFUSE                       once the input has ended, a request for more than this number of bytes of memory is refused
   REFUSE_THREADS               only such requests of threads that the program started
   REFUSE_AFTER                 instead such requests are refused after this number of them, wherever the input is
   THREADS                      NONE: no thread starts; FIRST: a new thread ends before its maker goes on; LAST: it starts when it is joined
   TRACE                        a descriptor, to which each call writes a word: r3 or w3 with its bytes, r- or w- if it failed, r! or w! if
                                it was interrupted; c of the clock, if CLOCK_STEP is set; t of a thread, t- if it was refused */
#include <dlfcn.h>
#include <errno.h>
#include <pthread.h>
#include <semaphore.h>
#include <stdio.h>
#include <stdlib.h>
#include <string.h>
#include <sys/syscall.h>
#include <time.h>
#include <unistd.h>

/* The number in the environment, or 0. */
static unsigned long number(const char *name)
{
    const char *digits = getenv(name);
    return digits ? strtoul(digits, NULL, 10) : 0;
}

/* Whether the word in the environment is this one. */
static int is_word(const char *name, const char *wanted)
{
    const char *word = getenv(name);
    return word && strcmp(word, wanted) == 0;
}

/* Writes a word of the trace. */
static void trace(const char *word)
{
    unsigned long file = number("TRACE");
    char line[32];
    if (file) {
        int count = snprintf(line, sizeof line, "%s\n", word);
        (void)!syscall(SYS_write, file, line, count);
    }
}

static ssize_t traced(char call, ssize_t count)
{
    char word[32];
    snprintf(word, sizeof word, "%c%zd", call, count);
    trace(count < 0 ? (call == 'r' ? "r-" : "w-") : word);
    return count;
}

/* Whether a read has found the end of the input. */
static int has_ended;

struct stream {
    char call;
    const char *short_name, *fail_name, *eintr_name;
    unsigned long calls;
    int has_failed;
};

static struct stream input = {'r', "SHORT_READ", "FAIL_READ", "EINTR_READ", 0, 0};
static struct stream output = {'w', "SHORT_WRITE", "FAIL_WRITE", "EINTR_WRITE", 0, 0};

/* The errors by which a call may fail. */
static const struct { const char *name; int number; } errors[] = {
    {"EIO", EIO}, {"ENOSPC", ENOSPC}, {"EPIPE", EPIPE}, {"EDQUOT", EDQUOT}, {"EFBIG", EFBIG}, {"EAGAIN", EAGAIN}, {"ECONNRESET", ECONNRESET},
};

/* What a call that fails returns. */
static ssize_t failed(struct stream *stream)
{
    stream->has_failed = 1;
    trace(stream->call == 'r' ? "r-" : "w-");
    errno = EIO;
    for (size_t at = 0; at < sizeof errors / sizeof *errors; at++)
        if (is_word("FAIL_WITH", errors[at].name))
            errno = errors[at].number;
    return is_word("FAIL_WITH", "NOTHING") ? 0 : -1;
}

/* Whether this call is interrupted. */
static int is_interrupted(const struct stream *stream)
{
    unsigned long first = number(stream->eintr_name), times = number("EINTR_TIMES");
    return first && stream->calls >= first && stream->calls < first + (times ? times : 1);
}

/* Counts a call. Whether it is to be made; if not, `count` is what it returns, and if so, the most bytes that it may move. */
static int is_made(struct stream *stream, size_t size, ssize_t *count)
{
    unsigned long most = number(stream->short_name);
    if (stream->has_failed)
        abort();
    stream->calls++;
    if (stream->calls == number(stream->fail_name)) {
        *count = failed(stream);
        return 0;
    }
    if (is_interrupted(stream)) {
        trace(stream->call == 'r' ? "r!" : "w!");
        errno = EINTR;
        *count = -1;
        return 0;
    }
    *count = most && most < size ? (ssize_t)most : (ssize_t)size;
    return 1;
}

/* Reads up to the end of a line. */
static ssize_t read_line(char *bytes, ssize_t size)
{
    ssize_t count = 0;
    while (count < size && syscall(SYS_read, STDIN_FILENO, bytes + count, 1) == 1)
        if (bytes[count++] == '\n')
            break;
    return count;
}

ssize_t read(int file, void *bytes, size_t size)
{
    ssize_t count;
    if (file != STDIN_FILENO)
        return syscall(SYS_read, file, bytes, size);
    if (!is_made(&input, size, &count))
        return count;
    count = number("LINE_READ") ? read_line(bytes, count) : syscall(SYS_read, file, bytes, count);
    has_ended |= count == 0 && size > 0;
    return traced('r', count);
}

ssize_t write(int file, const void *bytes, size_t size)
{
    ssize_t count;
    if (file == STDERR_FILENO && number("FAIL_SAY")) {
        (void)!syscall(SYS_write, file, bytes, size);
        errno = EIO;
        return -1;
    }
    if (file != STDOUT_FILENO)
        return syscall(SYS_write, file, bytes, size);
    return is_made(&output, size, &count) ? traced('w', syscall(SYS_write, file, bytes, count)) : count;
}

int getentropy(void *bytes, size_t size)
{
    if (number("FAIL_SEED")) {
        errno = EIO;
        return -1;
    }
    if (!getenv("SEED"))
        return syscall(SYS_getrandom, bytes, size, 0) == (long)size ? 0 : -1;
    memset(bytes, (int)number("SEED"), size);
    return 0;
}

int clock_gettime(clockid_t clock, struct timespec *time)
{
    static unsigned long reads;
    unsigned long step = number("CLOCK_STEP"), good = number("CLOCK_GOOD");
    if (!step || clock != CLOCK_MONOTONIC)
        return syscall(SYS_clock_gettime, clock, time);
    if (getenv("CLOCK_GOOD") && reads >= good) {
        errno = EINVAL;
        return -1;
    }
    trace("c");
    time->tv_sec = 1000 + step * reads / 1000;
    time->tv_nsec = step * reads % 1000 * 1000000;
    reads++;
    return 0;
}

void *__libc_malloc(size_t size);
void *__libc_realloc(void *block, size_t size);

/* Whether requests for this number of bytes are refused by now. */
static int is_refused(size_t size)
{
    static unsigned long requests;
    unsigned long most = number("REFUSE");
    if (!most || size <= most)
        return 0;
    if (number("REFUSE_THREADS") && syscall(SYS_gettid) == getpid())
        return 0;
    if (getenv("REFUSE_AFTER") ? __atomic_fetch_add(&requests, 1, __ATOMIC_SEQ_CST) < number("REFUSE_AFTER") : !has_ended)
        return 0;
    errno = ENOMEM;
    return 1;
}

void *malloc(size_t size)
{
    return is_refused(size) ? NULL : __libc_malloc(size);
}

void *realloc(void *block, size_t size)
{
    return is_refused(size) ? NULL : __libc_realloc(block, size);
}

/* A thread that the program makes. */
struct work {
    void *(*run)(void *);
    void *with;
    pthread_t thread;
    sem_t may_start, has_ended;
    struct work *next;
};

static struct work *works;
static pthread_mutex_t works_lock = PTHREAD_MUTEX_INITIALIZER;

static void *run_work(void *with)
{
    struct work *work = with;
    void *result;
    sem_wait(&work->may_start);
    result = work->run(work->with);
    sem_post(&work->has_ended);
    return result;
}

/* Waits for at most five seconds: a program that is built with checks keeps a new thread waiting for its maker. */
static void wait_a_while(sem_t *semaphore)
{
    struct timespec until;
    syscall(SYS_clock_gettime, CLOCK_REALTIME, &until);
    until.tv_sec += 5;
    sem_timedwait(semaphore, &until);
}

int pthread_create(pthread_t *thread, const pthread_attr_t *attributes, void *(*run)(void *), void *with)
{
    int (*create)(pthread_t *, const pthread_attr_t *, void *(*)(void *), void *) = dlsym(RTLD_NEXT, "pthread_create");
    struct work *work;
    int status;
    if (is_word("THREADS", "NONE")) {
        trace("t-");
        return EAGAIN;
    }
    trace("t");
    if (!getenv("THREADS"))
        return create(thread, attributes, run, with);
    work = calloc(1, sizeof *work);
    work->run = run;
    work->with = with;
    sem_init(&work->may_start, 0, is_word("THREADS", "FIRST"));
    sem_init(&work->has_ended, 0, 0);
    status = create(&work->thread, attributes, run_work, work);
    *thread = work->thread;
    pthread_mutex_lock(&works_lock);
    work->next = works;
    works = work;
    pthread_mutex_unlock(&works_lock);
    if (is_word("THREADS", "FIRST"))
        wait_a_while(&work->has_ended);
    return status;
}

int pthread_join(pthread_t thread, void **result)
{
    int (*join)(pthread_t, void **) = dlsym(RTLD_NEXT, "pthread_join");
    struct work *work;
    pthread_mutex_lock(&works_lock);
    for (work = works; work; work = work->next)
        if (is_word("THREADS", "LAST") && pthread_equal(work->thread, thread))
            sem_post(&work->may_start);
    pthread_mutex_unlock(&works_lock);
    return join(thread, result);
}
