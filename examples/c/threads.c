/* Four threads intern the same thousand texts at once, each from another one on: a text gets one code in all of them.
 *
 *     cc threads.c -pthread $(pkg-config --cflags --libs lasso) && ./a.out */
#include "lasso.h"

#include <pthread.h>
#include <stdio.h>

enum { THREADS = 4, TEXTS = 1000 };

struct worker {
    pthread_t thread;
    struct lasso_shared handle; /* each thread has one of its own: no lock is needed */
    uint32_t first, codes[TEXTS], status;
};

/* Interns all texts. `_wait` tries again as long as another thread is inside a step of the interner. */
static void *work(void *argument)
{
    struct worker *worker = argument;
    for (uint32_t k = 0; k < TEXTS && worker->status == LASSO_DONE; k++) {
        uint32_t number = (worker->first + k) % TEXTS;
        uint8_t text[32];
        int length = snprintf((char *)text, sizeof text, "text %u", (unsigned)number);
        worker->status = lasso_shared_intern_wait(&worker->handle, text, (size_t)length, &worker->codes[number]);
    }
    return NULL;
}

int main(void)
{
    static struct worker workers[THREADS]; /* all zero, and so each handle is as LASSO_SHARED_NONE */
    struct lasso_shared shared = LASSO_SHARED_NONE;
    struct lasso_text text = LASSO_NO_TEXT;
    int started = 0, wrong = lasso_shared_new(&shared) != LASSO_DONE;
    while (started < THREADS && !wrong) {
        struct worker *worker = &workers[started];
        worker->first = (uint32_t)(started * TEXTS / THREADS);
        /* A handle is joined in the thread that owns the one it is made from, before its own thread starts. */
        wrong = lasso_shared_join(&shared, &worker->handle) != LASSO_DONE
            || pthread_create(&worker->thread, NULL, work, worker) != 0;
        started += !wrong;
    }
    for (int k = 0; k < started; k++)
        wrong |= pthread_join(workers[k].thread, NULL) != 0 || workers[k].status != LASSO_DONE;
    for (int n = 0; n < TEXTS && !wrong; n++)
        for (int k = 1; k < THREADS; k++)
            wrong |= workers[k].codes[n] != workers[0].codes[n];
    /* Which text has code 0 depends on the order of the threads. */
    wrong = wrong || lasso_shared_text_now(&shared, 0, &text) != LASSO_DONE;
    if (!wrong) {
        printf("%zu texts, each with one code; code 0 is %.*s\n", lasso_shared_len(&shared), (int)text.length, (const char *)text.bytes);
        wrong = fflush(stdout) != 0 || ferror(stdout);
    } else
        fputs("no memory, no thread, or a text with two codes\n", stderr);
    for (int k = 0; k < THREADS; k++)
        lasso_shared_free(&workers[k].handle);
    lasso_shared_free(&shared); /* the last handle, and with it the texts that it lent */
    return wrong;
}
