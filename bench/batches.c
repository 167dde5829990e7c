/* How long lasso_intern_batch takes over the lines of standard input: `batches SIZE CODES`, where SIZE is how many lines a batch has, 0 for
 * one batch of all, and CODES is a file with the right code of each line in decimal digits, a line each. Prints the nanoseconds of a line in
 * one round. It fails unless each line has its right code and the interner's text of each code is the line. */
#define _POSIX_C_SOURCE 199309L
#include "lasso.h"
#include "lines.h"

#include <stdio.h>
#include <stdlib.h>
#include <string.h>
#include <time.h>

/* Interns all lines, and gives the nanoseconds that it takes. */
static double time_batches(struct lasso *lasso, const struct lines *lines, size_t size, uint32_t *codes)
{
    struct timespec start, end;
    struct lasso_report report;
    clock_gettime(CLOCK_MONOTONIC, &start);
    for (size_t at = 0; at < lines->count; at += size) {
        size_t count = lines->count - at < size ? lines->count - at : size;
        if (lasso_intern_batch(lasso, lines->bytes, lines->length, lines->offsets + at, count + 1, codes + at, count, &report) != LASSO_DONE)
            fail("a batch was refused");
    }
    clock_gettime(CLOCK_MONOTONIC, &end);
    return (double)(end.tv_sec - start.tv_sec) * 1e9 + (double)(end.tv_nsec - start.tv_nsec);
}

/* Fails unless these are the codes in the file. Gives how many texts they need. */
static size_t compare_codes(const char *path, const uint32_t *codes, size_t count)
{
    FILE *file = fopen(path, "r");
    unsigned long code;
    size_t texts = 0, line = 0;
    if (file == NULL)
        fail("the file of codes can't be opened");
    for (; fscanf(file, "%lu", &code) == 1; line++) {
        if (line == count || codes[line] != code)
            fail("a line has a wrong code");
        if (code >= texts)
            texts = code + 1;
    }
    if (line != count)
        fail("the file of codes has fewer codes than there are lines");
    fclose(file);
    return texts;
}

/* Fails unless the interner has just these many texts, and that of each line's code is the line. */
static void compare_texts(struct lasso *lasso, const struct lines *lines, const uint32_t *codes, size_t texts)
{
    struct lasso_report report;
    uint8_t *bytes = room(lines->length);
    int32_t *starts = room((texts + 1) * sizeof *starts);
    if (lasso_len(lasso) != texts
        || lasso_dictionary(lasso, 0, bytes, lines->length, starts, texts + 1, &report) != LASSO_DONE || report.texts != texts)
        fail("the interner has a wrong number of texts");
    for (size_t line = 0; line < lines->count; line++) {
        const int32_t *text = starts + codes[line], *own = lines->offsets + line;
        size_t length = (size_t)(own[1] - own[0]);
        if ((size_t)(text[1] - text[0]) != length || memcmp(bytes + text[0], lines->bytes + own[0], length) != 0)
            fail("a code has a wrong text");
    }
    free(bytes);
    free(starts);
}

int main(int argc, char **argv)
{
    if (argc != 3)
        fail("usage: batches SIZE CODES < LINES");
    struct lines lines = read_lines(stdin, false);
    size_t size = strtoul(argv[1], NULL, 10);
    uint32_t *codes = room(lines.count * sizeof *codes);
    struct lasso lasso = LASSO_NONE;
    if (lasso_new(&lasso, LASSO_NO_LIMIT) != LASSO_DONE)
        fail("out of memory");
    double took = time_batches(&lasso, &lines, size == 0 ? lines.count : size, codes);
    compare_texts(&lasso, &lines, codes, compare_codes(argv[2], codes, lines.count));
    printf("%s %.1f\n", argv[1], took / (double)lines.count);
    lasso_free(&lasso);
    free(lines.bytes);
    free(lines.offsets);
    free(codes);
    end_output();
    return 0;
}
