/* Writes each line of its input behind the code of its text, as lines.c does, but holds no more than a batch of some 64 KiB of the
 * input at a time: one interner is fed batch by batch. */
#include "lasso.h"

#include <stdio.h>
#include <stdlib.h>
#include <string.h>

enum { BATCH = 64 * 1024 };

/* Lines without their line feeds, one after another, and the code of each. The last line may be unfinished. */
struct lines {
    uint8_t *bytes;
    size_t length, room;
    int32_t *offsets;
    uint32_t *codes;
    size_t count, count_room;
};

static void fail(const char *what)
{
    fprintf(stderr, "batches: %s\n", what);
    exit(1);
}

static void *grown(void *array, size_t bytes)
{
    void *got = realloc(array, bytes);
    if (got == NULL)
        fail("out of memory");
    return got;
}

/* Ends the line: what comes next begins another. */
static void end_line(struct lines *lines)
{
    if (lines->length > INT32_MAX)
        fail("a line is too long");
    if (lines->count + 1 >= lines->count_room) {
        lines->count_room = 2 * lines->count_room + 64;
        lines->offsets = grown(lines->offsets, lines->count_room * sizeof *lines->offsets);
        lines->codes = grown(lines->codes, lines->count_room * sizeof *lines->codes);
    }
    if (lines->count == 0)
        lines->offsets[0] = 0;
    lines->offsets[++lines->count] = (int32_t)lines->length;
}

static void append(struct lines *lines, const uint8_t *bytes, size_t length)
{
    if (length == 0)
        return;
    if (lines->room - lines->length < length) {
        lines->room = 2 * lines->room + length;
        lines->bytes = grown(lines->bytes, lines->room);
    }
    memcpy(lines->bytes + lines->length, bytes, length);
    lines->length += length;
}

/* Interns the finished lines and writes them; what is unfinished goes to the front. `before` lines were written before. */
static void write_lines(struct lasso *lasso, struct lines *lines, size_t before)
{
    if (lines->count == 0)
        return;
    struct lasso_report report;
    uint32_t status = lasso_intern_batch(lasso, lines->bytes, lines->length, lines->offsets, lines->count + 1, lines->codes,
                                         lines->count, &report);
    for (size_t k = 0; k < report.texts; k++) {
        printf("%u ", lines->codes[k]);
        fwrite(lines->bytes + lines->offsets[k], 1, (size_t)(lines->offsets[k + 1] - lines->offsets[k]), stdout);
        putchar('\n');
    }
    if (status != LASSO_DONE) {
        uint8_t text[80];
        size_t length = lasso_status_text(status, text, sizeof text);
        fprintf(stderr, "batches: %.*s, at line %zu\n", (int)(length < sizeof text ? length : sizeof text), (char *)text,
                before + report.texts + 1);
        exit(1);
    }
    size_t done = (size_t)lines->offsets[lines->count];
    lines->length -= done;
    if (lines->length > 0)
        memmove(lines->bytes, lines->bytes + done, lines->length);
    lines->count = 0;
}

int main(int argc, char **argv)
{
    if (argc != 2)
        fail("give the name of a file");
    FILE *file = fopen(argv[1], "rb");
    if (file == NULL)
        fail("the file can't be opened");
    struct lasso lasso = LASSO_NONE;
    if (lasso_new(&lasso, LASSO_NO_LIMIT) != LASSO_DONE)
        fail("out of memory");

    struct lines lines = {grown(NULL, BATCH), 0, BATCH, NULL, NULL, 0, 0};
    static uint8_t batch[BATCH];
    size_t length, written = 0;
    while ((length = fread(batch, 1, sizeof batch, file)) > 0) {
        const uint8_t *at = batch, *end = batch + length, *feed;
        while ((feed = memchr(at, '\n', (size_t)(end - at))) != NULL) {
            append(&lines, at, (size_t)(feed - at));
            end_line(&lines);
            at = feed + 1;
        }
        append(&lines, at, (size_t)(end - at));
        size_t count = lines.count;
        write_lines(&lasso, &lines, written);
        written += count;
    }
    if (ferror(file))
        fail("the file can't be read");
    fclose(file);
    if (lines.length > 0) {
        end_line(&lines);
        write_lines(&lasso, &lines, written);
    }
    lasso_free(&lasso);
    free(lines.bytes);
    free(lines.offsets);
    free(lines.codes);
    if (fflush(stdout) != 0 || ferror(stdout))
        fail("the lines can't be written");
    return 0;
}
