/* The lines of a stream, as lasso.h wants texts, for the programs that time calls from C. */
#ifndef LINES_H
#define LINES_H

#include <stdbool.h>
#include <stdint.h>
#include <stdio.h>
#include <stdlib.h>

/* Lines without their line feeds in one buffer, as lasso.h wants texts. */
struct lines {
    uint8_t *bytes;
    size_t length;
    int32_t *offsets;
    size_t count;
};

static void fail(const char *what)
{
    fprintf(stderr, "%s\n", what);
    exit(1);
}

static void *room(size_t bytes)
{
    void *array = malloc(bytes + 1);
    if (array == NULL)
        fail("out of memory");
    return array;
}

/* Fails unless all that was printed is written. */
static void end_output(void)
{
    if (fflush(stdout) != 0 || ferror(stdout))
        fail("the output can't be written");
}

/* The whole of a stream. */
static uint8_t *read_all(FILE *stream, size_t *length)
{
    size_t size = 1 << 20, got;
    uint8_t *bytes = room(size);
    *length = 0;
    while ((got = fread(bytes + *length, 1, size - *length, stream)) > 0) {
        *length += got;
        if (*length == size) {
            bytes = realloc(bytes, size *= 2);
            if (bytes == NULL)
                fail("out of memory");
        }
    }
    if (ferror(stream))
        fail("a file can't be read");
    return bytes;
}

/* The lines of a stream; has_ends: with a NUL in place of each line feed, which then ends the text in the buffer. */
static struct lines read_lines(FILE *stream, bool has_ends)
{
    struct lines lines = {NULL, 0, NULL, 0};
    size_t length;
    uint8_t *bytes = read_all(stream, &length);
    if (length == 0 || bytes[length - 1] != '\n' || length > INT32_MAX)
        fail("give lines that end with a line feed, of at most 2 GB");
    for (size_t at = 0; at < length; at++)
        lines.count += bytes[at] == '\n';
    lines.bytes = bytes;
    lines.offsets = room((lines.count + 1) * sizeof *lines.offsets);
    lines.offsets[0] = 0;
    for (size_t at = 0, line = 0; at < length; at++) {
        bool is_end = bytes[at] == '\n';
        if (!is_end || has_ends)
            bytes[lines.length++] = is_end ? 0 : bytes[at];
        if (is_end)
            lines.offsets[++line] = (int32_t)lines.length;
    }
    return lines;
}

#endif
