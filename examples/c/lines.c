/* Writes each line of a file behind the code of its text, and checks that decoding gives the lines again. Before that it makes
 * calls that are refused, and checks that each is so with the status that lasso.h names. */
#include "lasso.h"

#include <stdio.h>
#include <stdlib.h>
#include <string.h>

/* Texts in one buffer of bytes, beside a buffer of offsets, with room for so many bytes and offsets. */
struct layout {
    uint8_t *bytes;
    size_t bytes_room;
    int32_t *offsets;
    size_t offsets_room;
};

static void fail(const char *what)
{
    fprintf(stderr, "lines: %s\n", what);
    exit(1);
}

/* Memory of at least one byte, so that no pointer is NULL. */
static void *memory(size_t count, size_t size)
{
    void *got = calloc(count ? count : 1, size);
    if (got == NULL)
        fail("no memory");
    return got;
}

static struct layout layout_with_room(size_t bytes_room, size_t offsets_room)
{
    struct layout room = {memory(bytes_room, 1), bytes_room, memory(offsets_room, sizeof(int32_t)), offsets_room};
    return room;
}

static void free_layout(struct layout *layout)
{
    free(layout->bytes);
    free(layout->offsets);
}

/* Ends the program where a call was refused, with what its status means, and the line where it was refused at one. */
static void expect_done(uint32_t status, const struct lasso_report *report)
{
    if (status == LASSO_DONE)
        return;
    uint8_t text[80];
    size_t length = lasso_status_text(status, text, sizeof text);
    fprintf(stderr, "lines: %.*s", (int)(length < sizeof text ? length : sizeof text), (char *)text);
    if (status <= LASSO_TOO_MANY_BYTES)
        fprintf(stderr, ", at line %zu", report->at + 1);
    fputc('\n', stderr);
    exit(1);
}

/* The lines of a file, without their line feeds. There are offsets_room - 1 of them. */
static struct layout read_lines(const char *name)
{
    FILE *file = fopen(name, "rb");
    if (file == NULL || fseek(file, 0, SEEK_END) != 0)
        fail("the file can't be opened");
    long size = ftell(file);
    if (size < 0 || size > INT32_MAX)
        fail("the file is too long");
    rewind(file);
    struct layout lines = layout_with_room((size_t)size, (size_t)size + 2);
    /* The files of /proc say that they have no bytes. */
    if (fread(lines.bytes, 1, (size_t)size, file) != (size_t)size || fgetc(file) != EOF || ferror(file))
        fail("the file can't be read, or is longer than it says");
    fclose(file);

    size_t count = 0, end = 0;
    for (long at = 0; at < size; at++) {
        if (lines.bytes[at] != '\n')
            lines.bytes[end++] = lines.bytes[at];
        if (lines.bytes[at] == '\n' || at + 1 == size)
            lines.offsets[++count] = (int32_t)end;
    }
    lines.bytes_room = end;
    lines.offsets_room = count + 1;
    return lines;
}

static void expect(uint32_t status, enum lasso_status named)
{
    if (status != (uint32_t)named)
        fail("a call ended with another status than the one that lasso.h names");
}

/* Each status that a call tells, but for want of memory. */
static void check_statuses(void)
{
    const uint8_t text[] = {'a', 'b', 'c', 0xff};
    const struct { int32_t offsets[3]; size_t codes_room, offsets_room, bytes_room; enum lasso_status named; } calls[] = {
        {{0, 2, 3}, 2, 3, 3, LASSO_DONE},
        {{0, 2, 1}, 2, 3, 3, LASSO_OFFSETS_FALL},
        {{0, 2, 5}, 2, 3, 3, LASSO_OFFSET_PAST_BYTES},
        {{0, 2, 4}, 2, 3, 3, LASSO_NOT_UTF8},
        {{0, 2, 3}, 1, 3, 3, LASSO_CODES_TOO_SHORT},
        {{0, 2, 3}, 2, 2, 3, LASSO_OFFSETS_TOO_SHORT},
        {{0, 2, 3}, 2, 3, 2, LASSO_BYTES_TOO_SHORT},
    };
    uint32_t codes[2];
    uint8_t bytes[3];
    int32_t offsets[3];
    struct lasso_report told;
    for (size_t k = 0; k < sizeof calls / sizeof *calls; k++)
        expect(lasso_encode(text, sizeof text, calls[k].offsets, 3, codes, calls[k].codes_room, bytes, calls[k].bytes_room,
                            offsets, calls[k].offsets_room, &told),
               calls[k].named);

    /* A code behind the only text; and 1024 codes of one text of 2 MiB. */
    const int32_t one[] = {0, 3}, large[] = {0, 2 << 20};
    const uint32_t behind[] = {1}, same[1024] = {0};
    expect(lasso_decode(text, 3, one, 2, behind, 1, bytes, 3, offsets, 3, &told), LASSO_NO_SUCH_CODE);
    uint8_t *zeros = memory(2 << 20, 1);
    expect(lasso_decode(zeros, 2 << 20, large, 2, same, 1024, bytes, 3, offsets, 3, &told), LASSO_TOO_MANY_BYTES);
    free(zeros);
}

int main(int argc, char **argv)
{
    if (argc != 2)
        fail("give the name of a file");
    check_statuses();
    struct layout lines = read_lines(argv[1]);
    size_t count = lines.offsets_room - 1;

    /* The dictionary never needs more room than the texts. */
    struct layout dictionary = layout_with_room(lines.bytes_room, lines.offsets_room);
    uint32_t *codes = memory(count, sizeof *codes);
    struct lasso_report made;
    expect_done(lasso_encode(lines.bytes, lines.bytes_room, lines.offsets, lines.offsets_room, codes, count,
                             dictionary.bytes, dictionary.bytes_room, dictionary.offsets, dictionary.offsets_room, &made),
                &made);
    for (size_t k = 0; k < count; k++) {
        printf("%u ", codes[k]);
        fwrite(lines.bytes + lines.offsets[k], 1, (size_t)(lines.offsets[k + 1] - lines.offsets[k]), stdout);
        putchar('\n');
    }

    struct layout again = layout_with_room(lines.bytes_room, lines.offsets_room);
    struct lasso_report told;
    expect_done(lasso_decode(dictionary.bytes, made.bytes, dictionary.offsets, made.texts + 1, codes, count,
                             again.bytes, again.bytes_room, again.offsets, again.offsets_room, &told),
                &told);
    if (told.texts != count || told.bytes != lines.bytes_room || memcmp(again.bytes, lines.bytes, lines.bytes_room) != 0
        || memcmp(again.offsets, lines.offsets, lines.offsets_room * sizeof *lines.offsets) != 0)
        fail("decoding gave other lines");

    free_layout(&lines);
    free_layout(&dictionary);
    free_layout(&again);
    free(codes);
    if (fflush(stdout) != 0 || ferror(stdout))
        fail("the lines can't be written");
    return 0;
}
