/* A source: read from a file, and its lines, which `masm_lines` alone finds. */
#include <errno.h>
#include <stdio.h>
#include <stdlib.h>
#include <string.h>

#include "fold.h"

/* Memory for `count` elements, never null: the call wants a pointer for an empty slice too. */
void *need(size_t count, size_t size)
{
    void *memory = calloc(count > 0 ? count : 1, size);
    if (memory == NULL) {
        fputs("fold: no memory\n", stderr);
        exit(FAILED);
    }
    return memory;
}

/* The line and the column of every offset, in one call. A source that is too long has none. */
static void find_lines(struct reading *r)
{
    size_t count = r->length + 1;
    uint32_t *offsets = need(count, sizeof *offsets);
    for (size_t i = 0; i < count; i++)
        offsets[i] = (uint32_t)i;
    r->lines = need(count, sizeof *r->lines);
    r->columns = need(count, sizeof *r->columns);
    masm_lines(r->source, r->length, offsets, count, r->lines, count, r->columns, count);
    free(offsets);
}

/* Reads a file, or standard input for `-`: one byte more than a source may have, so that a longer
   file is refused by the call. The number of the error, or 0. */
int read_source(struct reading *r, const char *name)
{
    bool from_stdin = strcmp(name, "-") == 0;
    r->name = from_stdin ? "standard input" : name;
    errno = 0;
    FILE *file = from_stdin ? stdin : fopen(name, "rb");
    if (file == NULL)
        return errno;
    size_t most = (size_t)MASM_MAX_SOURCE + 1;
    r->source = need(most, 1);
    r->length = fread(r->source, 1, most, file);
    int error = ferror(file) == 0 ? 0 : errno;
    if (!from_stdin)
        fclose(file);
    find_lines(r);
    return error;
}

void release(struct reading *r)
{
    free(r->source);
    free(r->lines);
    free(r->columns);
    free(r->token_kinds);
    free(r->token_ends);
    free(r->events);
    free(r->messages);
    free(r->starts);
    free(r->ends);
}

/* Counted from 1. */
size_t line_of(const struct reading *r, size_t offset)
{
    return r->lines[offset];
}

/* Bytes, counted from 1. */
size_t column_of(const struct reading *r, size_t offset)
{
    return r->columns[offset];
}

/* Whether a line starts at an offset: at the start and behind each line end. */
bool starts_line(const struct reading *r, size_t offset)
{
    return column_of(r, offset) == 1;
}

/* Where the line of an offset starts. */
size_t line_start(const struct reading *r, size_t offset)
{
    return offset - (column_of(r, offset) - 1);
}

/* Where the line that `from` stands in ends, or `end` if that comes first. */
size_t line_end(const struct reading *r, size_t from, size_t end)
{
    size_t to = from + 1;
    while (to < end && !starts_line(r, to))
        to++;
    return to < end ? to : end;
}

/* Whether a piece of one line, read by itself, ends in a line end or in the CR of one. */
static bool ends_line(const struct reading *r, size_t from, size_t to)
{
    uint32_t behind = (uint32_t)(to - from), line, column;
    return masm_lines(r->source + from, behind, &behind, 1, &line, 1, &column, 1) == 1 && line > 1;
}

/* Where the text of a piece of one line ends: before the bytes of its line end. Which these are,
   `masm_lines` says: they are off when the piece ends no line any more. No byte is looked at here. */
size_t text_end(const struct reading *r, size_t from, size_t to)
{
    while (to > from && ends_line(r, from, to))
        to--;
    return to;
}

/* What stands behind the last line end is a line too, unless it is empty. */
size_t line_count(const struct reading *r)
{
    return line_of(r, r->length) - starts_line(r, r->length);
}
