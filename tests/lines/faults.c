/* masm_lines with the fault that MASM_FAULT names, and without one where it is `none`: it stands in
   for the archive, to see that the judge finds each. */
#include <stdbool.h>
#include <stdlib.h>
#include <string.h>

#include "masm_cst.h"

static bool has(const char *fault)
{
    return strcmp(getenv("MASM_FAULT"), fault) == 0;
}

/* Whether a line end is completed at an offset. */
static bool completed(const uint8_t *source, size_t length, size_t at)
{
    bool before_lf = at < length && source[at] == '\n';
    if (source[at - 1] == '\n')
        return !has("completed_at_lf") || at < 2 || source[at - 2] != '\r';
    if (source[at - 1] != '\r' || has("cr_ends_nothing"))
        return false;
    if (has("not_in_quotes") && memchr(source, '"', at) != NULL)
        return false;
    if (has("cr_at_the_end_ends_nothing") && at == length)
        return false;
    return !before_lf || has("crlf_ends_twice") || has("completed_at_lf");
}

static void find(const uint8_t *source, size_t length, size_t offset, uint32_t *line,
                 uint32_t *column)
{
    uint32_t first = has("column_from_0") ? 0 : 1;
    *line = has("line_from_0") ? 0 : 1;
    *column = first;
    for (size_t at = 1; at <= offset; at++) {
        bool wide = has("column_of_characters") && (source[at - 1] & 0xC0) == 0x80;
        bool ends = completed(source, length, at);
        *line += ends;
        *column = ends ? first : *column + !wide;
    }
}

uint64_t masm_lines(const uint8_t *source, size_t source_len, const uint32_t *offsets,
                    size_t offsets_len, uint32_t *lines, size_t lines_len, uint32_t *columns,
                    size_t columns_len)
{
    size_t n = offsets_len < lines_len ? offsets_len : lines_len;
    n = n < columns_len ? n : columns_len;
    for (size_t i = 0; i < n; i++) {
        bool above = offsets[i] > source_len;
        size_t offset = above ? source_len : offsets[i];
        find(source, source_len, offset, &lines[i], &columns[i]);
        if (above && has("not_clipped"))
            columns[i] += offsets[i] - (uint32_t)source_len;
        if (has("never_falls") && i > 0 && lines[i] < lines[i - 1])
            lines[i] = lines[i - 1];
    }
    return has("one_less") && n > 0 ? n - 1 : n;
}
