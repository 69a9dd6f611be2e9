#include "lines_call.h"

#include <stdio.h>
#include <stdlib.h>
#include <string.h>

#include "masm_cst.h"
#include "spoil.h"

const char *case_name = "";
unsigned calls = 0, failures = 0;

static const char *const NAMES[LINES_SLICES] = { "offsets", "lines", "columns" };

/* The line and column of each offset of the source under test. */
static uint32_t line_at[MASM_MAX_SOURCE + 2], column_at[MASM_MAX_SOURCE + 2];

/* By the words of M-102, byte by byte: an end is completed behind LF, and behind CR without LF. */
void count_lines(const uint8_t *source, size_t length)
{
    line_at[0] = column_at[0] = 1;
    for (size_t at = 1; at <= length; at++) {
        bool before_lf = at < length && source[at] == '\n';
        bool completed = source[at - 1] == '\n' || (source[at - 1] == '\r' && !before_lf);
        line_at[at] = line_at[at - 1] + completed;
        column_at[at] = completed ? 1 : column_at[at - 1] + 1;
    }
}

static void fail(const char *what)
{
    failures++;
    if (failures <= 10)
        fprintf(stderr, "%s: wrong %s\n", case_name, what);
}

/* The call, and behind it the fault that MASM_FAULT names: the name of a case spoils its first line
   number. */
static uint64_t faulty_lines(struct lent *source, struct lent *slices, const size_t *room)
{
    const char *fault = getenv("MASM_FAULT");
    uint64_t written = masm_lines(source->data, source->bytes,
                                  slices[OFFSETS].data, room[OFFSETS],
                                  slices[LINES].data, room[LINES],
                                  slices[COLUMNS].data, room[COLUMNS]);
    if (fault == NULL || spoil_slice(slices, NAMES, LINES_SLICES, fault))
        return written;
    if (strcmp(fault, "written") == 0)
        return written ^ 1;
    if (strcmp(fault, "source") == 0 && source->bytes > 0)
        spoil(source, 0);
    if (strcmp(fault, "read") == 0)
        read_behind(source);
    if (strcmp(fault, "read-offsets") == 0)
        read_behind(&slices[OFFSETS]);
    if (strcmp(fault, case_name) == 0)
        spoil_slice(slices, NAMES, LINES_SLICES, "lines-first");
    return written;
}

/* The first entries are those of the offsets, the others hold what they held. */
static bool holds(const struct lent *slice, const struct question *question,
                  const uint32_t *numbers, size_t written)
{
    const uint32_t *found = slice->data;
    const uint8_t *bytes = slice->data;
    for (size_t i = 0; i < written; i++) {
        uint32_t offset = question->offsets[i];
        if (found[i] != numbers[offset < question->length ? offset : question->length])
            return false;
    }
    for (size_t i = written * sizeof *found; i < slice->bytes; i++)
        if (bytes[i] != FILL)
            return false;
    return true;
}

static bool unchanged(const struct lent *lent, const void *before)
{
    return guards_hold(lent) && (lent->bytes == 0 || memcmp(lent->data, before, lent->bytes) == 0);
}

static size_t least(const size_t *room)
{
    size_t n = room[OFFSETS] < room[LINES] ? room[OFFSETS] : room[LINES];
    return n < room[COLUMNS] ? n : room[COLUMNS];
}

void check_lines(enum lending how, const struct question *question, const size_t *room)
{
    struct lent source = lend(how, question->length), slices[LINES_SLICES];
    memcpy(source.data, question->source, question->length);
    forbid_writes(&source);
    for (int i = 0; i < LINES_SLICES; i++)
        slices[i] = lend(how, room[i] * sizeof(uint32_t));
    memcpy(slices[OFFSETS].data, question->offsets, slices[OFFSETS].bytes);
    forbid_writes(&slices[OFFSETS]);
    calls++;
    size_t expected = question->length > MASM_MAX_SOURCE ? 0 : least(room);
    if (faulty_lines(&source, slices, room) != expected)
        fail("number of what is written");
    if (!holds(&slices[LINES], question, line_at, expected))
        fail("lines");
    if (!holds(&slices[COLUMNS], question, column_at, expected))
        fail("columns");
    if (!unchanged(&source, question->source) || !unchanged(&slices[OFFSETS], question->offsets))
        fail("source or offsets");
    if (!guards_hold(&slices[LINES]) || !guards_hold(&slices[COLUMNS]))
        fail("guards");
    give_back(&source);
    for (int i = 0; i < LINES_SLICES; i++)
        give_back(&slices[i]);
}
