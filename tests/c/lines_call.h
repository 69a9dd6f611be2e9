/* One call of masm_lines on lent slices, and a check of what it left. */
#ifndef LINES_CALL_H
#define LINES_CALL_H

#include "lend.h"

enum { OFFSETS, LINES, COLUMNS, LINES_SLICES };

/* A source and the offsets to ask for. */
struct question {
    const uint8_t *source;
    size_t length;
    const uint32_t *offsets;
    size_t count;
};

/* For the reports: which case runs, and how many calls and failures there were. */
extern const char *case_name;
extern unsigned calls, failures;

/* Counts what `check_lines` expects of a source. */
void count_lines(const uint8_t *source, size_t length);

/* A call with slices of these lengths, that of the offsets being at most their number. */
void check_lines(enum lending how, const struct question *question, const size_t *room);

#endif
