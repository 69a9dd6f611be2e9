/* A program to start from: the nodes under the root of a script with their first lines.
   Exit status: 0 without diagnostics, 1 with some, 2 if it is refused, 3 if it is not read. */
#include <stdio.h>

#include "masm_names.h"

#define N MASM_MAX_SOURCE
#define SLICE(array) array, sizeof array / sizeof *array
static uint8_t source[N + 1]; /* one byte more than is allowed, so that a longer file is seen */
static uint16_t kinds[MASM_TOKEN_ROOM(N)], events[MASM_EVENT_ROOM(N)];
static uint16_t messages[MASM_DIAGNOSTIC_ROOM(N)];
static uint32_t token_ends[MASM_TOKEN_ROOM(N)];
static uint32_t starts[MASM_DIAGNOSTIC_ROOM(N)], ends[MASM_DIAGNOSTIC_ROOM(N)];
static uint32_t lines[MASM_TOKEN_ROOM(N)], columns[MASM_TOKEN_ROOM(N)];
static uint64_t counts[MASM_COUNTS];

/* A node starts where the token before it ends: one call gives the lines of all these offsets. */
static void print_nodes(size_t length)
{
    masm_lines(source, length, token_ends, counts[0], SLICE(lines), SLICE(columns));
    for (size_t i = 0, open = 0, token = 0; i < counts[1]; i++) {
        if (events[i] >= MASM_WHITESPACE)
            token++;
        else if (events[i] == MASM_CLOSE)
            open--;
        else if (open++ == 1)
            printf("line %u: %s\n", (unsigned)(token == 0 ? 1 : lines[token - 1]),
                   masm_kind_name(events[i]));
    }
}

int main(int count, char **words)
{
    if (count != 2) {
        fputs("usage: read FILE\n", stderr);
        return 3;
    }
    FILE *file = fopen(words[1], "rb");
    size_t length = file == NULL ? 0 : fread(source, 1, sizeof source, file);
    if (file == NULL || ferror(file)) {
        perror("read");
        return 3;
    }
    uint64_t status = masm_parse_text(MASM_MAX_CONTROL_FLOW_NESTING, source, length, SLICE(kinds),
                                      SLICE(token_ends), SLICE(events), SLICE(messages),
                                      SLICE(starts), SLICE(ends), SLICE(counts));
    puts(masm_status_text(status));
    if (status != MASM_ACCEPTED)
        return 2;
    print_nodes(length);
    printf("diagnostics: %llu\n", (unsigned long long)counts[2]);
    return fflush(stdout) != 0 ? 3 : counts[2] > 0;
}
