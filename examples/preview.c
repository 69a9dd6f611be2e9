/* A preview service with small stacks: it reads a script at a limit of 64 control-flow nodes in
   each other, on a thread with the stack that this takes. Shows the lines of the nodes under the
   root or, where there are any, the diagnostics.
   Exit status: 0 without diagnostics, 1 with some, 2 if it is refused, 3 if it is not read. */
#define _POSIX_C_SOURCE 200809L
#include <errno.h>
#include <limits.h>
#include <pthread.h>
#include <stdio.h>

#include "masm_messages.h"
#include "masm_names.h"

#define LIMIT 64
/* What the call takes, and what the C library wants for any thread. */
#define STACK (MASM_STACK(LIMIT) + PTHREAD_STACK_MIN)

#define N MASM_MAX_SOURCE
#define SLICE(array) array, sizeof array / sizeof *array
static uint8_t source[N + 1]; /* one byte more than is allowed, so that a longer file is seen */
static uint16_t kinds[MASM_TOKEN_ROOM(N)], events[MASM_EVENT_ROOM(N)];
static uint16_t messages[MASM_DIAGNOSTIC_ROOM(N)];
static uint32_t token_ends[MASM_TOKEN_ROOM(N)];
static uint32_t starts[MASM_DIAGNOSTIC_ROOM(N)], ends[MASM_DIAGNOSTIC_ROOM(N)];
static uint32_t lines[MASM_DIAGNOSTIC_ROOM(N)], columns[MASM_DIAGNOSTIC_ROOM(N)];
static uint64_t counts[MASM_COUNTS], status;
static size_t length;

/* Nothing else is done on the small stack: printf may take more. */
static void *read_script(void *unused)
{
    status = masm_parse_text(LIMIT, source, length, SLICE(kinds), SLICE(token_ends), SLICE(events),
                             SLICE(messages), SLICE(starts), SLICE(ends), SLICE(counts));
    return unused;
}

/* The number of an error, or 0. */
static int run_thread(void)
{
    pthread_attr_t attributes;
    pthread_t thread;
    int error = pthread_attr_init(&attributes);
    if (error == 0)
        error = pthread_attr_setstacksize(&attributes, STACK);
    if (error == 0)
        error = pthread_create(&thread, &attributes, read_script, NULL);
    return error == 0 ? pthread_join(thread, NULL) : error;
}

/* A node starts where the token before it ends. Its last line is the one behind its last token, or
   the one before that, where this token ends in a line end. */
static void show_nodes(void)
{
    masm_lines(source, length, token_ends, counts[0], SLICE(lines), SLICE(columns));
    uint16_t kind = MASM_TOMBSTONE;
    for (size_t i = 0, open = 0, token = 0, line = 1; i < counts[1]; i++) {
        if (events[i] >= MASM_WHITESPACE) {
            token++;
        } else if (events[i] != MASM_CLOSE && open++ == 1) {
            kind = events[i];
            line = token == 0 ? 1 : lines[token - 1];
        } else if (events[i] == MASM_CLOSE && --open == 1) {
            size_t last = lines[token - 1] - (columns[token - 1] == 1);
            printf("lines %zu to %zu: %s\n", line, last, masm_kind_name(kind));
        }
    }
}

/* Of an unrecognized token as much as 200 characters show. */
static void show_diagnostics(void)
{
    masm_lines(source, length, starts, counts[2], SLICE(lines), SLICE(columns));
    for (size_t i = 0; i < counts[2]; i++) {
        char text[MASM_MESSAGE_ROOM], token[201];
        printf("line %u, column %u: %s", (unsigned)lines[i], (unsigned)columns[i],
               masm_message(LIMIT, messages[i], text));
        if (messages[i] == MASM_UNRECOGNIZED) {
            masm_escape(source + starts[i], ends[i] - starts[i], token, sizeof token);
            printf(" `%s`", token);
        }
        putchar('\n');
    }
}

int main(int count, char **words)
{
    if (count != 2) {
        fputs("usage: preview FILE\n", stderr);
        return 3;
    }
    FILE *file = fopen(words[1], "rb");
    length = file == NULL ? 0 : fread(source, 1, sizeof source, file);
    if (file == NULL || ferror(file) || (errno = run_thread()) != 0) {
        perror("preview");
        return 3;
    }
    puts(masm_status_text(status));
    if (status != MASM_ACCEPTED)
        return 2;
    if (counts[2] > 0)
        show_diagnostics();
    else
        show_nodes();
    return fflush(stdout) != 0 || ferror(stdout) ? 3 : counts[2] > 0;
}
