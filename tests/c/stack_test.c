/* How much stack a call takes, the first at several limits on sources that are nested as deep as
   can be: masm_cst.h names the most that the test allows. */
#define _GNU_SOURCE
#include <pthread.h>
#include <stdbool.h>
#include <stdio.h>
#include <stdlib.h>
#include <string.h>
#include <sys/mman.h>

#include "masm_cst.h"

enum { STACK = 4 << 20, PAINT = 0x5A, LENGTH = 8192 };

static uint8_t source[LENGTH];
static uint16_t token_kinds[LENGTH], events[MASM_EVENT_ROOM(LENGTH)];
static uint16_t messages[MASM_DIAGNOSTIC_ROOM(LENGTH)];
static uint32_t token_ends[LENGTH];
static uint32_t starts[MASM_DIAGNOSTIC_ROOM(LENGTH)], ends[MASM_DIAGNOSTIC_ROOM(LENGTH)];
static uint64_t counts[MASM_COUNTS];
static uint8_t longest[MASM_MAX_SOURCE];
static uint64_t limit;

static void *nothing(void *argument)
{
    return argument;
}

static void *call(void *argument)
{
    if (masm_parse_text(limit, source, LENGTH, token_kinds, LENGTH, token_ends, LENGTH, events,
                        MASM_EVENT_ROOM(LENGTH), messages, MASM_DIAGNOSTIC_ROOM(LENGTH), starts,
                        MASM_DIAGNOSTIC_ROOM(LENGTH), ends, MASM_DIAGNOSTIC_ROOM(LENGTH), counts,
                        MASM_COUNTS) != MASM_ACCEPTED)
        exit(2);
    return argument;
}

/* Offsets that rise and fall, in the longest source. */
static void *call_lines(void *argument)
{
    const uint32_t offsets[] = { MASM_MAX_SOURCE, 0, MASM_MAX_SOURCE / 2, 1025, MASM_MAX_SOURCE };
    uint32_t lines[5], columns[5];
    masm_lines(longest, sizeof longest, offsets, 5, lines, 5, columns, 5);
    return argument;
}

/* Bytes of a painted stack that are no longer as they were once a thread has run on it. */
static size_t taken(void *(*work)(void *))
{
    uint8_t *stack = mmap(NULL, STACK, PROT_READ | PROT_WRITE, MAP_PRIVATE | MAP_ANONYMOUS, -1, 0);
    pthread_attr_t attributes;
    pthread_t thread;
    if (stack == MAP_FAILED)
        exit(2);
    memset(stack, PAINT, STACK);
    pthread_attr_init(&attributes);
    pthread_attr_setstack(&attributes, stack, STACK);
    if (pthread_create(&thread, &attributes, work, NULL) != 0)
        exit(2);
    pthread_join(thread, NULL);
    size_t clean = 0;
    while (clean < STACK && stack[clean] == PAINT)
        clean++;
    munmap(stack, STACK);
    return STACK - clean;
}

/* `begin`, one piece up to `count` times, and spaces. */
static void fill(const char *piece, size_t count)
{
    size_t length = strlen(piece), at = strlen("begin");
    memset(source, ' ', LENGTH);
    memcpy(source, "begin", at);
    for (; count > 0 && at + length <= LENGTH; at += length, count--)
        memcpy(source + at, piece, length);
}

/* What a call takes beyond a thread that does nothing. */
static size_t taken_by(void *(*work)(void *))
{
    size_t least = taken(nothing), whole = taken(work);
    return whole > least ? whole - least : 0;
}

static size_t taken_for(const char *piece, size_t count)
{
    fill(piece, count);
    return taken_by(call);
}

/* The four forms first. */
static const char *const PIECES[] = { " if", " while", " do", " repeat", " do while", " if else",
                                      " if while do repeat", "(", "@a(", "\n" };
enum { FORMS = 4, PIECE_COUNT = sizeof PIECES / sizeof *PIECES };

/* The most that a call takes at the limit: with as many pieces as it allows in each other, and with
   as many as there is room for. */
static size_t most_taken(void)
{
    size_t most = 0;
    for (size_t i = 0; i < 2 * PIECE_COUNT; i++) {
        size_t whole = taken_for(PIECES[i / 2], i % 2 == 0 ? (size_t)limit : LENGTH);
        most = whole > most ? whole : most;
    }
    return most;
}

/* Whether at each limit a call takes as much as masm_cst.h says, or less. The fault `deeper` reads
   at the largest one. */
static bool limits_hold(void)
{
    static const uint64_t limits[] = { 1, 2, 64, 128, 255, MASM_MAX_CONTROL_FLOW_NESTING };
    bool holds = true;
    for (size_t i = 0; i < sizeof limits / sizeof limits[0]; i++) {
        limit = getenv("MASM_FAULT") == NULL ? limits[i] : MASM_MAX_CONTROL_FLOW_NESTING;
        size_t most = most_taken(), allowed = MASM_STACK(limits[i]);
        printf("stack_test: %zu bytes at most at limit %u, of %zu\n", most, (unsigned)limits[i],
               allowed);
        holds = holds && most > 0 && most <= allowed;
    }
    return holds;
}

/* What one level more takes, by a hundred of each form, is at most 240 bytes. */
static bool levels_hold(void)
{
    bool holds = true;
    limit = MASM_MAX_CONTROL_FLOW_NESTING;
    for (size_t i = 0; i < FORMS; i++) {
        size_t level = (taken_for(PIECES[i], 200) - taken_for(PIECES[i], 100)) / 100;
        printf("stack_test: %zu bytes a level of%s\n", level, PIECES[i]);
        holds = holds && level <= 240;
    }
    return holds;
}

static bool lines_hold(void)
{
    memset(longest, '\r', sizeof longest);
    size_t lines = taken_by(call_lines), allowed = MASM_STACK(1);
    printf("stack_test: %zu bytes for lines, of %zu\n", lines, allowed);
    return lines > 0 && lines <= allowed;
}

int main(void)
{
    bool limits = limits_hold(), levels = levels_hold(), lines = lines_hold();
    return limits && levels && lines ? 0 : 1;
}
