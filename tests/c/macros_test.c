/* The rooms of masm_cst.h: constants, never 0, enough. What it says of a limit, by M-104's numbers.
   All macros take their argument once and as it is. Compiled as C and as C++. */
#include <assert.h>
#include <stdbool.h>
#include <stdio.h>

#include "masm_cst.h"

static uint8_t source[MASM_SOURCE_ROOM(0)];
static uint16_t kinds[MASM_TOKEN_ROOM(0)], events[MASM_EVENT_ROOM(0)];
static uint16_t messages[MASM_DIAGNOSTIC_ROOM(0)];

static_assert(sizeof source >= 1 && sizeof kinds >= 2 && sizeof messages >= 2, "none is 0");
static_assert(sizeof events >= 4, "an empty source has two events");
static_assert(MASM_SOURCE_ROOM(MASM_MAX_SOURCE) >= MASM_MAX_SOURCE, "all bytes");
static_assert(MASM_TOKEN_ROOM(MASM_MAX_SOURCE) >= MASM_MAX_SOURCE, "a token has a byte");
static_assert(MASM_EVENT_ROOM(MASM_MAX_SOURCE) >= 7 * MASM_MAX_SOURCE + 2, "7 T + 2 events");
static_assert(MASM_DIAGNOSTIC_ROOM(MASM_MAX_SOURCE) >= 2 * MASM_MAX_SOURCE, "2 T diagnostics");
static_assert(MASM_EVENT_ROOM(1 + 2) == MASM_EVENT_ROOM(3), "the argument in parentheses");
static_assert(MASM_DIAGNOSTIC_ROOM(1 + 2) * 2 == 2 * MASM_DIAGNOSTIC_ROOM(3), "the whole too");
static_assert(sizeof(MASM_TOKEN_ROOM(1)) == sizeof(size_t), "a length is a size_t");

static_assert(MASM_MAX_CONTROL_FLOW_NESTING == 256, "the unit's limit");
static_assert(MASM_LIMIT_OUT_OF_RANGE == 9, "the status of a bad limit");
static_assert(MASM_MAX_OPEN(1) == 6 && MASM_MAX_OPEN(64) == 132, "2 n + 4 nodes");
static_assert(MASM_MAX_OPEN(MASM_MAX_CONTROL_FLOW_NESTING) == 516, "the unit's nodes");
static_assert(MASM_STACK(1) == 16640 && MASM_STACK(64) == 32768, "16,384 + 256 n bytes");
static_assert(MASM_STACK(MASM_MAX_CONTROL_FLOW_NESTING) == 81920, "the unit's stack");
static_assert(MASM_MAX_OPEN(1 + 2) * 2 == 2 * MASM_MAX_OPEN(3), "in parentheses, within too");
static_assert(MASM_STACK(1 + 2) * 2 == 2 * MASM_STACK(3), "in parentheses, within too");
static_assert(sizeof(MASM_MAX_OPEN(1)) == sizeof(size_t), "a size_t");
static_assert(sizeof(MASM_STACK(1)) == sizeof(size_t), "a size_t");

static unsigned asked = 0;

/* 3, and one more time asked for. */
static int three(void)
{
    asked++;
    return 3;
}

int main(void)
{
    int large = 1 << 30;
    size_t sum = MASM_SOURCE_ROOM(three()) + MASM_TOKEN_ROOM(three()) + MASM_EVENT_ROOM(three())
        + MASM_DIAGNOSTIC_ROOM(three()) + MASM_MAX_OPEN(three()) + MASM_STACK(three());
    bool once = asked == 6 && sum == 4 + 4 + 23 + 7 + 10 + 17152;
    bool wide = MASM_EVENT_ROOM(large) / 7 == MASM_SOURCE_ROOM(large) - 1;
    bool lent = source[0] == 0 && kinds[0] == 0 && events[0] == 0 && messages[0] == 0;
    printf("macros_test: %s\n", once && wide && lent ? "passed" : "failed");
    return once && wide && lent ? 0 : 1;
}
