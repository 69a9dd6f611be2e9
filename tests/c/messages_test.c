/* masm_message: the text of 49 names every limit, in exactly the bytes that are lent; no other
   number writes there, and none beside 1 to MASM_MESSAGES has a text. */
#include <inttypes.h>
#include <stdbool.h>
#include <stdio.h>
#include <stdlib.h>

#include "masm_messages.h"

enum { FILL = 0x5A };

static unsigned failures = 0;

static void check(bool holds, const char *what, uint64_t number)
{
    if (holds)
        return;
    failures++;
    printf("messages_test: %s, at %" PRIu64 "\n", what, number);
}

/* A heap block of exactly the room, so that the sanitizers see a write behind it. */
static char *lend_text(void)
{
    char *text = malloc(MASM_MESSAGE_ROOM);
    if (text == NULL)
        exit(2);
    memset(text, FILL, MASM_MESSAGE_ROOM);
    return text;
}

static void check_limit(uint64_t limit)
{
    char expected[256], *text = lend_text(), *other = lend_text();
    snprintf(expected, sizeof expected,
             "control-flow nesting depth exceeded the maximum depth of %" PRIu64, limit);
    const char *found = masm_message(limit, 49, text);
    masm_message(limit / 2, 49, other);
    check(found == text, "the text is elsewhere", limit);
    check(strcmp(found, expected) == 0, "another text", limit);
    if (limit == UINT64_MAX)
        check(strlen(found) + 1 == MASM_MESSAGE_ROOM, "the room is not exact", limit);
    free(text);
    free(other);
}

/* All numbers but 49. */
static void check_number(uint16_t number)
{
    char *text = lend_text();
    const char *found = masm_message(64, number, text);
    bool known = number >= 1 && number <= MASM_MESSAGES;
    check((found[0] != '\0') == known, "a text or none", number);
    check(found == masm_message(256, number, text), "a text of a limit", number);
    for (size_t i = 0; i < MASM_MESSAGE_ROOM; i++)
        check(text[i] == FILL, "the bytes lent are written", number);
    free(text);
}

int main(void)
{
    for (uint64_t limit = 0; limit <= 300; limit++)
        check_limit(limit);
    for (uint64_t limit = 1000; limit <= UINT64_MAX / 10; limit *= 10) {
        check_limit(limit - 1);
        check_limit(10 * limit);
    }
    check_limit((UINT64_C(1) << 32) + 5);
    check_limit(UINT64_MAX);
    for (uint32_t number = 0; number <= UINT16_MAX; number++)
        if (number != MASM_NESTING_TOO_DEEP)
            check_number((uint16_t)number);
    printf("messages_test: %u failures\n", failures);
    return failures == 0 ? 0 : 1;
}
