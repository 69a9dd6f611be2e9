/* masm_escape: printable ASCII only, decodes back to the bytes taken, and never beyond its room. */
#include <stdbool.h>
#include <stdio.h>
#include <stdlib.h>

#include "masm_messages.h"

enum { BYTES = 256, LONGEST = 4 * BYTES + 2 };

static unsigned failures = 0;

static void check(bool holds, const char *what, size_t number)
{
    if (holds)
        return;
    failures++;
    printf("escape_test: %s, at %zu\n", what, number);
}

static int digit(char c)
{
    if (c >= '0' && c <= '9')
        return c - '0';
    return c >= 'A' && c <= 'F' ? c - 'A' + 10 : -1;
}

/* The byte that a text shows first, and how many characters show it; -1 where none does. */
static int decode(const char *text, size_t *width)
{
    *width = 1;
    if (*text < ' ' || *text > '~' || *text == '`')
        return -1;
    if (*text != '\\')
        return *text;
    *width = 4;
    int high = text[1] == 'x' ? digit(text[2]) : -1, low = high < 0 ? -1 : digit(text[3]);
    return low < 0 ? -1 : 16 * high + low;
}

/* Whether a text shows exactly these bytes. */
static bool shows(const char *text, const uint8_t *bytes, size_t count)
{
    for (size_t i = 0; i < count; i++) {
        size_t width;
        if (decode(text, &width) != bytes[i])
            return false;
        text += width;
    }
    return *text == '\0';
}

/* A heap block of exactly the room, so that the sanitizers and valgrind see a write behind it. */
static void check_room(const uint8_t *bytes, size_t room)
{
    char next[5], *text = malloc(room);
    if (text == NULL)
        exit(2);
    size_t taken = masm_escape(bytes, BYTES, text, room);
    check(taken <= BYTES && shows(text, bytes, taken), "other bytes shown", room);
    if (taken < BYTES) {
        check(masm_escape(bytes + taken, 1, next, sizeof next) == 1, "a byte not taken", taken);
        check(strlen(text) + strlen(next) >= room, "one more byte fits", room);
    }
    free(text);
}

int main(void)
{
    uint8_t bytes[BYTES];
    for (size_t i = 0; i < BYTES; i++)
        bytes[i] = (uint8_t)i;
    for (size_t i = 0; i < BYTES; i++) {
        char text[5];
        bool itself = i >= ' ' && i <= '~' && i != '\\' && i != '`';
        check(masm_escape(bytes + i, 1, text, sizeof text) == 1, "a byte not taken", i);
        check(shows(text, bytes + i, 1), "another byte shown", i);
        check(strlen(text) == (itself ? 1 : 4), "another width", i);
    }
    for (size_t room = 1; room <= LONGEST; room++)
        check_room(bytes, room);
    check(masm_escape(bytes, BYTES, NULL, 0) == 0, "bytes taken without room", 0);
    printf("escape_test: %d rooms, %u failures\n", LONGEST + 1, failures);
    return failures == 0 ? 0 : 1;
}
