/* Tests masm_lines from C. The word behind the program's name chooses how slices are lent: exact,
   words, end or start; without one all four are tried. */
#include <stdio.h>
#include <stdlib.h>
#include <string.h>

#include "lines_call.h"
#include "masm_cst.h"

/* More offsets than any list here has, and the length of the sources that are made. */
enum { MOST = 4096, MADE = 2500 };

static uint32_t offsets[MOST];
static uint8_t source[MASM_MAX_SOURCE + 1];
static uint32_t state = 1;

static uint32_t below(uint32_t bound)
{
    state = state * 1664525u + 1013904223u;
    return (uint32_t)((uint64_t)state * bound >> 32);
}

/* Every slice at its number; all empty; each at less, the others longer, of sources that are not
   very long. */
static void check_rooms(enum lending how, const struct question *question)
{
    size_t n = question->count;
    const size_t fewer[] = { 0, 1, n - 1, n };
    check_lines(how, question, (const size_t[]){ n, n, n });
    check_lines(how, question, (const size_t[]){ 0, 0, 0 });
    if (question->length > MADE)
        return;
    for (int slice = 0; slice < LINES_SLICES; slice++)
        for (size_t i = 0; i < sizeof fewer / sizeof *fewer; i++) {
            size_t room[LINES_SLICES] = { n, n + 3, n + 5 };
            room[slice] = fewer[i];
            check_lines(how, question, room);
        }
}

static void check_list(enum lending how, const char *name, size_t length, size_t count)
{
    case_name = name;
    check_rooms(how, &(struct question){ source, length, offsets, count });
}

/* Offsets up to `step` apart that rise, fall, repeat, and come as they like. */
static void check_source(enum lending how, size_t length, uint32_t step)
{
    size_t count = 0;
    count_lines(source, length);
    for (uint32_t at = 0; at <= length; at += 1 + below(step))
        offsets[count++] = at;
    check_list(how, "rising", length, count);
    for (size_t i = 0; i < count / 2; i++) {
        uint32_t offset = offsets[i];
        offsets[i] = offsets[count - 1 - i];
        offsets[count - 1 - i] = offset;
    }
    check_list(how, "falling", length, count);
    for (size_t i = 0; i < count; i++)
        offsets[i] = below((uint32_t)length + 1);
    check_list(how, "random", length, count);
    for (size_t i = 1; i < count; i++)
        offsets[i] = offsets[0];
    check_list(how, "repeated", length, count);
    const uint32_t above[] = { (uint32_t)length + 1, 0, UINT32_MAX, (uint32_t)length, 0x80000000u };
    memcpy(offsets, above, sizeof above);
    check_list(how, "above", length, sizeof above / sizeof *above);
}

static void check_texts(enum lending how)
{
    static const char *const texts[] = {
        "", "a", "\r", "\n", "\r\n", "\n\r", "a\rb", "a\r\nb", "\r\r\n", "\r\n\n", "\"a\\\rb\"",
        "begin\r\n", "a\r", "\xC3\xA9\r\xC3\xA9$", "\xFF\r\n\x80", "# a\rb\r\nc\n"
    };
    for (size_t i = 0; i < sizeof texts / sizeof *texts; i++) {
        memcpy(source, texts[i], strlen(texts[i]));
        check_source(how, strlen(texts[i]), 1);
    }
}

/* A CR LF around a multiple of 1,024, and line ends in all orders. */
static void check_made(enum lending how)
{
    for (size_t at = 1021; at <= 1025; at++) {
        memset(source, 'a', MADE);
        memcpy(source + at, "\r\n", 2);
        memcpy(source + 1024 + at, "\r\r\n", 3);
        check_source(how, MADE, 2);
    }
    for (size_t i = 0; i < MADE; i++)
        source[i] = (uint8_t) "a\r\n"[below(3)];
    check_source(how, MADE, 2);
}

static void check_longest(enum lending how)
{
    for (size_t i = 0; i < sizeof source; i++)
        source[i] = (uint8_t) "abc\r\r\n\r"[below(7)];
    check_source(how, MASM_MAX_SOURCE, 100000);
    case_name = "refused";
    offsets[0] = 1;
    offsets[1] = 0;
    check_rooms(how, &(struct question){ source, sizeof source, offsets, 2 });
}

static void check_all(enum lending how)
{
    check_texts(how);
    check_made(how);
    check_longest(how);
}

int main(int count, char **words)
{
    watch_access(&case_name);
    if (!check_lendings(count, words, check_all))
        return 2;
    printf("lines_test: %u calls, %u failures\n", calls, failures);
    return failures == 0 ? 0 : 1;
}
