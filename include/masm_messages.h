/* The texts of the diagnostics, by number, as in docs/MESSAGES.md; tests/c/run compares the two. */
#ifndef MASM_MESSAGES_H
#define MASM_MESSAGES_H

#include <stddef.h>
#include <stdint.h>
#include <string.h>

#define MASM_MESSAGES 53u

/* After this text stands a space and the diagnostic's token between backticks. The token is bytes
   of the script, chosen by whoever wrote it: controls of a terminal, characters that turn the
   direction of writing, a megabyte in one line. Show it by masm_escape. */
#define MASM_UNRECOGNIZED 50u

/* This text names the limit of the reading, and masm_message writes it: MASM_MESSAGE_ROOM bytes
   hold it with any limit, and a NUL. */
#define MASM_NESTING_TOO_DEEP 49u
#define MASM_MESSAGE_ROOM 78u

/* Writes a text, behind it a number in decimal, and a NUL. Returns what it wrote. */
static inline const char *masm_with_number(const char *start, uint64_t number, char *text)
{
    char digits[20];
    size_t first = sizeof digits, length = strlen(start);
    do
        digits[--first] = "0123456789"[number % 10];
    while ((number /= 10) > 0);
    memcpy(text, start, length);
    memcpy(text + length, digits + first, sizeof digits - first);
    text[length + sizeof digits - first] = '\0';
    return text;
}

/* The text of a number from 1 to MASM_MESSAGES in a reading at a limit; of any other an empty one.
   It is printable ASCII with nothing of the script in it: the token of MASM_UNRECOGNIZED is the
   caller's to add, by masm_escape. That of MASM_NESTING_TOO_DEEP is written to `text` and returned
   there; for all others `text` is left alone. */
static inline const char *masm_message(uint64_t limit, uint16_t number,
                                       char text[MASM_MESSAGE_ROOM])
{
    static const char *const texts[MASM_MESSAGES + 1] = {
        "",
        "expected `end` to close `begin` block",
        "expected `end` to close procedure",
        "expected `end` to close `if`",
        "expected `end` to close `while`",
        "expected `while` to close `do` block",
        "expected `end` to close `do`..`while` loop",
        "expected `end` to close `repeat`",
        "expected `end` to close `begin` block before `else`",
        "expected `end` to close `begin` block before top-level item",
        "expected `end` to close procedure before `else`",
        "expected `end` to close procedure before top-level item",
        "expected `end` to close `if` before `else`",
        "expected `end` to close `if` before top-level item",
        "expected `end` to close `while` before `else`",
        "expected `end` to close `while` before top-level item",
        "expected `while` to close `do` block before `else`",
        "expected `while` to close `do` block before top-level item",
        "expected `end` to close `do`..`while` loop before `else`",
        "expected `end` to close `do`..`while` loop before top-level item",
        "expected `end` to close `repeat` before `else`",
        "expected `end` to close `repeat` before top-level item",
        "unexpected top-level token",
        "expected a namespace path",
        "expected `mod` in submodule declaration",
        "expected a submodule name",
        "expected `const` in constant declaration",
        "expected a constant name",
        "expected `=` in constant declaration",
        "expected `type` or `enum`",
        "expected a type name",
        "expected `=` or `:` in type declaration",
        "expected an advice-map name",
        "expected `)` to close advice-map key",
        "expected `=` in advice-map declaration",
        "expected a path segment after `::`",
        "expected `proc` in procedure declaration",
        "expected a procedure name",
        "expected an attribute name",
        "expected `)` to close attribute arguments",
        "expected `package` in visibility modifier",
        "expected `)` after `package`",
        "expected `)` to close procedure parameters",
        "expected `)` to close procedure results",
        "expected a result type after `->` in procedure signature",
        "doc comments are only allowed before module-level items",
        "unexpected token in block",
        "expected `]` to close structured operation suffix",
        "expected a structured operation suffix",
        "control-flow nesting depth exceeded the maximum depth of ",
        "unrecognized token",
        "unexpected closing delimiter `)`",
        "unexpected closing delimiter `]`",
        "unexpected closing delimiter `}`"
    };
    if (number == MASM_NESTING_TOO_DEEP)
        return masm_with_number(texts[number], limit, text);
    return number <= MASM_MESSAGES ? texts[number] : "";
}

/* Writes bytes of the script as printable ASCII: a backslash, a backtick and all bytes outside
   space to `~` as \xNN, with two capital digits, the others as themselves. Writes a NUL behind them
   and takes only as many bytes as fit with it in `room`: 4 for each and 1 more are always enough.
   With room 0 nothing is written. Returns how many bytes were taken. */
static inline size_t masm_escape(const uint8_t *bytes, size_t count, char *text, size_t room)
{
    static const char digits[] = "0123456789ABCDEF";
    size_t taken = 0, written = 0;
    for (; taken < count; taken++) {
        unsigned byte = bytes[taken];
        int plain = byte >= ' ' && byte <= '~' && byte != '\\' && byte != '`';
        const char code[4] = { '\\', 'x', digits[byte >> 4], digits[byte & 15] };
        size_t width = plain ? 1 : sizeof code;
        if (room - written <= width)
            break;
        if (plain)
            memcpy(text + written, bytes + taken, width);
        else
            memcpy(text + written, code, width);
        written += width;
    }
    if (room > 0)
        text[written] = '\0';
    return taken;
}

#endif
