/* Every line of output. No text can look like a row: each line has a left part that fold makes, and
   a long row goes on in lines of its own with a blank left part and `:`. */
#include <errno.h>
#include <stdarg.h>
#include <stdio.h>
#include <string.h>

#include "fold.h"

/* A line under way. */
static struct {
    FILE *file;
    const char *again; /* the left part where a row goes on */
    size_t width, columns, length;
    char text[4 * WIDEST + AROUND + 1];
    int error; /* of the first write that failed */
} line;

static const char AGAIN[] = "                      : ";
static const char COMPLAINT[] = "fold: ", COMPLAINT_AGAIN[] = "    : ";
_Static_assert(sizeof AGAIN == AROUND + 1, "all rows have a left part of the same width");

void set_width(size_t width)
{
    line.width = width;
}

/* Columns for the text of a row. */
size_t text_width(void)
{
    return line.width - AROUND;
}

static void start_line(const char *left)
{
    line.length = line.columns = strlen(left);
    memcpy(line.text, left, line.length);
}

static void end_line(void)
{
    line.text[line.length++] = '\n';
    if (line.error == 0 && fwrite(line.text, 1, line.length, line.file) < line.length)
        line.error = errno;
}

/* Adds what must stand in one line. */
static void add(const char *text, size_t length, unsigned columns)
{
    if (line.columns + columns > line.width) {
        end_line();
        start_line(line.again);
    }
    memcpy(line.text + line.length, text, length);
    line.length += length;
    line.columns += columns;
}

void start_row(char sign, const char *left, ...)
{
    char text[AROUND + 1];
    va_list values;
    va_start(values, left);
    vsnprintf(text, sizeof text, left, values);
    va_end(values);
    char start[AROUND + 1];
    snprintf(start, sizeof start, "%-*.*s %c ", LEFT, LEFT, text, sign);
    line.file = stdout;
    line.again = AGAIN;
    start_line(start);
}

/* Text from outside. */
void put_text(const uint8_t *bytes, size_t length)
{
    struct unit unit;
    for (size_t i = 0; i < length; i += unit.taken) {
        unit = next_unit(bytes + i, length - i);
        add(unit.text, unit.length, unit.columns);
    }
}

/* Words of fold's own, in ASCII; lines end between words. */
void put_words(const char *format, ...)
{
    char words[256];
    va_list values;
    va_start(values, format);
    vsnprintf(words, sizeof words, format, values);
    va_end(values);
    for (const char *word = words; *word != '\0';) {
        size_t length = strcspn(word, " ");
        length += word[length] == ' ';
        if (length > text_width())
            length = 1;
        add(word, length, (unsigned)length);
        word += length;
    }
}

void end_row(void)
{
    end_line();
}

/* The first row: what stands in the columns, and the name of the file. */
void show_title(const char *left, const char *name)
{
    start_row('|', "%s", left);
    put_text((const uint8_t *)name, strlen(name));
    end_row();
}

/* Says on standard error what is wrong with a word or a file. */
void complain(const char *outside, const char *words)
{
    int error = line.error;
    line.file = stderr;
    line.again = COMPLAINT_AGAIN;
    line.error = 0;
    start_line(COMPLAINT);
    put_text((const uint8_t *)outside, strlen(outside));
    put_words(": %s", words);
    end_line();
    line.error = error;
}

/* Whether all output was written; says why not. */
bool finish_output(void)
{
    if (fflush(stdout) != 0 && line.error == 0)
        line.error = errno;
    if (line.error == 0)
        return true;
    complain("standard output", strerror(line.error));
    return false;
}
