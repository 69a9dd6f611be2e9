/* Diagnostics and refusals, with their places and the marked text. */
#include <string.h>

#include "fold.h"
#include "masm_messages.h"

enum { MOST_SHOWN = 100 };

/* A part of a line, as much as fits in a row. */
struct part {
    size_t from, to;
};

/* The columns that bytes take: at most, or in most terminals. */
static size_t columns_of(const struct reading *r, size_t from, size_t to, bool usual)
{
    size_t columns = 0;
    struct unit unit;
    for (; from < to; from += unit.taken) {
        unit = next_unit(r->source + from, to - from);
        columns += usual ? unit.usual : unit.columns;
    }
    return columns;
}

/* Where the shown part of a line starts: so that what comes before `start` takes half a row. No
   character is cut. */
static size_t part_start(const struct reading *r, size_t start, size_t line_start)
{
    size_t half = text_width() / 2;
    size_t from = start - line_start > half ? start - half : line_start;
    size_t columns = columns_of(r, from, start, false);
    while (from < start && (columns > half || (r->source[from] & 0xC0) == 0x80)) {
        struct unit unit = next_unit(r->source + from, start - from);
        columns -= unit.columns;
        from += unit.taken;
    }
    return from;
}

/* As much of a line as fits in a row from `from` on, with a column left for a caret behind it. */
static struct part part_from(const struct reading *r, size_t from, size_t end)
{
    struct part part = { from, from };
    size_t columns = 0;
    while (part.to < end) {
        struct unit unit = next_unit(r->source + part.to, end - part.to);
        columns += unit.columns;
        if (columns >= text_width())
            break;
        part.to += unit.taken;
    }
    return part;
}

/* Where the text of the line around an offset ends. */
static size_t end_around(const struct reading *r, size_t offset)
{
    size_t start = line_start(r, offset);
    return text_end(r, start, line_end(r, start, r->length));
}

/* The whole line if it fits, else a part of it around `start`. */
static struct part part_around(const struct reading *r, size_t start, size_t end)
{
    struct part part = part_from(r, line_start(r, start), end);
    if (part.to < end)
        part = part_from(r, part_start(r, start, line_start(r, start)), end);
    return part;
}

/* The line around `start`, or a part of it, and carets below the text up to `end`. */
static void show_place(const struct reading *r, size_t start, size_t end)
{
    size_t line_text_end = end_around(r, start);
    struct part part = part_around(r, start, line_text_end);
    bool whole = part.from == line_start(r, start) && part.to >= line_text_end;
    start_row('|', "%7zu    %s", line_of(r, start), whole ? "line" : "part");
    put_text(r->source + part.from, part.to - part.from);
    end_row();
    start_row('>', "");
    size_t marked = end < part.to ? end : part.to;
    size_t before = columns_of(r, part.from, start < part.to ? start : part.to, true);
    size_t carets = marked > start ? columns_of(r, start, marked, true) : 1;
    for (size_t i = 0; i < before + carets; i++)
        put_words(i < before ? " " : "^");
    end_row();
}

/* A row with the place and the words, then the marked text. */
static void show_report(const struct reading *r, size_t start, size_t end, const char *label,
                        const char *words)
{
    size_t line = line_of(r, start);
    start_row('>', "%7zu !  %s", line, label);
    put_words("column %zu", column_of(r, start));
    if (end > start && line_of(r, end - 1) > line)
        put_words(" to line %zu", line_of(r, end - 1));
    put_words(": %s", words);
    end_row();
    show_place(r, start, end);
}

void show_diagnostics(const struct reading *r)
{
    size_t shown = r->diagnostics < MOST_SHOWN ? r->diagnostics : MOST_SHOWN;
    char text[MASM_MESSAGE_ROOM];
    for (size_t i = 0; i < shown; i++)
        show_report(r, r->starts[i], r->ends[i], "diagnostic",
                    masm_message(r->limit, r->messages[i], text));
    if (shown == r->diagnostics)
        return;
    start_row('>', "");
    put_words("%zu more diagnostics are not shown", r->diagnostics - shown);
    end_row();
}

/* Bytes that are not UTF-8 and why: the file was cut off, or it holds something else. */
static void show_broken_text(const struct reading *r, const char *label)
{
    size_t offset = r->counts[0], wrong = r->counts[1];
    if (wrong == MASM_CUT_OFF)
        show_report(r, offset, r->length, label,
                    "the file ends in the middle of a character, as when a transfer breaks off");
    else
        show_report(r, offset, offset + wrong, label,
                    wrong == 1 ? "a byte that cannot stand here: not UTF-8"
                               : "bytes that cannot stand here: not UTF-8");
}

void show_refusal(const struct reading *r, uint64_t status)
{
    static const char LABEL[] = "refused";
    size_t offset = r->counts[0], end = offset;
    show_title("   line    item", r->name);
    if (status == MASM_NOT_UTF8) {
        show_broken_text(r, LABEL);
    } else if (status == MASM_UNWANTED) {
        end += r->source[offset] == 'u' ? strlen("use") : strlen("extern");
        show_report(r, offset, end, LABEL, "`use` and `extern` are not allowed");
    } else {
        start_row('>', "%7s !  %s", "", LABEL);
        if (status == MASM_TOO_LONG)
            put_words("it is longer than %u bytes", MASM_MAX_SOURCE);
        else
            put_words("no room, status %u", (unsigned)status);
        end_row();
    }
}
