/* The folded view. A row is a piece of one line that belongs to one item; the blocks of procedures
   and `begin` blocks are folded, everything else is shown whole. */
#include "fold.h"

/* The row under way: nothing yet where `to` is 0. */
struct row {
    size_t from, to;
    uint8_t label, flags;
};

struct totals {
    size_t lines, folds;
};

/* The last token in a run that is no blank, or `token` itself. */
static size_t last_text(const struct reading *r, size_t token, size_t end)
{
    while (end > token + 1 && is_blank(r->token_kinds[end - 1]))
        end--;
    return end > token ? end - 1 : token;
}

/* Folds an item's block with its `end`, unless they end in the line in which the header ends. */
static void fold_item(const struct reading *r, struct survey *s, const struct item *item)
{
    size_t end = item->token_end < s->read_end ? item->token_end : s->read_end;
    size_t first = item->block;
    while (first < end && is_blank(r->token_kinds[first]))
        first++;
    if (first >= end)
        return;
    size_t header = last_text(r, item->token, item->block), last = last_text(r, first, end);
    if (last_line(r, header) == last_line(r, last))
        return;
    for (size_t i = first; i <= last; i++)
        s->facts[i].flags |= FOLDED;
}

static void fold_items(const struct reading *r, struct survey *s, const struct options *o)
{
    for (size_t i = 0; i < s->item_count; i++) {
        const struct item *item = &s->items[i];
        if (item->block != NONE && !is_named(r, item, o))
            fold_item(r, s, item);
    }
}

static void put_left(char sign, size_t line, uint8_t flags, const char *label)
{
    start_row(sign, "%7zu %c%c %-10s", line, (flags & REPORTED) != 0 ? '!' : ' ',
              (flags & DOUBTFUL) != 0 ? '?' : ' ', label);
}

static void end_piece(const struct reading *r, struct row *row)
{
    if (row->to == 0)
        return;
    put_left('|', line_of(r, row->from), row->flags, label_of(row->label));
    put_text(r->source + row->from, text_end(r, row->from, row->to) - row->from);
    end_row();
    row->to = 0;
}

/* Where a row starts whose first token this is: the first row of a line has its indentation. */
static size_t row_start(const struct reading *r, size_t token)
{
    size_t start = token_start(r, token);
    if (token == 0 || r->token_kinds[token - 1] != MASM_WHITESPACE)
        return start;
    size_t blank = token_start(r, token - 1);
    return starts_line(r, blank) ? blank : start;
}

/* A row goes on with tokens of the same item; items that could not be read share rows. */
static bool goes_on(const struct row *row, const struct fact *fact)
{
    return row->to > 0 && row->label == fact->label
        && ((fact->flags & STARTS) == 0 || fact->label == MASM_ERROR);
}

/* Adds a token to the row under way; where lines end in it, rows end. */
static void add_token(const struct reading *r, struct row *row, const struct fact *fact,
                      size_t token)
{
    size_t start = token_start(r, token), end = r->token_ends[token];
    uint8_t flags = fact->label == MASM_ERROR ? fact->flags | REPORTED : fact->flags;
    if (!goes_on(row, fact)) {
        end_piece(r, row);
        *row = (struct row){ .from = row_start(r, token), .label = fact->label };
    }
    row->flags |= flags;
    while (start < end) {
        row->to = start = line_end(r, start, end);
        if (!starts_line(r, start))
            return;
        end_piece(r, row);
        row->from = start;
        row->flags = fact->label == MASM_ERROR ? REPORTED : 0;
    }
}

/* The row for the fold that starts at a token; the first token behind it. */
static size_t show_fold(const struct reading *r, const struct survey *s, const struct item *item,
                        size_t token, struct totals *totals)
{
    size_t end = token, comments = 0;
    uint8_t flags = 0;
    for (; end < r->tokens && (s->facts[end].flags & FOLDED) != 0; end++) {
        flags |= s->facts[end].flags;
        comments += is_comment(r->token_kinds[end]);
    }
    size_t first = first_line(r, token), last = last_line(r, end - 1);
    size_t lines = last - first + 1;
    put_left('>', first, flags, "folded");
    if (lines > 1)
        put_words("%zu-%zu: ", first, last);
    put_words("%zu line%s, %zu comment%s, depth %u", lines, lines == 1 ? "" : "s", comments,
              comments == 1 ? "" : "s", (unsigned)item->depth);
    end_row();
    totals->lines += lines;
    totals->folds++;
    return end;
}

/* Adds a token to the row under way, or ends the row where a line ends in blanks. */
static size_t show_token(const struct reading *r, const struct survey *s, struct row *row,
                         size_t token)
{
    if (!is_blank(r->token_kinds[token]))
        add_token(r, row, &s->facts[token], token);
    else if (starts_line(r, r->token_ends[token]))
        end_piece(r, row);
    return token + 1;
}

static void show_rows(const struct reading *r, struct survey *s, struct totals *totals)
{
    struct row row = { 0 };
    size_t next = 0;
    for (size_t token = 0; token < r->tokens;) {
        bool starts = next < s->item_count && s->items[next].token == token;
        bool folded = (s->facts[token].flags & FOLDED) != 0;
        if (token == s->read_end || folded || (starts && s->items[next].kind != MASM_ERROR))
            end_piece(r, &row);
        if (starts)
            show_doubts(r, s, &s->items[next++]);
        if (token == s->read_end)
            show_limit(r, s);
        if (folded)
            token = show_fold(r, s, &s->items[next - 1], token, totals);
        else
            token = show_token(r, s, &row, token);
    }
    end_piece(r, &row);
}

void show_folded(const struct reading *r, struct survey *s, const struct options *o)
{
    struct totals totals = { 0 };
    fold_items(r, s, o);
    show_title("   line    item", r->name);
    show_rows(r, s, &totals);
    start_row('>', "");
    put_words("lines: %zu, folded: %zu in %zu fold%s; diagnostics: %zu", line_count(r),
              totals.lines, totals.folds, totals.folds == 1 ? "" : "s", r->diagnostics);
    end_row();
}
