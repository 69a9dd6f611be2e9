/* The unfolded view: every line of the source behind its number and the depth of its blocks. */
#include "fold.h"

/* What the tokens of one line say. */
struct mark {
    unsigned depth;
    uint8_t flags;
};

/* The depth is that of the first token that is no blank, also where the line begins inside it.
   Blocks open and close at tokens that start in the line. `token` is the first one that ends behind
   `from`. */
static struct mark look(const struct reading *r, const struct survey *s, size_t *token, size_t from,
                        size_t to)
{
    struct mark mark = { s->facts[*token].depth, 0 };
    bool found = false;
    for (; *token < r->tokens && token_start(r, *token) < to; ++*token) {
        const struct fact *fact = &s->facts[*token];
        mark.flags |= token_start(r, *token) < from ? fact->flags & UNREAD : fact->flags;
        if (!found && !is_blank(r->token_kinds[*token])) {
            mark.depth = fact->depth;
            found = true;
        }
        if (r->token_ends[*token] > to)
            break;
    }
    return mark;
}

static char sign_of(struct mark mark)
{
    if ((mark.flags & OPENS) != 0)
        return (mark.flags & CLOSES) != 0 ? '*' : '+';
    return (mark.flags & CLOSES) != 0 ? '-' : ' ';
}

static void put_line(const struct reading *r, size_t from, size_t to, struct mark mark)
{
    const char *unread = (mark.flags & UNREAD) != 0 ? "unread" : "";
    start_row('|', "%7zu %3u %c %s", line_of(r, from), mark.depth, sign_of(mark), unread);
    put_text(r->source + from, text_end(r, from, to) - from);
    end_row();
}

/* What is doubtful about the items that start before `to`, and where reading ended. */
static void show_notes(const struct reading *r, struct survey *s, size_t *next, size_t from,
                       size_t to)
{
    for (; *next < s->item_count && token_start(r, s->items[*next].token) < to; ++*next)
        show_doubts(r, s, &s->items[*next]);
    size_t read_end = token_start(r, s->read_end);
    if (s->read_end < r->tokens && read_end >= from && read_end < to)
        show_limit(r, s);
}

void show_open(const struct reading *r, struct survey *s)
{
    size_t token = 0, next = 0;
    show_title("   line dep", r->name);
    for (size_t from = 0, to; from < r->length; from = to) {
        to = line_end(r, from, r->length);
        show_notes(r, s, &next, from, to);
        put_line(r, from, to, look(r, s, &token, from, to));
    }
    start_row('>', "");
    put_words("lines: %zu; diagnostics: %zu", line_count(r), r->diagnostics);
    end_row();
}
