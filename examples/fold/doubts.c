/* What is doubtful about an item: it ends with a delimiter open, or it runs over lines that look
   like the start of something else. No diagnostic tells of these. */
#include "fold.h"

enum { PARENS, BRACKETS, BRACES, DELIMITERS };

/* A kind of doubtful line: the first, and how many there are. */
struct lines {
    size_t token; /* the first of the first line */
    size_t count;
};

struct doubts {
    size_t counts[DELIMITERS];  /* how many are open, and the tokens that opened the outermost */
    size_t openers[DELIMITERS];
    struct lines starters;      /* lines that begin as an item does */
    struct lines strays;        /* lines of a type that begin with a word behind its end */
};

static const char *const STARTERS[] = { "namespace", "pub",  "mod",  "proc",   "begin",
                                        "const",     "type", "enum", "adv_map" };
enum { STARTER_COUNT = sizeof STARTERS / sizeof *STARTERS };

/* The word that starts items elsewhere, if the token is one. */
static const char *starter_at(const struct reading *r, size_t token)
{
    if (r->token_kinds[token] == MASM_AT)
        return "@";
    if (r->token_kinds[token] != MASM_IDENT)
        return NULL;
    for (size_t i = 0; i < STARTER_COUNT; i++)
        if (is_text(r, token, STARTERS[i]))
            return STARTERS[i];
    return NULL;
}

static bool is_word(uint16_t kind)
{
    return kind >= MASM_IDENT && kind <= MASM_QUOTED_STRING;
}

/* Whether a type may end with this token. */
static bool is_last_of_type(uint16_t kind)
{
    return is_word(kind) || kind == MASM_R_PAREN || kind == MASM_R_BRACKET || kind == MASM_R_BRACE
        || kind == MASM_R_ANGLE;
}

/* The three counts of the grammar: a closer without its opener leaves them as they are. */
static void count_delimiter(struct doubts *d, uint16_t kind, size_t token)
{
    static const uint16_t OPENERS[] = { MASM_L_PAREN, MASM_L_BRACKET, MASM_L_BRACE };
    static const uint16_t CLOSERS[] = { MASM_R_PAREN, MASM_R_BRACKET, MASM_R_BRACE };
    for (size_t i = 0; i < DELIMITERS; i++) {
        if (kind == OPENERS[i] && d->counts[i]++ == 0)
            d->openers[i] = token;
        if (kind == CLOSERS[i] && d->counts[i] > 0)
            d->counts[i]--;
    }
}

static bool is_open(const struct doubts *d)
{
    return d->counts[PARENS] > 0 || d->counts[BRACKETS] > 0 || d->counts[BRACES] > 0;
}

static void add_line(struct survey *s, struct lines *lines, size_t token)
{
    if (lines->count++ == 0)
        lines->token = token;
    s->facts[token].flags |= DOUBTFUL;
}

static struct doubts find_doubts(const struct reading *r, struct survey *s, const struct item *item)
{
    struct doubts d = { 0 };
    bool in_body = false;
    uint16_t before = MASM_NEWLINE;
    size_t end = item->token_end < s->read_end ? item->token_end : s->read_end;
    size_t line = first_line(r, item->token); /* in which the word before ends */
    for (size_t i = item->token; i < end; i++) {
        uint16_t kind = r->token_kinds[i];
        if (is_blank(kind) || is_comment(kind))
            continue;
        bool begins_line = first_line(r, i) > line;
        bool proper = (s->facts[i].flags & PROPER) != 0;
        if (begins_line && !proper && starter_at(r, i) != NULL)
            add_line(s, &d.starters, i);
        else if (begins_line && in_body && !is_open(&d) && is_word(kind) && is_last_of_type(before))
            add_line(s, &d.strays, i);
        count_delimiter(&d, kind, i);
        in_body |= item->kind == MASM_TYPE_DECL && (kind == MASM_EQUAL || kind == MASM_COLON);
        line = last_line(r, i);
        before = kind;
    }
    return d;
}

static void start_doubt(const struct reading *r, const struct item *item)
{
    start_row('>', "%7zu  ? %-10s", first_line(r, item->token), label_of(item->kind));
}

static void show_open_delimiters(const struct reading *r, const struct item *item,
                                 const struct doubts *d)
{
    const char *comma = "";
    start_doubt(r, item);
    put_words("still open at its end: ");
    for (size_t i = 0; i < DELIMITERS; i++) {
        if (d->counts[i] == 0)
            continue;
        put_words("%s%c of line %zu", comma, "([{"[i], first_line(r, d->openers[i]));
        comma = ", ";
    }
    end_row();
}

static void put_more(const struct lines *lines)
{
    if (lines->count > 1)
        put_words(", and %zu more such line%s", lines->count - 1, lines->count > 2 ? "s" : "");
    end_row();
}

void show_doubts(const struct reading *r, struct survey *s, const struct item *item)
{
    if (item->kind == MASM_ERROR)
        return; /* marked already */
    struct doubts d = find_doubts(r, s, item);
    if (item->block == NONE && item->kind != MASM_PROCEDURE && is_open(&d))
        show_open_delimiters(r, item, &d);
    if (d.starters.count > 0) {
        start_doubt(r, item);
        put_words("runs over line %zu, which begins with `%s`",
                  first_line(r, d.starters.token), starter_at(r, d.starters.token));
        put_more(&d.starters);
    }
    if (d.strays.count > 0) {
        start_doubt(r, item);
        put_words("goes on in line %zu, outside all brackets", first_line(r, d.strays.token));
        put_more(&d.strays);
    }
}

void show_limit(const struct reading *r, const struct survey *s)
{
    start_row('>', "%7zu !  %-10s", first_line(r, s->read_end), label_of(MASM_ERROR));
    put_words("from here on nothing was read: blocks lie deeper than %zu", r->limit);
    end_row();
}
