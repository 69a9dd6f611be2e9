/* One walk through the events: what the tree says of each token and of each item. */
#include "fold.h"
#include "masm_messages.h"

/* A place in the events. `kinds` has room at every limit. */
struct walk {
    size_t event, token;
    unsigned open, blocks, errors;
    uint16_t kinds[MASM_MAX_OPEN(MASM_MAX_CONTROL_FLOW_NESTING)];
    bool fresh;           /* the innermost node has no token yet */
    bool opened, closed;  /* blocks since the last token */
    struct item *item;    /* the one that the walk is in, if any */
    uint32_t attribute;   /* where the last attribute of the item starts */
};

const char *label_of(uint16_t kind)
{
    switch (kind) {
    case MASM_ERROR: return "unread";
    case MASM_DOC: return "doc";
    case MASM_COMMENT: return "comment";
    case MASM_NAMESPACE: return "namespace";
    case MASM_SUBMODULE: return "submodule";
    case MASM_CONSTANT: return "constant";
    case MASM_TYPE_DECL: return "type";
    case MASM_ADVICE_MAP: return "advice map";
    case MASM_BEGIN_BLOCK: return "begin";
    case MASM_PROCEDURE: return "procedure";
    case MASM_ATTRIBUTE: return "attribute";
    default: return "item";
    }
}

static size_t count_items(const struct reading *r)
{
    size_t items = 0, open = 0;
    for (size_t i = 0; i < r->event_count; i++) {
        uint16_t event = r->events[i];
        items += open == 1 && event != MASM_CLOSE && event < MASM_WHITESPACE;
        if (event == MASM_CLOSE)
            open--;
        else
            open += event < MASM_WHITESPACE;
    }
    return items;
}

/* The token from which on nothing was read because blocks lie too deep; else the number of tokens.
   It is where the only diagnostic of this number stands. */
static size_t find_read_end(const struct reading *r)
{
    for (size_t i = 0; i < r->diagnostics; i++)
        if (r->messages[i] == MASM_NESTING_TOO_DEEP)
            return token_at(r, r->starts[i]);
    return r->tokens;
}

static void start_node(struct survey *s, struct walk *w, uint16_t kind)
{
    if (w->open == 1) {
        uint32_t token = (uint32_t)w->token;
        w->item = &s->items[s->item_count++];
        *w->item = (struct item){ .kind = kind, .token = token, .head = token, .keyword = NONE,
                                  .name = NONE, .block = NONE };
        if (kind == MASM_PROCEDURE)
            w->item->head = NONE;
    }
    w->kinds[w->open++] = kind;
    w->fresh = true;
    w->errors += kind == MASM_ERROR;
    if (kind != MASM_BLOCK)
        return;
    w->blocks++;
    w->opened = true;
    if (w->item->block == NONE)
        w->item->block = (uint32_t)w->token;
    if (w->blocks > w->item->depth)
        w->item->depth = (uint16_t)w->blocks;
}

static void close_node(struct walk *w)
{
    uint16_t kind = w->kinds[--w->open];
    w->fresh = false;
    w->errors -= kind == MASM_ERROR;
    if (kind == MASM_BLOCK) {
        w->blocks--;
        w->closed = true;
    }
    if (w->open != 1)
        return;
    w->item->token_end = (uint32_t)w->token;
    if (w->item->head == NONE)
        w->item->head = w->attribute;
    w->item = NULL;
}

/* Keeps the item's head, keyword and name where this token is one of them. Attributes come before
   the head. The name is the item's own second word, before its block. */
static bool is_proper(struct walk *w, bool is_word)
{
    uint16_t node = w->kinds[w->open - 1];
    uint32_t token = (uint32_t)w->token;
    struct item *item = w->item;
    if (node == MASM_ATTRIBUTE) {
        if (w->fresh)
            w->attribute = token;
        return w->fresh;
    }
    if (item->head == NONE && is_word)
        item->head = token;
    if (w->open != 2 || !is_word)
        return node == MASM_VISIBILITY && w->fresh;
    if (item->keyword == NONE) {
        item->keyword = token;
        return true;
    }
    if (item->name == NONE && item->block == NONE)
        item->name = token;
    return false;
}

static uint8_t label_in(const struct survey *s, const struct walk *w, uint16_t kind)
{
    if (w->token >= s->read_end)
        return MASM_ERROR;
    if (w->item == NULL)
        return (uint8_t)kind;
    return (uint8_t)(w->item->head == NONE ? MASM_ATTRIBUTE : w->item->kind);
}

static void take_token(const struct reading *r, struct survey *s, struct walk *w)
{
    uint16_t kind = r->token_kinds[w->token];
    struct fact *fact = &s->facts[w->token];
    bool is_word = !is_blank(kind) && !is_comment(kind);
    if (w->item == NULL || w->item->token == w->token)
        fact->flags |= STARTS;
    if (w->opened)
        fact->flags |= OPENS;
    if (w->closed)
        fact->flags |= CLOSES;
    if (w->errors > 0 || kind == MASM_ERROR)
        fact->flags |= UNREAD;
    if (w->item != NULL && is_proper(w, is_word))
        fact->flags |= PROPER;
    fact->label = label_in(s, w, kind);
    fact->depth = (uint16_t)w->blocks;
    w->opened = w->closed = w->fresh = false;
    w->token++;
}

/* Blocks that close at the end of the file close in the last row. */
static void end_survey(struct survey *s, const struct walk *w)
{
    if (w->token > 0 && w->opened)
        s->facts[w->token - 1].flags |= OPENS;
    if (w->token > 0 && w->closed)
        s->facts[w->token - 1].flags |= CLOSES;
}

void make_survey(const struct reading *r, struct survey *s)
{
    struct walk w = { 0 };
    s->facts = need(r->tokens, sizeof *s->facts);
    s->items = need(count_items(r), sizeof *s->items);
    s->read_end = find_read_end(r);
    for (; w.event < r->event_count; w.event++) {
        uint16_t event = r->events[w.event];
        if (event >= MASM_WHITESPACE)
            take_token(r, s, &w);
        else if (event == MASM_CLOSE)
            close_node(&w);
        else
            start_node(s, &w, event);
    }
    end_survey(s, &w);
}
