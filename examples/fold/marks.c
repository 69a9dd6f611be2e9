/* To which token each diagnostic belongs: the row or the fold with that token is marked. */
#include "fold.h"
#include "masm_messages.h"

/* Messages by number, as in docs/MESSAGES.md. */
enum {
    UNEXPECTED_AT_TOP = 22,
    ATTRIBUTE_NAME = 38,
    ATTRIBUTE_END = 39,
    MISPLACED_DOC = 45,
    UNEXPECTED_IN_BLOCK = 46
};

/* Whether a message speaks of the token at which it stands. All others say what an item lacks. */
static bool is_about_token(uint16_t message)
{
    return message == UNEXPECTED_AT_TOP || message == MISPLACED_DOC
        || message == UNEXPECTED_IN_BLOCK || message >= MASM_NESTING_TOO_DEEP;
}

/* The item that was open when something was missed at a token: the last one that starts before it.
   What is missed at the end of the file, the last item lacks. */
static const struct item *item_before(const struct survey *s, size_t token, bool at_end)
{
    size_t low = 0, high = s->item_count;
    while (high - low > 1) {
        size_t middle = low + (high - low) / 2;
        if (at_end || s->items[middle].token < token)
            low = middle;
        else
            high = middle;
    }
    return &s->items[low];
}

/* Where the attribute starts that was open before a token. Between the two stand blanks and
   comments, or the token is at the end of the file. */
static size_t attribute_before(const struct survey *s, const struct item *item, size_t end)
{
    size_t token = end;
    while (token > item->token) {
        token--;
        const struct fact *fact = &s->facts[token];
        if (fact->label == MASM_ATTRIBUTE && (fact->flags & PROPER) != 0)
            return token;
    }
    return item->token;
}

static size_t token_of(const struct reading *r, const struct survey *s, size_t diagnostic)
{
    uint16_t message = r->messages[diagnostic];
    size_t token = token_at(r, r->starts[diagnostic]);
    if (is_about_token(message))
        return token;
    bool at_end = r->starts[diagnostic] == r->ends[diagnostic];
    const struct item *item = item_before(s, token, at_end);
    if (message == ATTRIBUTE_NAME || message == ATTRIBUTE_END)
        return attribute_before(s, item, at_end ? item->token_end : token);
    return item->head;
}

void mark_reports(const struct reading *r, struct survey *s)
{
    for (size_t i = 0; i < r->diagnostics; i++)
        s->facts[token_of(r, s, i)].flags |= REPORTED;
}
