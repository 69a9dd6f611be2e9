/* The call that reads a source, and the tokens that it gives. */
#include <string.h>

#include "fold.h"

/* Makes the call with rooms that suffice for any source of this length. */
uint64_t parse(struct reading *r, size_t limit)
{
    r->limit = limit;
    size_t n = r->length > MASM_MAX_SOURCE ? 0 : r->length;
    size_t tokens = MASM_TOKEN_ROOM(n), events = MASM_EVENT_ROOM(n);
    size_t diagnostics = MASM_DIAGNOSTIC_ROOM(n);
    r->token_kinds = need(tokens, sizeof *r->token_kinds);
    r->token_ends = need(tokens, sizeof *r->token_ends);
    r->events = need(events, sizeof *r->events);
    r->messages = need(diagnostics, sizeof *r->messages);
    r->starts = need(diagnostics, sizeof *r->starts);
    r->ends = need(diagnostics, sizeof *r->ends);
    uint64_t status = masm_parse_text(limit, r->source, r->length, r->token_kinds, tokens,
                                      r->token_ends, tokens, r->events, events,
                                      r->messages, diagnostics, r->starts, diagnostics,
                                      r->ends, diagnostics, r->counts, MASM_COUNTS);
    if (status == MASM_ACCEPTED) {
        r->tokens = r->counts[0];
        r->event_count = r->counts[1];
        r->diagnostics = r->counts[2];
    }
    return status;
}

size_t token_start(const struct reading *r, size_t token)
{
    return token == 0 ? 0 : r->token_ends[token - 1];
}

/* The token with the byte at an offset. */
size_t token_at(const struct reading *r, size_t offset)
{
    size_t low = 0, high = r->tokens;
    while (low < high) {
        size_t middle = low + (high - low) / 2;
        if (r->token_ends[middle] <= offset)
            low = middle + 1;
        else
            high = middle;
    }
    return low;
}

size_t first_line(const struct reading *r, size_t token)
{
    return line_of(r, token_start(r, token));
}

size_t last_line(const struct reading *r, size_t token)
{
    return line_of(r, r->token_ends[token] - 1);
}

bool is_blank(uint16_t kind)
{
    return kind == MASM_WHITESPACE || kind == MASM_NEWLINE;
}

bool is_comment(uint16_t kind)
{
    return kind == MASM_COMMENT || kind == MASM_DOC_COMMENT;
}

bool is_text(const struct reading *r, size_t token, const char *text)
{
    size_t start = token_start(r, token), length = r->token_ends[token] - start;
    return length == strlen(text) && memcmp(r->source + start, text, length) == 0;
}
