#include "call.h"

#include <stdio.h>
#include <string.h>

const char *case_name = "";
unsigned calls = 0, failures = 0;

static const char *const NAMES[SLICES] = {
    "token kinds", "token ends", "events", "messages", "starts", "ends", "counts"
};
static const size_t WIDTHS[SLICES] = { 2, 4, 2, 2, 4, 4, 8 };

void fail(const char *what)
{
    failures++;
    if (failures <= 10)
        fprintf(stderr, "%s: wrong %s\n", case_name, what);
}

struct call make_call(enum lending how, const struct question *question, struct rooms rooms)
{
    struct call call = { question->limit, .source = lend(how, question->length), .rooms = rooms };
    memcpy(call.source.data, question->source, question->length);
    forbid_writes(&call.source);
    for (int i = 0; i < SLICES; i++)
        call.slices[i] = lend(how, rooms.length[i] * WIDTHS[i]);
    calls++;
    call.status = faulty_call(&call);
    return call;
}

void end_call(struct call *call)
{
    give_back(&call->source);
    for (int i = 0; i < SLICES; i++)
        give_back(&call->slices[i]);
}

uint32_t entry(const struct call *call, enum slice slice, size_t index)
{
    const void *data = call->slices[slice].data;
    return WIDTHS[slice] == 2 ? ((const uint16_t *)data)[index] : ((const uint32_t *)data)[index];
}

uint64_t count_of(const struct call *call, size_t index)
{
    return ((const uint64_t *)call->slices[COUNTS].data)[index];
}

static size_t least(size_t a, size_t b)
{
    return a < b ? a : b;
}

struct list list_of(const struct full *full, enum slice slice)
{
    const struct list lists[] = { full->token_kinds, full->token_ends, full->events,
                                  full->messages,    full->starts,     full->ends };
    return lists[slice];
}

/* The table's row: the status, the three numbers, and how many tokens, events and diagnostics are
   written. */
struct row {
    uint64_t status, counts[MASM_COUNTS];
    size_t tokens, events, diagnostics;
};

static struct row row_of(uint64_t limit, const struct full *full, struct rooms rooms)
{
    const size_t *room = rooms.length;
    size_t tokens = least(room[TOKEN_KINDS], room[TOKEN_ENDS]);
    size_t diagnostics = least(least(room[MESSAGES], room[STARTS]), room[ENDS]);
    size_t t = full->token_kinds.count, e = full->events.count, d = full->messages.count;
    if (room[COUNTS] < MASM_COUNTS)
        return (struct row){ .status = MASM_COUNTS_SHORT };
    if (limit < 1 || limit > MASM_MAX_CONTROL_FLOW_NESTING)
        return (struct row){ .status = MASM_LIMIT_OUT_OF_RANGE };
    if (full->status == MASM_TOO_LONG)
        return (struct row){ .status = MASM_TOO_LONG };
    if (full->status == MASM_NOT_UTF8)
        return (struct row){ .status = MASM_NOT_UTF8, .counts = { full->offset, full->second } };
    if (t > tokens)
        return (struct row){ .status = MASM_TOKEN_SHORT, .counts = { t }, .tokens = tokens };
    if (full->status == MASM_UNWANTED)
        return (struct row){ .status = MASM_UNWANTED, .counts = { full->offset }, .tokens = t };
    bool fits = e <= room[EVENTS] && d <= diagnostics;
    return (struct row){ fits ? MASM_ACCEPTED : MASM_OUTPUT_SHORT, { t, e, d },
                         t, least(e, room[EVENTS]), least(d, diagnostics) };
}

/* The first entries are the list's, the others hold what they held. */
static bool slice_holds(const struct call *call, enum slice slice, struct list list, size_t written)
{
    const uint8_t *bytes = call->slices[slice].data;
    for (size_t i = 0; i < written; i++)
        if (entry(call, slice, i) != list.numbers[i])
            return false;
    for (size_t i = written * WIDTHS[slice]; i < call->slices[slice].bytes; i++)
        if (bytes[i] != FILL)
            return false;
    return true;
}

static bool counts_hold(const struct call *call, const struct row *row)
{
    const uint8_t *bytes = call->slices[COUNTS].data;
    size_t written = row->status == MASM_COUNTS_SHORT ? 0 : MASM_COUNTS;
    for (size_t i = 0; i < written; i++)
        if (count_of(call, i) != row->counts[i])
            return false;
    for (size_t i = written * WIDTHS[COUNTS]; i < call->slices[COUNTS].bytes; i++)
        if (bytes[i] != FILL)
            return false;
    return true;
}

static void check_guards(const struct call *call, const uint8_t *source)
{
    bool same = call->source.bytes == 0
        || memcmp(call->source.data, source, call->source.bytes) == 0;
    if (!same || !guards_hold(&call->source))
        fail("source");
    for (int i = 0; i < SLICES; i++)
        if (!guards_hold(&call->slices[i]))
            fail("guards");
}

size_t most_open(struct list events)
{
    size_t most = 0;
    for (size_t i = 0, open = 0; i < events.count; i++) {
        if (events.numbers[i] == MASM_CLOSE)
            open--;
        else if (events.numbers[i] < MASM_WHITESPACE && ++open > most)
            most = open;
    }
    return most;
}

void check_call(enum lending how, const struct question *question, struct rooms rooms,
                const struct full *full)
{
    struct row row = row_of(question->limit, full, rooms);
    struct call call = make_call(how, question, rooms);
    const size_t written[] = { row.tokens,      row.tokens,      row.events,
                               row.diagnostics, row.diagnostics, row.diagnostics };
    if (call.status != row.status)
        fail("status");
    for (int i = 0; i < COUNTS; i++)
        if (!slice_holds(&call, i, list_of(full, i), written[i]))
            fail(NAMES[i]);
    if (!counts_hold(&call, &row))
        fail(NAMES[COUNTS]);
    /* Of the macro: the call's events are those of the list, as was just seen. */
    if (row.status == MASM_ACCEPTED && most_open(full->events) > MASM_MAX_OPEN(question->limit))
        fail("number of open nodes");
    check_guards(&call, question->source);
    end_call(&call);
}
