/* The call, and faults that the test must find: tests/c/run tries each. */
#include <stdlib.h>
#include <string.h>

#include "call.h"
#include "spoil.h"

static const char *const NAMES[SLICES] = {
    "kinds", "token_ends", "events", "messages", "starts", "ends", "counts"
};

static uint64_t call_at(uint64_t limit, struct call *c)
{
    struct lent *s = c->slices;
    const size_t *room = c->rooms.length;
    return masm_parse_text(limit, c->source.data, c->source.bytes,
                           s[TOKEN_KINDS].data, room[TOKEN_KINDS],
                           s[TOKEN_ENDS].data, room[TOKEN_ENDS], s[EVENTS].data, room[EVENTS],
                           s[MESSAGES].data, room[MESSAGES], s[STARTS].data, room[STARTS],
                           s[ENDS].data, room[ENDS], s[COUNTS].data, room[COUNTS]);
}

static bool is_bad(uint64_t limit)
{
    return limit == 0 || limit > MASM_MAX_CONTROL_FLOW_NESTING;
}

/* The limit as a faulty call takes it. */
static uint64_t taken_limit(uint64_t limit, const char *fault)
{
    if (strcmp(fault, "limit-ignored") == 0)
        return is_bad(limit) ? limit : MASM_MAX_CONTROL_FLOW_NESTING;
    if (strcmp(fault, "limit-unchecked") == 0)
        return is_bad(limit) ? MASM_MAX_CONTROL_FLOW_NESTING : limit;
    if (strcmp(fault, "limit-0") == 0)
        return limit == 0 ? MASM_MAX_CONTROL_FLOW_NESTING : limit;
    if (strcmp(fault, "limit-257") == 0)
        return limit == 257 ? MASM_MAX_CONTROL_FLOW_NESTING : limit;
    if (strcmp(fault, "limit-8-bits") == 0)
        return limit == 256 ? limit : (uint8_t)limit;
    if (strcmp(fault, "limit-16-bits") == 0)
        return (uint16_t)limit;
    if (strcmp(fault, "limit-32-bits") == 0)
        return (uint32_t)limit;
    if (strcmp(fault, "limit-one-more") == 0)
        return is_bad(limit) || is_bad(limit + 1) ? limit : limit + 1;
    return limit;
}

static bool begins(const char *text, const char *start)
{
    return strncmp(text, start, strlen(start)) == 0;
}

/* The call with the checks in another order: `late-N` checks N before a bad limit, `early-9` checks
   this before the length of counts. All slices hold FILL before. */
static uint64_t call_in_order(struct call *c, const char *fault)
{
    bool short_counts = c->rooms.length[COUNTS] < MASM_COUNTS;
    if (is_bad(c->limit) && short_counts && strcmp(fault, "early-9") == 0)
        return MASM_LIMIT_OUT_OF_RANGE;
    if (is_bad(c->limit) && begins(fault, "late-")) {
        uint64_t status = call_at(MASM_MAX_CONTROL_FLOW_NESTING, c);
        if (status == (uint64_t)(fault[5] - '0'))
            return status;
        for (int i = 0; i < SLICES; i++)
            memset(c->slices[i].data, FILL, c->slices[i].bytes);
    }
    return call_at(taken_limit(c->limit, fault), c);
}

/* Spoils what is left behind the call. `refused-...` names a place behind the status 9 alone, and
   the name of a case its first count. */
static void spoil_call(struct call *c, uint64_t status, const char *fault)
{
    if (strcmp(fault, "source") == 0 && c->source.bytes > 0)
        spoil(&c->source, 0);
    if (strcmp(fault, "read") == 0)
        read_behind(&c->source);
    if (strcmp(fault, "join") == 0 && strcmp(case_name, "demand 3") == 0)
        spoil_slice(c->slices, NAMES, SLICES, "starts-first");
    if (begins(fault, "refused-") && status == MASM_LIMIT_OUT_OF_RANGE)
        spoil_slice(c->slices, NAMES, SLICES, fault + strlen("refused-"));
    if (strcmp(fault, case_name) == 0)
        spoil_slice(c->slices, NAMES, SLICES, "counts-first");
}

uint64_t faulty_call(struct call *c)
{
    const char *fault = getenv("MASM_FAULT");
    if (fault == NULL)
        return call_at(c->limit, c);
    uint64_t status = call_in_order(c, fault);
    if (spoil_slice(c->slices, NAMES, SLICES, fault))
        return status;
    spoil_call(c, status, fault);
    return strcmp(fault, "status") == 0 ? status ^ 1 : status;
}
