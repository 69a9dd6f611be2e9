#include "join.h"

#include <string.h>

#include "call.h"

static struct call call_on(enum lending how, uint64_t limit, const char *text, struct rooms rooms)
{
    struct question question = { limit, (const uint8_t *)text, strlen(text) };
    return make_call(how, &question, rooms);
}

static struct rooms ample(size_t n)
{
    size_t tokens = MASM_TOKEN_ROOM(n), diagnostics = MASM_DIAGNOSTIC_ROOM(n);
    return (struct rooms){ { tokens, tokens, MASM_EVENT_ROOM(n), diagnostics, diagnostics,
                             diagnostics, MASM_COUNTS } };
}

static bool accepted(const struct call *call)
{
    const size_t *room = call->rooms.length;
    return call->status == MASM_ACCEPTED && count_of(call, 0) <= room[TOKEN_KINDS]
        && count_of(call, 1) <= room[EVENTS] && count_of(call, 2) <= room[MESSAGES];
}

/* The least rooms that demand 3 allows. */
static struct rooms sums(const struct call *a, const struct call *b)
{
    size_t t = count_of(a, 0) + count_of(b, 0), e = count_of(a, 1) + count_of(b, 1) - 2;
    size_t d = count_of(a, 2) + count_of(b, 2);
    return (struct rooms){ { t, t, e, d, d, d, MASM_COUNTS } };
}

/* The whole slice is A's first `na` entries, then B's from `skip` to `nb`, moved on. */
static bool same(const struct call *whole, enum slice slice, const struct call *a, size_t na,
                 const struct call *b, size_t skip, size_t nb, uint32_t moved)
{
    for (size_t i = 0; i < na; i++)
        if (entry(whole, slice, i) != entry(a, slice, i))
            return false;
    for (size_t i = skip; i < nb; i++)
        if (entry(whole, slice, na + i - skip) != entry(b, slice, i) + moved)
            return false;
    return true;
}

static bool joined(const struct call *whole, const struct call *a, const struct call *b)
{
    size_t ta = count_of(a, 0), ea = count_of(a, 1), da = count_of(a, 2);
    size_t tb = count_of(b, 0), eb = count_of(b, 1), db = count_of(b, 2);
    uint32_t length = (uint32_t)a->source.bytes;
    return whole->status == MASM_ACCEPTED && count_of(whole, 0) == ta + tb
        && count_of(whole, 1) == ea + eb - 2 && count_of(whole, 2) == da + db
        && same(whole, TOKEN_KINDS, a, ta, b, 0, tb, 0)
        && same(whole, TOKEN_ENDS, a, ta, b, 0, tb, length)
        && same(whole, EVENTS, a, ea - 1, b, 1, eb, 0)
        && same(whole, MESSAGES, a, da, b, 0, db, 0)
        && same(whole, STARTS, a, da, b, 0, db, length)
        && same(whole, ENDS, a, da, b, 0, db, length);
}

bool joins(enum lending how, struct limits limits, const char *a, const char *b)
{
    char text[256] = "";
    strncat(text, a, 100);
    strncat(text, b, 100);
    struct call first = call_on(how, limits.a, a, ample(strlen(a)));
    struct call second = call_on(how, limits.b, b, ample(strlen(b)));
    bool result = false;
    if (accepted(&first) && accepted(&second)) {
        struct call whole = call_on(how, limits.whole, text, sums(&first, &second));
        result = joined(&whole, &first, &second);
        end_call(&whole);
    }
    end_call(&first);
    end_call(&second);
    return result;
}
