#include "sizing.h"

/* A count that the call gave, as a room; 0 where it is more than suffices for any source. */
static size_t room_from(const struct call *call, size_t index, size_t most)
{
    uint64_t count = count_of(call, index);
    if (count <= most)
        return count;
    fail("sizing: more than suffices");
    return 0;
}

/* Makes the call with these rooms and sets those that it says are too short; its status. */
static uint64_t size_by_call(enum lending how, const struct question *question, struct rooms *rooms)
{
    struct call call = make_call(how, question, *rooms);
    size_t *room = rooms->length, length = question->length;
    if (call.status == MASM_TOKEN_SHORT)
        room[TOKEN_KINDS] = room[TOKEN_ENDS] = room_from(&call, 0, MASM_TOKEN_ROOM(length));
    if (call.status == MASM_OUTPUT_SHORT) {
        room[EVENTS] = room_from(&call, 1, MASM_EVENT_ROOM(length));
        room[MESSAGES] = room[STARTS] = room[ENDS] =
            room_from(&call, 2, MASM_DIAGNOSTIC_ROOM(length));
    }
    uint64_t status = call.status;
    end_call(&call);
    return status;
}

/* 3 where there is a token, 5 where it is accepted, and then what it is with room enough. */
static bool statuses_hold(const uint64_t *statuses, size_t count, const struct full *full)
{
    size_t at = 0;
    bool holds = true;
    if (full->token_kinds.count > 0)
        holds = holds && at < count && statuses[at++] == MASM_TOKEN_SHORT;
    if (full->status == MASM_ACCEPTED)
        holds = holds && at < count && statuses[at++] == MASM_OUTPUT_SHORT;
    return holds && at + 1 == count && statuses[at] == full->status;
}

void check_sizing(enum lending how, const struct question *question, const struct full *full)
{
    struct rooms rooms = { .length = { [COUNTS] = MASM_COUNTS } };
    uint64_t statuses[3] = { MASM_TOKEN_SHORT };
    size_t count = 0;
    bool sized = false;
    while (!sized && count < 3) {
        statuses[count] = size_by_call(how, question, &rooms);
        sized = statuses[count] != MASM_TOKEN_SHORT && statuses[count] != MASM_OUTPUT_SHORT;
        count++;
    }
    if (!statuses_hold(statuses, count, full))
        fail("sizing: statuses");
    for (int i = 0; i < COUNTS; i++)
        if (full->status == MASM_ACCEPTED && rooms.length[i] != list_of(full, i).count)
            fail("sizing: a room is not exact");
}
