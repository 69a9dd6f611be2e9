#include "rooms.h"

/* What a slice must hold at least, and some more for each. */
static struct rooms rooms_for(const struct full *full, size_t more)
{
    struct rooms rooms;
    for (int i = 0; i < COUNTS; i++)
        rooms.length[i] = list_of(full, i).count + more;
    rooms.length[COUNTS] = MASM_COUNTS + more;
    return rooms;
}

static size_t one_less(size_t need)
{
    return need > 0 ? need - 1 : 0;
}

void check_few_rooms(enum lending how, const struct question *question, const struct full *full)
{
    struct rooms none = { { 0 } }, three = none;
    three.length[COUNTS] = MASM_COUNTS;
    check_call(how, question, rooms_for(full, 5), full);
    check_call(how, question, rooms_for(full, 0), full);
    check_call(how, question, three, full);
    check_call(how, question, none, full);
}

void check_rooms(enum lending how, const struct question *question, const struct full *full)
{
    check_few_rooms(how, question, full);
    for (int i = 0; i < SLICES; i++) {
        struct rooms rooms = rooms_for(full, 5);
        size_t need = rooms.length[i] - 5;
        const size_t lengths[] = { 0, 1, 2, one_less(need), need };
        for (size_t j = 0; j < sizeof lengths / sizeof lengths[0]; j++) {
            rooms.length[i] = lengths[j];
            check_call(how, question, rooms, full);
        }
    }
}
