/* One call on lent slices, and document 01's table as a check of what it left. */
#ifndef CALL_H
#define CALL_H

#include "lend.h"
#include "masm_cst.h"

/* Numbers that a slice must hold. */
struct list {
    const uint32_t *numbers;
    size_t count;
};

/* What a call reads, and at which limit. */
struct question {
    uint64_t limit;
    const uint8_t *source;
    size_t length;
};

/* What a source must give with room enough, at a limit that is none to refuse. */
struct full {
    uint64_t status; /* 0, 1, 2 or 4 */
    uint64_t offset; /* for 2 and 4 */
    uint64_t second; /* for 2 */
    struct list token_kinds, token_ends, events, messages, starts, ends;
};

/* The slices in the order of the call, the source apart. */
enum slice { TOKEN_KINDS, TOKEN_ENDS, EVENTS, MESSAGES, STARTS, ENDS, COUNTS, SLICES };

struct rooms {
    size_t length[SLICES];
};

struct call {
    uint64_t limit;
    struct lent source;
    struct lent slices[SLICES];
    struct rooms rooms;
    uint64_t status;
};

/* For the reports: which case runs, and how many calls and failures there were. */
extern const char *case_name;
extern unsigned calls, failures;

void fail(const char *what);
struct call make_call(enum lending how, const struct question *question, struct rooms rooms);
void end_call(struct call *call);
uint32_t entry(const struct call *call, enum slice slice, size_t index);
uint64_t count_of(const struct call *call, size_t index);
void check_call(enum lending how, const struct question *question, struct rooms rooms,
                const struct full *full);
struct list list_of(const struct full *full, enum slice slice);

/* The most nodes that are open together in events. */
size_t most_open(struct list events);

/* faults.c: the call, and behind it the fault that MASM_FAULT names. */
uint64_t faulty_call(struct call *call);

#endif
