#include "long_cases.h"

#include <stdlib.h>
#include <string.h>

#include "rooms.h"

void check_sizes(enum lending how, uint64_t limit)
{
    size_t most = (size_t)MASM_MAX_SOURCE + 1;
    uint8_t *source = malloc(most);
    if (source == NULL)
        exit(2);
    uint32_t kind = MASM_WHITESPACE, end = MASM_MAX_SOURCE;
    uint32_t tree[] = { MASM_SOURCE_FILE, MASM_WHITESPACE, MASM_CLOSE };
    struct full spaces = { .token_kinds = { &kind, 1 }, .token_ends = { &end, 1 },
                           .events = { tree, 3 } };
    struct full refused = { .status = MASM_TOO_LONG };
    memset(source, ' ', most);
    case_name = "1,048,576 spaces";
    check_few_rooms(how, &(struct question){ limit, source, most - 1 }, &spaces);
    case_name = "1,048,577 spaces";
    check_few_rooms(how, &(struct question){ limit, source, most }, &refused);
    memset(source, 0xFF, most);
    case_name = "1,048,577 bytes, not UTF-8";
    check_few_rooms(how, &(struct question){ limit, source, most }, &refused);
    free(source);
}
