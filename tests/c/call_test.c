/* Tests masm_parse_text from C. The word behind the program's name chooses how slices are lent:
   exact, words, end or start; without one all four are tried. */
#include <stdio.h>
#include <string.h>

#include "cases.h"
#include "join.h"
#include "nesting_limits.h"
#include "long_cases.h"
#include "masm_messages.h"
#include "nests.h"
#include "rooms.h"
#include "sizing.h"

static bool is_too_deep(const struct full *full)
{
    for (size_t i = 0; i < full->messages.count; i++)
        if (full->messages.numbers[i] == MASM_NESTING_TOO_DEEP)
            return true;
    return false;
}

/* With all rooms at the case's limit, and with fewer at every larger one, if it reads the same. */
static void check_case(enum lending how, const struct test_case *test)
{
    struct question question = test->question;
    case_name = test->name;
    check_rooms(how, &question, &test->full);
    for (size_t i = 0; i < LIMIT_COUNT && !is_too_deep(&test->full); i++) {
        question.limit = LIMITS[i];
        if (question.limit > test->question.limit)
            check_few_rooms(how, &question, &test->full);
    }
}

/* Nothing but counts may be written, whatever the source and the rooms. */
static void check_bad_limits(enum lending how, const struct test_case *test)
{
    struct question question = test->question;
    case_name = "bad limit";
    for (size_t i = 0; i < BAD_LIMIT_COUNT; i++) {
        question.limit = BAD_LIMITS[i];
        check_rooms(how, &question, &test->full);
    }
}

static void check_sizes_by_call(enum lending how, const struct test_case *test)
{
    case_name = "sizing";
    check_sizing(how, &test->question, &test->full);
}

static void check_cases(enum lending how)
{
    for (size_t i = 0; i < CASE_COUNT; i++) {
        check_case(how, &CASES[i]);
        check_bad_limits(how, &CASES[i]);
        check_sizes_by_call(how, &CASES[i]);
    }
}

/* At one limit the parts and the whole are as demand 3 says. */
static void check_pair(enum lending how, const char *const *pair)
{
    for (size_t i = 0; i < LIMIT_COUNT; i++)
        if (!joins(how, (struct limits){ LIMITS[i], LIMITS[i], LIMITS[i] }, pair[0], pair[1]))
            fail("join");
}

static void check_joins(enum lending how)
{
    static const char *const pairs[][2] = {
        { "proc a ) end\n", "begin ( end # c" }, { "begin add end\n", "" },
        { "const X\nbegin end\n", "# c\n x" },   { "proc a pub end\n", "proc b" },
        { "begin if end end\n", "begin if if" },
    };
    static const struct limits others[] = { { 1, 1, 2 }, { 2, 2, 1 }, { 2, 1, 2 } };
    case_name = "demand 3";
    for (size_t i = 0; i < sizeof pairs / sizeof pairs[0]; i++)
        check_pair(how, pairs[i]);
    if (joins(how, (struct limits){ 1, 1, 1 }, "proc a pub ( end\n", ") proc b end"))
        fail("join: the premise on `)` is not needed");
    for (size_t i = 0; i < sizeof others / sizeof others[0]; i++)
        if (joins(how, others[i], "begin if end end\n", "begin if if"))
            fail("join: the premise on limits is not needed");
}

static void check_all(enum lending how)
{
    check_cases(how);
    check_nests(how);
    check_sizes(how, 1);
    check_sizes(how, MASM_MAX_CONTROL_FLOW_NESTING);
    check_sizes(how, MASM_MAX_CONTROL_FLOW_NESTING + 1);
    check_joins(how);
}

int main(int count, char **words)
{
    watch_access(&case_name);
    if (!check_lendings(count, words, check_all))
        return 2;
    printf("call_test: %u calls, %u failures\n", calls, failures);
    return failures == 0 ? 0 : 1;
}
