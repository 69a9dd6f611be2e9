#ifndef CASES_H
#define CASES_H

#include "call.h"

/* With `full` at its limit and, without the depth diagnostic, at every larger one. */
struct test_case {
    const char *name;
    struct question question;
    struct full full;
};

extern const struct test_case CASES[];
extern const size_t CASE_COUNT;

#endif
