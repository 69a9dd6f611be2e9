#ifndef JOIN_H
#define JOIN_H

#include "lend.h"

/* Limits of the calls on A, on B and on their join. */
struct limits {
    uint64_t a, b, whole;
};

/* Whether the three calls are as demand 3 says. */
bool joins(enum lending how, struct limits limits, const char *a, const char *b);

#endif
