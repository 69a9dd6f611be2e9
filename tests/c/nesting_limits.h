#ifndef NESTING_LIMITS_H
#define NESTING_LIMITS_H

#include <stddef.h>
#include <stdint.h>

/* Limits to read at, in rising order, and limits to refuse. */
static const uint64_t LIMITS[] = { 1, 2, 3, 64, 255, 256 };
static const uint64_t BAD_LIMITS[] = { 0, 257, 65536 + 5, (UINT64_C(1) << 32) + 5, UINT64_MAX };
enum {
    LIMIT_COUNT = sizeof LIMITS / sizeof *LIMITS,
    BAD_LIMIT_COUNT = sizeof BAD_LIMITS / sizeof *BAD_LIMITS
};

#endif
