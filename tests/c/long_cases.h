#ifndef LONG_CASES_H
#define LONG_CASES_H

#include "call.h"

/* Spaces up to the longest source, one more, and one more of bytes that are no UTF-8. */
void check_sizes(enum lending how, uint64_t limit);

#endif
