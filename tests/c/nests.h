#ifndef NESTS_H
#define NESTS_H

#include "call.h"

/* At limit n, control-flow nodes of each form, and of all by turns, n and n + 1 deep: with their
   `end`s, and cut off behind the innermost header. Those n deep at larger limits too. n is each of
   LIMITS and, by turns with their `end`s, every limit. */
void check_nests(enum lending how);

#endif
