/* Faults that the tests put behind a call, to see that they are found. */
#ifndef SPOIL_H
#define SPOIL_H

#include "lend.h"

/* Changes a byte of a slice, counted from its start or, if negative, from its end. */
void spoil(struct lent *lent, ptrdiff_t at);

/* Whether the fault is a name of a slice and a place in or beside it, which is spoilt then. */
bool spoil_slice(struct lent *slices, const char *const *names, size_t count, const char *fault);

void read_behind(const struct lent *lent);

#endif
