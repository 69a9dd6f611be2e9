#ifndef SIZING_H
#define SIZING_H

#include "call.h"

/* The slices sized by what the call returns, as masm_cst.h says: 3 tells the tokens, 5 the events
   and diagnostics, and a third call has room for exactly all of them. */
void check_sizing(enum lending how, const struct question *question, const struct full *full);

#endif
