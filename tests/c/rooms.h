#ifndef ROOMS_H
#define ROOMS_H

#include "call.h"

/* A source with each slice at every length of interest, and with all slices exact or empty. */
void check_rooms(enum lending how, const struct question *question, const struct full *full);

/* The same with fewer lengths. */
void check_few_rooms(enum lending how, const struct question *question, const struct full *full);

#endif
