/* Registers of size 1,000 that ask for the most: reach goes from each early place to the last one,
 * and all but the chain have 12,000 entries. */
#ifndef REGISTERS_H
#define REGISTERS_H

#include "lent.h"

/* Each lays one register, with every list lent in full.
 *
 *   CHAIN       Column t has the rows t - 1 and t. The order is t:t.
 *   BAND        Column t has the twelve rows up to t, and late columns thirteen. The order is t:t.
 *   SCATTERED   The chain with entries anywhere above it, rows and columns in shuffled order.
 *   SPREAD      Seven rows far apart in every column and the rest as in the band: far gaps take two
 *               bytes each, so this has the longest sheet of the four. */
struct pattern {
    const char *name;
    void (*lay)(struct lent *lent);
};

enum { CHAIN, BAND, SCATTERED, SPREAD, PATTERN_COUNT };
extern const struct pattern PATTERNS[PATTERN_COUNT];

#endif
