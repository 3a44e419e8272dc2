/* The words of a command line that say which cell is meant. */
#ifndef BENCH_WORDS_H
#define BENCH_WORDS_H

#include "cell.h"

/* Where a word stands among others; the run ends where it does not. */
size_t place_of(const char *word, const char *const *words, size_t count);

/* A cell of 4,096 claims. Measure: 'city block', maximum or Hamming. Coordinates: full (all 32 bits), million (0 to 1,000,000), codes
 * (one of eight letters), or short, which is full with reaches that a tenth of the claims are within, in the plane. */
void make_named_cell(struct cell *cell, const char *measure, const char *d, const char *coordinates);

#endif
