/* A table of the library with the memory that it is lent. */
#ifndef BENCH_OURS_H
#define BENCH_OURS_H

#include "contestant.h"

struct our_table {
    nearby_table header;
    uint32_t references[NEARBY_MOST_CLAIMS];
    int32_t coordinates[NEARBY_MOST_CLAIMS * NEARBY_MOST_COORDINATES];
    uint64_t nodes[NEARBY_MOST_CLAIMS * NEARBY_NODE];
};

/* A table as the first arguments of a call. */
#define OUR_TABLE(t)                                                                                         \
    (t)->header, (t)->references, (t)->header.capacity, (t)->coordinates, (t)->header.capacity * (t)->header.d, \
        (t)->nodes, (t)->header.capacity * NEARBY_NODE

/* Makes a table for the claims of a cell, with none of them in it. */
struct our_table *empty_table(const struct cell *cell);

/* Enters the next so many claims of the cell in one run. */
void enter_more(struct our_table *t, const struct cell *cell, size_t run);

/* Makes a table and enters all claims of a cell in one run. */
void *our_table(const struct cell *cell);

/* Tests a table, which has to be sound. */
void test_soundness(struct our_table *t);

#endif
