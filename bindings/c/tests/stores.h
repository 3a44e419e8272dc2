/* Generated tables in memory that ends where readable memory ends. */
#ifndef STORES_H
#define STORES_H

#include "try.h"

/* How claims lie: close together with many ties, anywhere, all at one place, or at the ends of the coordinates' range. */
typedef enum { TIED, ANYWHERE, ALIKE, AT_THE_ENDS, STYLES } style;

void put_coordinates(seeded *from, style how, int32_t *out, size_t length);

/* Memory for a table, filled with any numbers, longer than needed by so many elements; its header is all 0. */
store lend_store(seeded *from, size_t d, size_t capacity, size_t longer);
void free_store(store *s);

/* The reference that a generated table's claim of some number gets: it looks like any other number, and no two of a table are alike. */
uint32_t reference_of(const nearby_table *t, size_t claim);

/* A table of n claims, entered in runs of any length. */
store full_store(seeded *from, uint8_t measure, size_t d, size_t capacity, size_t n, style how);

/* Enters one run of n claims; whether it was entered, which is a test's failure where it was not. */
bool enter_run(seeded *from, store *s, size_t n, style how);

/* The table of examples a to j: claims at 2, 3, 9, 6 and 5, d = 1 and measure 1, number 7, references 0x65 and on. */
store marked_store(seeded *from, size_t capacity);

/* A reach that lets through none, some or all of a table's claims. */
uint64_t any_reach(seeded *from, const store *s, const int32_t *probe);

/* An order as a flag: near as often as far, and far as any number but 0. */
uint8_t any_order(seeded *from);

/* An order and a place as NEARBY_PLACE numbers: the start, or a mark, right or nearly so. */
void put_place(seeded *from, const store *s, const int32_t *probe, uint64_t *out);

#endif
