/* The plain scan: straightforward C, compiled with -O2, for any measure and d. It is what every other answer is checked against. */
#ifndef BENCH_SCAN_H
#define BENCH_SCAN_H

#include "contestant.h"

/* One page of a table that plain_scan.enter made, as nearby_page gives it; `outcome` has refusal, count, last. */
void scan_page(const void *table, const int32_t *probe, uint64_t reach, const uint64_t *place, size_t size,
               uint64_t *outcome, uint64_t *items);

#endif
