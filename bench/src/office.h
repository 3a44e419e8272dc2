/* An office over a scan: ask lines in, answer lines out, with every check that the library's office makes of a line. */
#ifndef BENCH_OFFICE_H
#define BENCH_OFFICE_H

#include "contestant.h"

typedef void page_function(const void *table, const int32_t *probe, uint64_t reach, const uint64_t *place, size_t size,
                           uint64_t *outcome, uint64_t *items);

/* Writes the ask line of question i of a cell, for a page of NEARBY_MOST_PAGE from a place on. Gives its length. */
size_t write_ask(const struct cell *cell, size_t i, const uint64_t *place, uint8_t *out);

/* Answers the first `count` ask lines of a cell, as nearby_many_answers does: a row of refusal and length for each, and the lines. */
void answer_asks(page_function *page, const void *table, const struct cell *cell, size_t count, struct answers *answers);

#endif
