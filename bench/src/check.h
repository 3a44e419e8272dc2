/* Whether answers are right: against the plain scan's. */
#ifndef BENCH_CHECK_H
#define BENCH_CHECK_H

#include "contestant.h"

/* Ends the run where one of the first `count` answers of a kind is wrong. Whole items and lines are compared where a contestant has the
 * paper's order of ties; otherwise distances are, and each item must be a claim at the distance that it names. */
void check_answers(const struct contestant *who, const struct cell *cell, enum question question, size_t count,
                   const struct answers *given, const struct answers *right);

#endif
