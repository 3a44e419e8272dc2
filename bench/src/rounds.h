/* The rounds of a cell: every contestant's turn at every task, by turns, and the medians over the rounds. */
#ifndef BENCH_ROUNDS_H
#define BENCH_ROUNDS_H

#include "contestant.h"

/* The questions are tasks; behind them come entering the claims, the test of a table, and nearest through the call for one question. */
enum { ENTERING = QUESTION_KINDS, TESTING, SINGLE, TASKS };

/* Writes a line of tabs for each task and contestant of a cell to standard output. */
void run_cell(const struct cell *cell, const struct contestant *const *contestants, size_t count, size_t repetitions);

#endif
