/* Counts of valgrind's callgrind around pieces of a program, which alone it then counts. Outside of valgrind these do nothing. */
#ifndef BENCH_COUNTING_H
#define BENCH_COUNTING_H

#include <stddef.h>

/* From here on callgrind can count, and the program is slow: what comes before is prepared without it. */
void start_counting(void);

void begin_piece(void);

/* Ends a piece. It is written down under its name, with how many times the piece did what the name says. */
void end_piece(const char *name, size_t times);

#endif
