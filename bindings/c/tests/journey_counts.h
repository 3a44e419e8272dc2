/* What happened on the journeys so far, and how much has to: journeys on which nothing happens would find nothing. */
#ifndef JOURNEY_COUNTS_H
#define JOURNEY_COUNTS_H

#include "try.h"

typedef enum {
    JOURNEYS, RUNS, CLAIMS, OPENED, OF_OTHER_TABLES, LIKE_ANOTHER, ASKS, ANSWERS, CHARACTERS, LOST, REPEATED, OVERTAKEN, DAMAGED,
    CARRIED_OVER, TAKEN, OF_THE_OTHER_ORDER, FULL_AND_LAST, COMPLETED, ITEMS, SNAPSHOTS, COMPARISONS, MISSED, OVERDUE, DIFFERENCES,
    EVENTS
} event;

/* An event of a list or a line is counted by its order, any other without one. */
void count_event(event what, size_t times);
void count_in(uint8_t order, event what, size_t times);

/* What a call gave: a refusal, or 0. */
void count_call(call which, uint8_t refusal);

/* Counts a line as refused, or as written in an order, with its characters. */
void count_line(call which, nearby_written line, uint8_t order, event written);

/* Everything happened often enough, in each order where it has one, every list of the office's table was completed, no complete list
 * missed a claim, none that had them all was not complete, and no list was other than it has to be. */
void check_counts(void);

#endif
