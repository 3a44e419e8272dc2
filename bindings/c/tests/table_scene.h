/* What the calls on a table take, all of it in order for the marked examples' table, and what may be wrong with it. */
#ifndef TABLE_SCENE_H
#define TABLE_SCENE_H

#include "stores.h"

/* The calls for many ask so many questions. Rooms are long enough for a page size that is one too large. */
enum { ASKED = 3, LARGE_SIZE = NEARBY_MOST_PAGE + 1, LONGEST_RUN = 6 };

/* The kind of line that comes in as an ask. */
typedef enum { AN_ASK_LINE, A_CLAIM_LINE, AN_ANSWER_LINE } line_kind;

/* `order` and `start` are those of the page, of the second of many pages, and of the ask line; that line is also the last of many. */
typedef struct {
    store s;
    uint32_t given[LONGEST_RUN];
    size_t given_length, run_length, probe_length, probes_length, starts_length;
    uint8_t order;
    nearby_start start;
    uint64_t reach;
    size_t size, room_length, rows_length, outcomes_length, items_length;
    uint32_t asked_table;
    uint8_t asked_measure, asked_d;
    line_kind kind;
    const char *line_end;
    size_t out_length, answers_length;
} scene;

/* Table 7 with five claims, and the page of 2 after claim 4 in an order. */
scene set_scene(seeded *from, uint8_t order);

typedef enum {
    NO_FAULT,
    /* the table */
    MEASURE_0, CAPACITY_OVER_THE_MEMORY, NODE_NUMBER_CHANGED, COUNT_OVER_CAPACITY, ALL_NODES_IN_USE,
    /* the run, and lengths that go with d or with the number of questions */
    COORDINATE_TOO_MANY, COORDINATE_MISSING, START_NUMBER_MISSING, RUN_OVER_CAPACITY, REFERENCE_OF_CLAIM_2, REFERENCE_TWICE,
    /* the page */
    SIZE_0, SIZE_17, SNAPSHOT_4, SNAPSHOT_6, MARK_NUMBER_5, MARK_NUMBER_6, MARK_DISTANCE_WRONG, MARK_OVER_REACH,
    /* the rooms that are written */
    ROOM_SHORT, OUTCOMES_SHORT, OUTPUT_SHORT,
    /* the ask line */
    NO_LINE_END, ODD_DIGITS, A_CLAIM, AN_ANSWER, TABLE_8, MEASURE_2, D_2,
} fault;

void put_fault(scene *c, fault f);

/* Calls through try_*, and gives the call's refusal; where it has none, that of the row with the place or the line in question. */
uint8_t call_scene(call which, scene *c);

#endif
