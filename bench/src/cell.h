/* A cell of the grid: a table's claims, and the questions about them that every contestant answers. */
#ifndef BENCH_CELL_H
#define BENCH_CELL_H

#include "nearby.h"

/* Questions in a batch. A cell holds the same batch twice, so that the time of both less the time of one is what these questions
 * cost without what a call costs. */
enum { QUESTIONS = 512, ALL_QUESTIONS = 2 * QUESTIONS };

/* The kinds of question, pages first. */
enum question {
    FIRST_PAGE, FIFTH_PAGE, FAR_FIRST_PAGE, FAR_FIFTH_PAGE, PAGE_KINDS,
    NEAREST = PAGE_KINDS, FARTHEST, OFFICE, QUESTION_KINDS
};

/* Numbers in a row: of what nearest and farthest find, of a page's outcome, of a page's items. */
enum { FOUND = 4, OUTCOME = 3, ITEMS = NEARBY_MOST_PAGE * NEARBY_ITEM };

/* Where the numbers of a place stand in its row, which has NEARBY_PLACE. */
enum { ORDER, FROM, SNAPSHOT, MARK_DISTANCE, MARK_NUMBER };

/* CODES are such as those of damage: each coordinate one of eight letters, by any measure. */
enum spread { UNIFORM, CLUSTERED, SORTED, MILLION, CODES };

enum { TABLE_NUMBER = 7 };

struct cell {
    size_t n, d;
    uint8_t measure;
    enum spread spread;
    uint32_t references[NEARBY_MOST_CLAIMS];
    int32_t coordinates[NEARBY_MOST_CLAIMS * NEARBY_MOST_COORDINATES];
    int32_t probes[ALL_QUESTIONS * NEARBY_MOST_COORDINATES];
    uint64_t reaches[ALL_QUESTIONS];
    /* The places of first pages, all at the start, and of fifth pages, behind the last item of the fourth. */
    uint64_t places[PAGE_KINDS][ALL_QUESTIONS * NEARBY_PLACE];
    /* Ask lines, the kinds of page by turns, each of `ask_length` characters. */
    uint8_t asks[ALL_QUESTIONS * NEARBY_ASK_LINE];
    size_t ask_length;
};

/* Fills a cell. The same arguments give the same cell on every machine. */
void make_cell(struct cell *cell, size_t n, size_t d, uint8_t measure, enum spread spread);

#endif
