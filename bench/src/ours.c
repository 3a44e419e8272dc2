/* The library, through its calls for many questions, which test the table once a call. */
#include "ours.h"

#include <stdlib.h>

struct our_table *empty_table(const struct cell *cell)
{
    struct our_table *t = need(sizeof *t);
    nearby_tabled made = nearby_make_table(TABLE_NUMBER, cell->measure, cell->d, cell->n, t->references, cell->n, t->coordinates,
                                           cell->n * cell->d, t->nodes, cell->n * NEARBY_NODE);
    if (made.refusal != 0)
        refused("nearby_make_table", made.refusal);
    t->header = made.table;
    return t;
}

void enter_more(struct our_table *t, const struct cell *cell, size_t run)
{
    const size_t at = t->header.count;
    nearby_tabled made = nearby_enter(OUR_TABLE(t), &cell->references[at], run, &cell->coordinates[at * cell->d], run * cell->d);
    if (made.refusal != 0)
        refused("nearby_enter", made.refusal);
    t->header = made.table;
}

void *our_table(const struct cell *cell)
{
    struct our_table *t = empty_table(cell);
    enter_more(t, cell, cell->n);
    return t;
}

void test_soundness(struct our_table *t)
{
    uint8_t refusal = nearby_test_table(OUR_TABLE(t));
    if (refusal != 0)
        refused("nearby_test_table", refusal);
}

static void many_answers(struct our_table *t, const struct cell *cell, size_t count, struct answers *answers)
{
    nearby_answered done = nearby_many_answers(OUR_TABLE(t), cell->asks, count * cell->ask_length, answers->outcomes, 2 * count,
                                               answers->lines, sizeof answers->lines);
    if (done.refusal != 0 || done.lines != count)
        fail("nearby_many_answers: refusal %u after %zu of %zu lines", done.refusal, done.lines, count);
    answers->lines_length = done.written;
}

static void ask(void *table, const struct cell *cell, enum question question, size_t count, struct answers *answers)
{
    struct our_table *t = table;
    const size_t coordinates = count * cell->d;
    uint8_t refusal = 0;
    switch (question) {
    case NEAREST:
        refusal = nearby_many_nearest(OUR_TABLE(t), cell->probes, coordinates, cell->reaches, count, answers->found, count * FOUND);
        break;
    case FARTHEST:
        refusal = nearby_many_farthest(OUR_TABLE(t), cell->probes, coordinates, count, answers->found, count * FOUND);
        break;
    case OFFICE:
        many_answers(t, cell, count, answers);
        break;
    default:
        refusal = nearby_many_pages(OUR_TABLE(t), cell->probes, coordinates, cell->reaches, count, cell->places[question],
                                    count * NEARBY_PLACE, NEARBY_MOST_PAGE, answers->outcomes, count * OUTCOME, answers->items,
                                    count * ITEMS);
    }
    if (refusal != 0)
        refused("a call for many questions", refusal);
}

static int can(const struct cell *cell, enum question question)
{
    (void)cell;
    (void)question;
    return 1;
}

const struct contestant ours = { "ours", 1, can, our_table, free, ask };
