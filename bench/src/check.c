#include "check.h"

#include "scanning.h"

#include <string.h>

struct checked {
    const struct contestant *who;
    const struct cell *cell;
};

static const char *const kinds[QUESTION_KINDS] = { "first page", "fifth page", "far first page", "far fifth page", "nearest",
                                                   "farthest", "office line" };

static void wrong(const struct checked *c, enum question question, size_t i, const char *what)
{
    fail("%s, %s, question %zu: %s differs from the scan's (n %zu, d %zu, measure %u, spread %d)", c->who->name, kinds[question], i,
         what, c->cell->n, c->cell->d, c->cell->measure, c->cell->spread);
}

/* Whether an item (number, reference, distance) is as good as the right one. */
static int item_holds(const struct checked *c, size_t i, const uint64_t *item, const uint64_t *right)
{
    const struct cell *cell = c->cell;
    if (c->who->ties_by_number)
        return memcmp(item, right, NEARBY_ITEM * sizeof *item) == 0;
    return item[2] == right[2] && item[0] < cell->n && item[1] == cell->references[item[0]]
        && item[2] == scan_distance(cell->measure, cell->d, &cell->coordinates[item[0] * cell->d], &cell->probes[i * cell->d]);
}

static void check_found(const struct checked *c, enum question question, size_t i, const uint64_t *row, const uint64_t *right)
{
    if (row[0] != right[0] || !item_holds(c, i, row + 1, right + 1))
        wrong(c, question, i, "what was found");
}

static void check_page(const struct checked *c, enum question question, size_t i, const struct answers *given,
                       const struct answers *right)
{
    const uint64_t *outcome = &right->outcomes[i * OUTCOME];
    if (memcmp(&given->outcomes[i * OUTCOME], outcome, OUTCOME * sizeof *outcome) != 0)
        wrong(c, question, i, "the outcome");
    for (size_t at = i * ITEMS; at < i * ITEMS + outcome[1] * NEARBY_ITEM; at += NEARBY_ITEM)
        if (!item_holds(c, i, &given->items[at], &right->items[at]))
            wrong(c, question, i, "an item");
}

static void check_lines(const struct checked *c, size_t count, const struct answers *given, const struct answers *right)
{
    size_t length = 0;
    for (size_t i = 0; i < count; i++) {
        const uint64_t *row = &right->outcomes[2 * i];
        if (memcmp(&given->outcomes[2 * i], row, 2 * sizeof *row) != 0 || row[0] != 0)
            wrong(c, OFFICE, i, "the outcome");
        if (memcmp(&given->lines[length], &right->lines[length], row[1]) != 0)
            wrong(c, OFFICE, i, "the line");
        length += row[1];
    }
    if (given->lines_length != length)
        wrong(c, OFFICE, count, "the length of all lines");
}

void check_answers(const struct contestant *who, const struct cell *cell, enum question question, size_t count,
                   const struct answers *given, const struct answers *right)
{
    const struct checked c = { who, cell };
    if (question == OFFICE) {
        check_lines(&c, count, given, right);
        return;
    }
    for (size_t i = 0; i < count; i++) {
        if (question < PAGE_KINDS)
            check_page(&c, question, i, given, right);
        else
            check_found(&c, question, i, &given->found[i * FOUND], &right->found[i * FOUND]);
    }
}
