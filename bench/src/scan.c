#include "scan.h"

#include "office.h"
#include "scanning.h"

#include <stdlib.h>
#include <string.h>

static void *enter(const struct cell *cell)
{
    size_t references = cell->n * sizeof *cell->references;
    size_t coordinates = cell->n * cell->d * sizeof *cell->coordinates;
    struct scan *t = need(sizeof *t + coordinates + references);
    int32_t *points = (int32_t *)(t + 1);
    uint32_t *given = (uint32_t *)(points + cell->n * cell->d);
    memcpy(points, cell->coordinates, coordinates);
    memcpy(given, cell->references, references);
    *t = (struct scan){ cell->n, cell->d, cell->measure, given, points };
    return t;
}

SCANNING void scan_first(const struct scan *t, uint8_t order, const int32_t *probe, uint64_t bound, uint64_t *row)
{
    switch (t->measure) {
    case NEARBY_CITY_BLOCK: scan_first_by(t, order, NEARBY_CITY_BLOCK, t->d, probe, bound, row); break;
    case NEARBY_MAXIMUM: scan_first_by(t, order, NEARBY_MAXIMUM, t->d, probe, bound, row); break;
    default: scan_first_by(t, order, NEARBY_HAMMING, t->d, probe, bound, row);
    }
}

void scan_page(const void *table, const int32_t *probe, uint64_t reach, const uint64_t *place, size_t size,
               uint64_t *outcome, uint64_t *items)
{
    const struct scan *t = table;
    switch (t->measure) {
    case NEARBY_CITY_BLOCK: scan_page_by(t, NEARBY_CITY_BLOCK, t->d, probe, reach, place, size, outcome, items); break;
    case NEARBY_MAXIMUM: scan_page_by(t, NEARBY_MAXIMUM, t->d, probe, reach, place, size, outcome, items); break;
    default: scan_page_by(t, NEARBY_HAMMING, t->d, probe, reach, place, size, outcome, items);
    }
}

static void ask(void *table, const struct cell *cell, enum question question, size_t count, struct answers *answers)
{
    if (question == OFFICE) {
        answer_asks(scan_page, table, cell, count, answers);
        return;
    }
    for (size_t i = 0; i < count; i++) {
        const int32_t *probe = &cell->probes[i * cell->d];
        if (question == NEAREST)
            scan_first(table, NEARBY_NEAR, probe, cell->reaches[i], &answers->found[i * FOUND]);
        else if (question == FARTHEST)
            scan_first(table, NEARBY_FAR, probe, 0, &answers->found[i * FOUND]);
        else
            scan_page(table, probe, cell->reaches[i], &cell->places[question][i * NEARBY_PLACE], NEARBY_MOST_PAGE,
                      &answers->outcomes[i * OUTCOME], &answers->items[i * ITEMS]);
    }
}

static int can(const struct cell *cell, enum question question)
{
    (void)cell;
    (void)question;
    return 1;
}

const struct contestant plain_scan = { "plain scan", 1, can, enter, free, ask };
