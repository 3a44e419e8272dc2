/* The plain scan compiled for city block in the plane alone: the least that a scan in plain C does there. */
#include "plane_scan.h"

#include "scanning.h"

#include <stdlib.h>

static void ask(void *table, const struct cell *cell, enum question question, size_t count, struct answers *answers)
{
    for (size_t i = 0; i < count; i++) {
        const int32_t *probe = &cell->probes[i * 2];
        uint64_t *row = &answers->found[i * FOUND];
        if (question == NEAREST)
            scan_first_by(table, NEARBY_NEAR, NEARBY_CITY_BLOCK, 2, probe, cell->reaches[i], row);
        else if (question == FARTHEST)
            scan_first_by(table, NEARBY_FAR, NEARBY_CITY_BLOCK, 2, probe, 0, row);
        else
            scan_page_by(table, NEARBY_CITY_BLOCK, 2, probe, cell->reaches[i], &cell->places[question][i * NEARBY_PLACE],
                         NEARBY_MOST_PAGE, &answers->outcomes[i * OUTCOME], &answers->items[i * ITEMS]);
    }
}

static int can(const struct cell *cell, enum question question)
{
    return cell->measure == NEARBY_CITY_BLOCK && cell->d == 2 && question != OFFICE;
}

static void *enter(const struct cell *cell)
{
    return plain_scan.enter(cell);
}

const struct contestant plane_scan = { "plane scan", 1, can, enter, free, ask };
