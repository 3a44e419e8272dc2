/* The plain scan, for an order, measure and d that the includer may fix: every claim is measured once, in the order of numbers. */
#ifndef BENCH_SCANNING_H
#define BENCH_SCANNING_H

#include "cell.h"

#include <stdlib.h>

/* Inlined at each use, so that a use with a fixed order and measure has a loop of its own for them, as a good scan would. */
#define SCANNING static inline __attribute__((always_inline))

struct scan {
    size_t n, d;
    uint8_t measure;
    const uint32_t *references;
    const int32_t *coordinates;
};

SCANNING uint64_t scan_distance(uint8_t measure, size_t d, const int32_t *a, const int32_t *b)
{
    uint64_t distance = 0;
    for (size_t j = 0; j < d; j++) {
        int64_t difference = (int64_t)a[j] - b[j];
        uint64_t gap = (uint64_t)llabs(difference);
        if (measure == NEARBY_CITY_BLOCK)
            distance += gap;
        else if (measure == NEARBY_MAXIMUM)
            distance = gap > distance ? gap : distance;
        else
            distance += gap != 0;
    }
    return distance;
}

/* Whether distance x comes before distance y in an order. Numbers rise, so of two at equal distances the later claim is behind. */
SCANNING int comes_before(uint8_t order, uint64_t x, uint64_t y)
{
    return order == NEARBY_NEAR ? x < y : x > y;
}

/* The distance that no other comes before. */
SCANNING uint64_t foremost(uint8_t order, uint8_t measure, size_t d)
{
    if (order == NEARBY_NEAR)
        return 0;
    return measure == NEARBY_HAMMING ? d : measure == NEARBY_MAXIMUM ? UINT32_MAX : d * UINT32_MAX;
}

SCANNING void put_item(const struct scan *t, size_t k, uint64_t distance, uint64_t *item)
{
    item[0] = k;
    item[1] = t->references[k];
    item[2] = distance;
}

/* The first claim in an order, none behind `bound`. One compare passes over a claim that is behind the best. */
SCANNING void scan_first_by(const struct scan *t, uint8_t order, uint8_t measure, size_t d, const int32_t *probe, uint64_t bound,
                            uint64_t *row)
{
    size_t best = t->n;
    for (size_t k = 0; k < t->n; k++) {
        uint64_t x = scan_distance(measure, d, &t->coordinates[k * d], probe);
        if (!comes_before(order, bound, x) && (x != bound || best == t->n)) {
            best = k;
            bound = x;
        }
    }
    if (best < t->n) {
        row[0] = 1;
        put_item(t, best, bound, row + 1);
    }
}

/* Puts claim k, at distance x, among the first `at` items in order. */
SCANNING void keep_item(const struct scan *t, uint8_t order, size_t k, uint64_t x, size_t at, uint64_t *items)
{
    for (; at > 0 && comes_before(order, x, items[(at - 1) * NEARBY_ITEM + 2]); at--)
        for (size_t j = 0; j < NEARBY_ITEM; j++)
            items[at * NEARBY_ITEM + j] = items[(at - 1) * NEARBY_ITEM + j];
    put_item(t, k, x, &items[at * NEARBY_ITEM]);
}

/* Whether claim k, at distance x, is behind a place; in far order the start is at the reach. */
SCANNING int comes_after(uint8_t order, uint64_t reach, const uint64_t *place, uint64_t x, size_t k)
{
    if (place[FROM] == 0)
        return order == NEARBY_NEAR || x <= reach;
    return comes_before(order, place[MARK_DISTANCE], x) || (x == place[MARK_DISTANCE] && k > place[MARK_NUMBER]);
}

/* The first `size` claims behind a place, kept in order during one pass. Gives how many are behind the place, counted up to `size` + 1:
 * one more than the page has tells that it is not the last. From there on one compare passes over a claim that is behind the page. */
SCANNING size_t scan_items(const struct scan *t, uint8_t order, uint8_t measure, size_t d, const int32_t *probe, uint64_t reach,
                           const uint64_t *place, size_t snapshot, size_t size, uint64_t *items)
{
    size_t found = 0;
    /* Claims at `bound` may count: within reach in near order, and in both, once the count is full, before the page's last item. */
    uint64_t bound = order == NEARBY_NEAR ? reach : 0;
    for (size_t k = 0; k < snapshot; k++) {
        uint64_t x = scan_distance(measure, d, &t->coordinates[k * d], probe);
        /* The compiler is told that few claims come past here, so that it keeps what all of them need in registers. */
        if (__builtin_expect_with_probability(comes_before(order, bound, x), 1, 0.97))
            continue;
        if (!comes_after(order, reach, place, x, k))
            continue;
        if (found < size) {
            keep_item(t, order, k, x, found++, items);
            continue;
        }
        found = size + 1;
        if (comes_before(order, x, items[(size - 1) * NEARBY_ITEM + 2]))
            keep_item(t, order, k, x, size - 1, items);
        bound = items[(size - 1) * NEARBY_ITEM + 2];
        /* No later claim comes before one of the page, and one is known to follow it. */
        if (bound == foremost(order, measure, d))
            break;
        bound += order == NEARBY_NEAR ? -1 : 1;
    }
    return found;
}

SCANNING void scan_page_by(const struct scan *t, uint8_t measure, size_t d, const int32_t *probe, uint64_t reach,
                           const uint64_t *place, size_t size, uint64_t *outcome, uint64_t *items)
{
    const int from = place[FROM] != 0;
    const size_t snapshot = from ? place[SNAPSHOT] : t->n;
    outcome[0] = outcome[1] = outcome[2] = 0;
    if (snapshot > t->n) {
        outcome[0] = 7;
        return;
    }
    if (from && (place[MARK_NUMBER] >= snapshot || place[MARK_DISTANCE] > reach
                 || scan_distance(measure, d, &t->coordinates[place[MARK_NUMBER] * d], probe) != place[MARK_DISTANCE])) {
        outcome[0] = 8;
        return;
    }
    size_t found;
    if (place[ORDER] == NEARBY_NEAR)
        found = scan_items(t, NEARBY_NEAR, measure, d, probe, reach, place, snapshot, size, items);
    else
        found = scan_items(t, NEARBY_FAR, measure, d, probe, reach, place, snapshot, size, items);
    outcome[1] = found < size ? found : size;
    outcome[2] = found <= size;
}

#endif
