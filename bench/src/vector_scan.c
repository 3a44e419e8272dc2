/* A scan that the compiler vectorizes: -O3 for the machine at hand, a column for each coordinate, no branch in the loops over claims.
 * A claim's distance and number are one number, its key, so that the least key is that of the first claim in order; in far order the
 * distance in a key is turned round. */
#include "office.h"

#include <stdlib.h>
#include <string.h>

/* Claims are taken a block at a time: its keys stay in the nearest cache, and the loops have a fixed length. */
enum { BLOCK = 64, NUMBER_BITS = 12, NUMBERS = 1 << NUMBER_BITS };

/* Greater than every key. Keys are signed, since more machines compare these in vectors. */
#define NONE INT64_MAX

/* No distance is greater. All its bits are set, so that x ^ MOST is MOST - x. */
#define MOST ((UINT64_C(1) << 36) - 1)

/* Inlined at each use, so that a use with a fixed order has a loop of its own for it. */
#define FIXED static inline __attribute__((always_inline))

struct columns {
    size_t n, d, stride;
    uint8_t measure;
    const uint32_t *references;
    const int32_t *coordinates;
};

static void *enter(const struct cell *cell)
{
    size_t stride = (cell->n + BLOCK - 1) / BLOCK * BLOCK;
    struct columns *t = need(sizeof *t + stride * cell->d * sizeof(int32_t) + cell->n * sizeof(uint32_t));
    int32_t *columns = (int32_t *)(t + 1);
    uint32_t *references = (uint32_t *)(columns + stride * cell->d);
    for (size_t j = 0; j < cell->d; j++) {
        for (size_t k = 0; k < cell->n; k++)
            columns[j * stride + k] = cell->coordinates[k * cell->d + j];
        memset(&columns[j * stride + cell->n], 0, (stride - cell->n) * sizeof *columns);
    }
    memcpy(references, cell->references, cell->n * sizeof *references);
    *t = (struct columns){ cell->n, cell->d, stride, cell->measure, references, columns };
    return t;
}

static inline uint32_t gap(int32_t a, int32_t b)
{
    return a > b ? (uint32_t)a - (uint32_t)b : (uint32_t)b - (uint32_t)a;
}

static void add_gaps(const int32_t *column, int32_t place, uint64_t *restrict x)
{
    for (size_t k = 0; k < BLOCK; k++)
        x[k] += gap(column[k], place);
}

static void widen_gaps(const int32_t *column, int32_t place, uint64_t *restrict x)
{
    for (size_t k = 0; k < BLOCK; k++) {
        uint64_t y = gap(column[k], place);
        x[k] = x[k] > y ? x[k] : y;
    }
}

static void count_gaps(const int32_t *column, int32_t place, uint64_t *restrict x)
{
    for (size_t k = 0; k < BLOCK; k++)
        x[k] += column[k] != place;
}

static void block_distances(const struct columns *t, size_t from, const int32_t *probe, uint64_t *restrict x)
{
    memset(x, 0, BLOCK * sizeof *x);
    for (size_t j = 0; j < t->d; j++) {
        const int32_t *column = &t->coordinates[j * t->stride + from];
        if (t->measure == NEARBY_CITY_BLOCK)
            add_gaps(column, probe[j], x);
        else if (t->measure == NEARBY_MAXIMUM)
            widen_gaps(column, probe[j], x);
        else
            count_gaps(column, probe[j], x);
    }
}

/* What a question admits: claims with numbers below the snapshot and keys from `least` to `most`. A key has the distance ^ `turn`. */
struct admitted {
    uint64_t turn;
    int64_t snapshot, least, most;
};

FIXED int64_t key_of(uint64_t turn, uint64_t distance, uint64_t number)
{
    return (int64_t)((distance ^ turn) << NUMBER_BITS | number);
}

/* What an order admits within reach: the reach ends the keys in near order, and begins them in far order. */
FIXED struct admitted within(uint64_t order, uint64_t reach, size_t snapshot)
{
    const uint64_t edge = reach < MOST ? reach : MOST;
    if (order == NEARBY_NEAR)
        return (struct admitted){ 0, (int64_t)snapshot, 0, key_of(0, edge, NUMBERS - 1) };
    return (struct admitted){ MOST, (int64_t)snapshot, key_of(MOST, edge, 0), NONE };
}

/* The keys of a block's claims, NONE for those that are not admitted. Gives the least. */
FIXED int64_t block_keys(const struct columns *t, size_t from, const int32_t *probe, struct admitted a, int64_t *restrict keys)
{
    uint64_t x[BLOCK];
    int64_t first = NONE;
    block_distances(t, from, probe, x);
    for (int64_t k = 0; k < BLOCK; k++) {
        int64_t number = (int64_t)from + k, key = key_of(a.turn, x[k], (uint64_t)number);
        int out = (number >= a.snapshot) | (key < a.least) | (key > a.most);
        keys[k] = out ? NONE : key;
    }
    for (size_t k = 0; k < BLOCK; k++)
        first = keys[k] < first ? keys[k] : first;
    return first;
}

static void put_item(const struct columns *t, uint64_t turn, int64_t key, uint64_t *item)
{
    item[0] = (uint64_t)(key % NUMBERS);
    item[1] = t->references[key % NUMBERS];
    item[2] = (uint64_t)(key >> NUMBER_BITS) ^ turn;
}

FIXED void find_first(const struct columns *t, const int32_t *probe, struct admitted a, uint64_t *row)
{
    int64_t keys[BLOCK], best = NONE;
    for (size_t from = 0; from < t->n; from += BLOCK) {
        int64_t first = block_keys(t, from, probe, a, keys);
        best = first < best ? first : best;
    }
    if (best != NONE) {
        row[0] = 1;
        put_item(t, a.turn, best, row + 1);
    }
}

static void nearest(const struct columns *t, const int32_t *probe, uint64_t reach, uint64_t *row)
{
    find_first(t, probe, within(NEARBY_NEAR, reach, t->n), row);
}

static void farthest(const struct columns *t, const int32_t *probe, uint64_t *row)
{
    find_first(t, probe, within(NEARBY_FAR, UINT64_MAX, t->n), row);
}

/* The least keys so far, in order, and how many there were, counted up to `size` + 1: one more than the page has tells that it is not
 * the last. From there on keys from `out` on are out of the page. */
struct kept {
    int64_t keys[NEARBY_MOST_PAGE], out;
    size_t found, size;
};

/* Puts a key among the first `at` in order. */
static void put_key(struct kept *kept, size_t at, int64_t key)
{
    for (; at > 0 && key < kept->keys[at - 1]; at--)
        kept->keys[at] = kept->keys[at - 1];
    kept->keys[at] = key;
}

static void keep_key(struct kept *kept, int64_t key)
{
    if (kept->found < kept->size) {
        put_key(kept, kept->found++, key);
        return;
    }
    kept->found = kept->size + 1;
    if (key < kept->keys[kept->size - 1])
        put_key(kept, kept->size - 1, key);
    kept->out = kept->keys[kept->size - 1];
}

/* A block whose least key is out of the page is passed over whole. */
static void keep_least(const struct columns *t, const int32_t *probe, struct admitted a, struct kept *kept)
{
    int64_t keys[BLOCK];
    for (size_t from = 0; from < (size_t)a.snapshot; from += BLOCK) {
        if (block_keys(t, from, probe, a, keys) >= kept->out)
            continue;
        for (const int64_t *key = keys; key < keys + BLOCK; key++)
            if (*key < kept->out)
                keep_key(kept, *key);
    }
}

/* The distance of one claim, for the test of a mark. */
static uint64_t distance_of(const struct columns *t, size_t number, const int32_t *probe)
{
    uint64_t x[BLOCK];
    block_distances(t, number / BLOCK * BLOCK, probe, x);
    return x[number % BLOCK];
}

static void page(const void *table, const int32_t *probe, uint64_t reach, const uint64_t *place, size_t size,
                 uint64_t *outcome, uint64_t *items)
{
    const struct columns *t = table;
    const int from = place[FROM] != 0;
    const size_t snapshot = from ? place[SNAPSHOT] : t->n;
    struct kept kept = { .out = NONE, .found = 0, .size = size };
    outcome[0] = outcome[1] = outcome[2] = 0;
    if (snapshot > t->n)
        outcome[0] = 7;
    else if (from && (place[MARK_NUMBER] >= snapshot || place[MARK_DISTANCE] > reach
                      || distance_of(t, place[MARK_NUMBER], probe) != place[MARK_DISTANCE]))
        outcome[0] = 8;
    if (outcome[0] != 0)
        return;
    struct admitted a = within(place[ORDER], reach, snapshot);
    if (from)
        a.least = key_of(a.turn, place[MARK_DISTANCE], place[MARK_NUMBER]) + 1;
    keep_least(t, probe, a, &kept);
    const size_t count = kept.found < size ? kept.found : size;
    for (size_t i = 0; i < count; i++)
        put_item(t, a.turn, kept.keys[i], &items[i * NEARBY_ITEM]);
    outcome[1] = count;
    outcome[2] = kept.found <= size;
}

static void ask(void *table, const struct cell *cell, enum question question, size_t count, struct answers *answers)
{
    if (question == OFFICE) {
        answer_asks(page, table, cell, count, answers);
        return;
    }
    for (size_t i = 0; i < count; i++) {
        const int32_t *probe = &cell->probes[i * cell->d];
        if (question == NEAREST)
            nearest(table, probe, cell->reaches[i], &answers->found[i * FOUND]);
        else if (question == FARTHEST)
            farthest(table, probe, &answers->found[i * FOUND]);
        else
            page(table, probe, cell->reaches[i], &cell->places[question][i * NEARBY_PLACE], NEARBY_MOST_PAGE,
                 &answers->outcomes[i * OUTCOME], &answers->items[i * ITEMS]);
    }
}

static int can(const struct cell *cell, enum question question)
{
    (void)cell;
    (void)question;
    return 1;
}

const struct contestant vector_scan = { "vector scan", 1, can, enter, free, ask };
