/* Claims and probes of a cell, from a generator of our own so that every run asks the same. */
#include "cell.h"

#include "office.h"
#include "scan.h"

#include <stdlib.h>
#include <string.h>

enum { CENTRES = 16, LETTERS = 8, LETTER_KEPT = 8 };

/* How far a clustered coordinate is from its centre, at most. */
#define CLUSTER_WIDTH (UINT64_C(1) << 24)

struct source {
    uint64_t state;
    int32_t centres[CENTRES][NEARBY_MOST_COORDINATES];
};

/* splitmix64 */
static uint64_t next(struct source *s)
{
    uint64_t z = s->state += UINT64_C(0x9e3779b97f4a7c15);
    z = (z ^ (z >> 30)) * UINT64_C(0xbf58476d1ce4e5b9);
    z = (z ^ (z >> 27)) * UINT64_C(0x94d049bb133111eb);
    return z ^ (z >> 31);
}

/* Hamming distances of coordinates from the whole range are all d, so there a coordinate is one of a few letters, as in codes. */
static int32_t anywhere(struct source *s, const struct cell *cell)
{
    if (cell->measure == NEARBY_HAMMING || cell->spread == CODES)
        return (int32_t)(next(s) % LETTERS);
    if (cell->spread == MILLION)
        return (int32_t)(next(s) % 1000001);
    return (int32_t)(uint32_t)next(s);
}

static int32_t around(struct source *s, const struct cell *cell, int32_t centre)
{
    if (cell->measure == NEARBY_HAMMING)
        return next(s) % LETTER_KEPT == 0 ? anywhere(s, cell) : centre;
    int64_t x = centre + (int64_t)(next(s) % (2 * CLUSTER_WIDTH + 1)) - (int64_t)CLUSTER_WIDTH;
    return (int32_t)(x < INT32_MIN ? INT32_MIN : x > INT32_MAX ? INT32_MAX : x);
}

/* Claims and probes are drawn alike: a tablet asks from where claims are. */
static void draw(struct source *s, const struct cell *cell, int32_t *points, size_t count)
{
    for (size_t i = 0; i < count; i++) {
        const int32_t *centre = s->centres[next(s) % CENTRES];
        for (size_t j = 0; j < cell->d; j++)
            points[i * cell->d + j] = cell->spread == CLUSTERED ? around(s, cell, centre[j]) : anywhere(s, cell);
    }
}

static size_t compared_coordinates;

static int compare_points(const void *a, const void *b)
{
    const int32_t *p = a, *q = b;
    for (size_t j = 0; j < compared_coordinates; j++)
        if (p[j] != q[j])
            return p[j] < q[j] ? -1 : 1;
    return 0;
}

/* Moves the place of question i behind its fourth page, by four pages of the plain scan. */
static void pass_four_pages(const struct cell *cell, const void *table, size_t i, uint64_t *place)
{
    uint64_t outcome[OUTCOME], items[ITEMS];
    for (int page = 0; page < 4; page++) {
        scan_page(table, &cell->probes[i * cell->d], cell->reaches[i], place, NEARBY_MOST_PAGE, outcome, items);
        const uint64_t *last = &items[(outcome[1] - 1) * NEARBY_ITEM];
        place[FROM] = 1;
        place[SNAPSHOT] = cell->n;
        place[MARK_DISTANCE] = last[2];
        place[MARK_NUMBER] = last[0];
    }
}

/* The places of a kind of page; the second half of the questions repeats the first. */
static void make_places(struct cell *cell, const void *table, enum question kind)
{
    uint64_t *places = cell->places[kind];
    for (size_t i = 0; i < QUESTIONS; i++) {
        places[i * NEARBY_PLACE + ORDER] = kind == FAR_FIRST_PAGE || kind == FAR_FIFTH_PAGE ? NEARBY_FAR : NEARBY_NEAR;
        if (kind == FIFTH_PAGE || kind == FAR_FIFTH_PAGE)
            pass_four_pages(cell, table, i, &places[i * NEARBY_PLACE]);
    }
    memcpy(&places[QUESTIONS * NEARBY_PLACE], places, QUESTIONS * NEARBY_PLACE * sizeof *places);
}

static void make_questions(struct source *s, struct cell *cell)
{
    draw(s, cell, cell->probes, QUESTIONS);
    memcpy(&cell->probes[QUESTIONS * cell->d], cell->probes, QUESTIONS * cell->d * sizeof *cell->probes);
    void *table = plain_scan.enter(cell);
    for (size_t i = 0; i < ALL_QUESTIONS; i++)
        cell->reaches[i] = UINT64_MAX;
    for (enum question kind = 0; kind < PAGE_KINDS; kind++)
        make_places(cell, table, kind);
    for (size_t i = 0; i < ALL_QUESTIONS; i++) {
        const uint64_t *place = &cell->places[i % PAGE_KINDS][i * NEARBY_PLACE];
        cell->ask_length = write_ask(cell, i, place, &cell->asks[i * cell->ask_length]);
    }
    plain_scan.leave(table);
}

void make_cell(struct cell *cell, size_t n, size_t d, uint8_t measure, enum spread spread)
{
    memset(cell, 0, sizeof *cell);
    cell->n = n;
    cell->d = d;
    cell->measure = measure;
    cell->spread = spread;
    struct source s = { .state = n * 1000 + d * 100 + measure * 10 + spread };
    for (size_t c = 0; c < CENTRES; c++)
        for (size_t j = 0; j < d; j++)
            s.centres[c][j] = anywhere(&s, cell);
    draw(&s, cell, cell->coordinates, n);
    if (spread == SORTED) {
        compared_coordinates = d;
        qsort(cell->coordinates, n, d * sizeof *cell->coordinates, compare_points);
    }
    /* Spread over 32 bits, and no two alike: the lower twelve are the claim's number. */
    for (size_t k = 0; k < n; k++)
        cell->references[k] = (uint32_t)next(&s) / NEARBY_MOST_CLAIMS * NEARBY_MOST_CLAIMS + (uint32_t)k;
    make_questions(&s, cell);
}
