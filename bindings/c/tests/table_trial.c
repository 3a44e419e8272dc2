/*
 * Full tables, entered in runs: after each run the nodes in use are compared with those of the second builder; runs that do not fit
 * or bring a reference of the table are refused; each number in use is damaged, and each damage found; the nodes behind are filled
 * anew, which changes nothing.
 */
#include "second_builder.h"
#include "stores.h"
#include "tests.h"

#include <stdlib.h>
#include <string.h>

/* How a trial's claims lie: as one of the styles, or rising, falling, in four clusters. */
enum { RISING = STYLES, FALLING, IN_CLUSTERS, WAYS };

typedef struct {
    uint8_t measure;
    size_t d, n;
    int way;
} trial;

typedef struct {
    size_t tables, runs, equal, refused, damages, found, kept;
} score;

static int32_t coordinate_of(seeded *from, int way, size_t claim)
{
    switch (way) {
    case RISING: return INT32_MIN + 1000 * (int32_t)claim;
    case FALLING: return INT32_MAX - 1000 * (int32_t)claim;
    default: return (int32_t)(INT32_MIN + 1000000000 * (int64_t)below(from, 4) + (int64_t)below(from, 16));
    }
}

static void lay_claims(seeded *from, trial x, int32_t *out)
{
    if (x.way < STYLES) {
        put_coordinates(from, (style)x.way, out, x.n * x.d);
        return;
    }
    for (size_t i = 0; i < x.n * x.d; i++)
        out[i] = coordinate_of(from, x.way, i / x.d);
}

/* Whether the nodes in use are the second builder's. */
static bool as_second_built(const store *s)
{
    const nearby_table *t = &s->table;
    uint64_t *nodes = malloc((t->count + 1) * NEARBY_NODE * sizeof(uint64_t));
    size_t used = second_build(t->measure, t->d, s->coordinates, t->count, nodes);
    bool same = used == t->used && memcmp(nodes, s->nodes, used * NEARBY_NODE * sizeof(uint64_t)) == 0;
    free(nodes);
    return same;
}

/* Three runs: a first part, the rest, and an empty one. */
static void enter_runs(seeded *from, store *s, trial x, score *sum)
{
    const size_t ends[] = { x.n * 2 / 5, x.n, x.n };
    uint32_t *given = malloc(x.n * sizeof(uint32_t));
    int32_t *run = malloc(x.n * x.d * sizeof(int32_t));
    for (size_t i = 0; i < x.n; i++)
        given[i] = reference_of(&s->table, i);
    lay_claims(from, x, run);
    for (size_t i = 0; i < LENGTH(ends); i++) {
        size_t at = s->table.count, more = ends[i] - at;
        sum->runs += try_enter(s, given + at, more, (points){ run + at * x.d, more * x.d }).refusal == 0;
        sum->equal += s->table.count == ends[i] && as_second_built(s);
    }
    free(given);
    free(run);
}

/* A full table refuses one claim more, but first that its reference is in force, and before that a coordinate too many. */
static void refuse_runs(seeded *from, store *s, score *sum)
{
    const uint32_t fresh[] = { reference_of(&s->table, s->table.count) }, known[] = { s->references[below(from, s->table.count)] };
    const int32_t run[NEARBY_MOST_COORDINATES + 1] = { 0 };
    sum->refused += try_enter(s, fresh, 1, (points){ run, s->table.d }).refusal == 3;
    sum->refused += try_enter(s, known, 1, (points){ run, s->table.d }).refusal == 17;
    sum->refused += try_enter(s, known, 1, (points){ run, s->table.d + 1 }).refusal == 5;
}

/* One number of the nodes changed, and changed back. Testing the table finds it, and so does an empty run. */
static void damage(store *s, size_t at, uint64_t to, score *sum)
{
    uint64_t was = s->nodes[at];
    s->nodes[at] = to;
    sum->damages++;
    sum->found += try_test(s) == 2 && try_enter(s, NULL, 0, (points){ NULL, 0 }).refusal == 2;
    s->nodes[at] = was;
}

/* A table with more claims is damaged in its last number alone, since each damage costs as much as building it. */
enum { SMALL = 40 };

/* Each number in use, raised by one and then made any other. */
static void damage_rooms(seeded *from, store *s, score *sum)
{
    size_t length = s->table.used * NEARBY_NODE;
    for (size_t i = s->table.count <= SMALL ? 0 : length - 1; i < length; i++) {
        damage(s, i, s->nodes[i] + 1, sum);
        damage(s, i, s->nodes[i] + 1 + below(from, UINT64_MAX), sum);
    }
}

/* What the nodes behind those in use hold is nobody's matter. */
static void fill_unused(seeded *from, store *s, score *sum)
{
    for (size_t i = s->table.used * NEARBY_NODE; i < s->nodes_length; i++)
        s->nodes[i] = next_number(from);
    sum->kept += try_test(s) == 0 && as_second_built(s);
}

static void run_trial(seeded *from, trial x, score *sum)
{
    store s = lend_store(from, x.d, x.n, below(from, 3));
    s.table = try_make((uint32_t)next_number(from), x.measure, x.d, x.n, &s).table;
    sum->tables++;
    enter_runs(from, &s, x, sum);
    refuse_runs(from, &s, sum);
    damage_rooms(from, &s, sum);
    fill_unused(from, &s, sum);
    free_store(&s);
}

/* Every measure, d and way with each of some counts. */
static void run_trials(seeded *from, const size_t *counts, size_t length, score *sum)
{
    for (uint8_t measure = 1; measure <= 3; measure++)
        for (size_t d = 1; d <= NEARBY_MOST_COORDINATES; d++)
            for (int way = 0; way < WAYS; way++)
                for (size_t i = 0; i < length; i++)
                    run_trial(from, (trial){ measure, d, counts[i], way }, sum);
}

/* Of so many tables, three runs of each were entered and three refused, and nothing went unnoticed. */
static void check_score(score is, size_t tables)
{
    CHECK(is.tables == tables && is.runs == 3 * tables && is.equal == 3 * tables);
    CHECK(is.refused == 3 * tables && is.found == is.damages && is.kept == tables);
}

/* 3 measures, 8 d, 7 ways and 6 counts are 1,008 tables. A room has two claims at most, so the six counts take at least
 * 1 + 1 + 2 + 4 + 20 + 20 = 48 nodes of 6 numbers, damaged twice each: 168 * 48 * 12 = 96,768. */
static void small_tables(void)
{
    seeded from = seed(61);
    const size_t counts[] = { 1, 2, 3, 7, 39, SMALL };
    score sum = { 0 };
    run_trials(&from, counts, LENGTH(counts), &sum);
    check_score(sum, 1008);
    CHECK(sum.damages >= 96768);
}

/* 168 tables of 150 claims, and 7 of the largest capacity, among them the deepest trees: rising claims, and claims that are all
 * alike. Each table has one number damaged twice. */
static void large_tables(void)
{
    seeded from = seed(62);
    const size_t counts[] = { 150 };
    score sum = { 0 };
    run_trials(&from, counts, LENGTH(counts), &sum);
    for (int way = 0; way < WAYS; way++)
        run_trial(&from, (trial){ NEARBY_CITY_BLOCK, 1, NEARBY_MOST_CLAIMS, way }, &sum);
    check_score(sum, 175);
    CHECK(sum.damages == 350);
}

void table_trial_tests(void)
{
    run_test("table trial: 1,008 small tables, each number in use damaged", small_tables);
    run_test("table trial: 175 large tables, up to the largest capacity", large_tables);
}
