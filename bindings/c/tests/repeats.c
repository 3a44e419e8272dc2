/*
 * [3.17] References that are no longer new: a run that brings one is refused with 17, and no other is. What has to come is known from how
 * the run was made, with no part of the library or the model in it, and both have to say it.
 */
#include "stores.h"
#include "tablets.h"
#include "tests.h"

#include <string.h>

/* ---- By hand ---- */

/* Runs for the examples' table, and their numbers. Its references are 0x65 to 0x69, and its capacity leaves three claims free. */
static const struct {
    size_t n;
    uint32_t given[4];
    uint8_t number;
} runs[] = {
    { 0, { 0 }, 0 },
    { 1, { 0x6a }, 0 },
    { 3, { 0x6a, 0x6b, 0x6c }, 0 },
    { 2, { 0, UINT32_MAX }, 0 },
    /* alike in some of their bits */
    { 3, { 0x10065, 0x80000065, 0x6500 }, 0 },
    { 3, { 0x12345678, 0x12340000, 0x5678 }, 0 },
    /* a claim's of the table, wherever either stands */
    { 1, { 0x65 }, 17 },
    { 1, { 0x67 }, 17 },
    { 1, { 0x69 }, 17 },
    { 3, { 0x65, 0x6a, 0x6b }, 17 },
    { 3, { 0x6a, 0x69, 0x6b }, 17 },
    { 3, { 0x6a, 0x6b, 0x68 }, 17 },
    /* twice in the run, side by side or not */
    { 2, { 0x6a, 0x6a }, 17 },
    { 3, { 0x6a, 0x6a, 0x6b }, 17 },
    { 3, { 0x6b, 0x6a, 0x6a }, 17 },
    { 3, { 0x6a, 0x6b, 0x6a }, 17 },
    { 3, { 0, 1, 0 }, 17 },
    { 3, { UINT32_MAX, 1, UINT32_MAX }, 17 },
    /* more than the capacity leaves free */
    { 4, { 0x6a, 0x6b, 0x6c, 0x6d }, 3 },
    { 4, { 0x6a, 0x6b, 0x6c, 0x65 }, 17 },
    { 4, { 0x6a, 0x6b, 0x6c, 0x6a }, 17 },
};

static const int32_t fours[] = { 4, 4, 4, 4 };

static void by_hand(void)
{
    for (size_t i = 0; i < LENGTH(runs); i++) {
        seeded from = seed(111);
        store s = marked_store(&from, 8);
        CHECK(try_enter(&s, runs[i].given, runs[i].n, (points){ fours, runs[i].n }).refusal == runs[i].number);
        CHECK(s.table.count == (runs[i].number == 0 ? 5 + runs[i].n : 5));
        free_store(&s);
    }
}

/* One claim, two tablets: what the first sends is entered, what the second sends at another point is not, and the first's stays. */
static void one_claim_two_tablets(void)
{
    seeded from = seed(112);
    store s = marked_store(&from, 8);
    const uint32_t reference = 0x6a;
    const int32_t first = 4, second = 5;
    CHECK(try_enter(&s, &reference, 1, (points){ &first, 1 }).refusal == 0);
    CHECK(try_enter(&s, &reference, 1, (points){ &second, 1 }).refusal == 17);
    CHECK(try_enter(&s, &reference, 1, (points){ &first, 1 }).refusal == 17);
    nearby_item near = try_nearest(&s, (points){ &first, 1 }, 5);
    CHECK(s.table.count == 6 && near.number == 5 && near.reference == reference && near.distance == 0);
    free_store(&s);
}

/* Memory behind the claims, and behind the capacity, holds the reference already: that is no claim's. */
static void unused_memory(void)
{
    seeded from = seed(113);
    const uint32_t reference = 0x6a;
    store s = lend_store(&from, 1, 6, 4);
    for (size_t i = 0; i < s.references_length; i++)
        s.references[i] = reference;
    s.table = try_make(7, NEARBY_CITY_BLOCK, 1, 6, &s).table;
    CHECK(try_enter(&s, (const uint32_t[]){ 0x65, 0x66, 0x67, 0x68 }, 4, (points){ fours, 4 }).refusal == 0);
    CHECK(try_enter(&s, &reference, 1, (points){ fours, 1 }).refusal == 0 && s.table.count == 5);
    CHECK(try_enter(&s, &reference, 1, (points){ fours, 1 }).refusal == 17 && s.table.count == 5);
    free_store(&s);
}

/* ---- Tables that hold repeats ---- */

/* A list to its end, in an order: all claims, each with the reference that it has. */
static void load_all(const store *s, uint8_t order, points probe)
{
    const nearby_table *t = &s->table;
    uint64_t all[64 * NEARBY_ITEM];
    uint8_t line[NEARBY_ANSWER_LINE];
    tablet tab = open_tablet(order, t->number, t->measure, probe, UINT64_MAX, t->count * NEARBY_ITEM);
    for (size_t pages = 0; !tab.list.complete && pages <= t->count; pages++) {
        size_t length = fetch_answer(&tab, s, 7, (output){ line, sizeof line });
        tab.list = try_take(tab.list, tab.items, (text){ line, length }).list;
    }
    CHECK(model_listed(s, order, probe.at, UINT64_MAX, t->count, all) == t->count);
    CHECK(tab.list.complete == 1 && tab.list.count == t->count);
    CHECK(memcmp(tab.items.at, all, t->count * NEARBY_ITEM * sizeof(uint64_t)) == 0);
    free_room(tab.items);
}

static void ask_everything(seeded *from, const store *s)
{
    int32_t at[NEARBY_MOST_COORDINATES];
    uint64_t row[4], reach[] = { UINT64_MAX }, place[NEARBY_PLACE] = { NEARBY_FAR }, outcome[3], items[NEARBY_MOST_PAGE * NEARBY_ITEM];
    points probe = { at, s->table.d };
    put_coordinates(from, TIED, at, probe.length);
    CHECK(try_nearest(s, probe, UINT64_MAX).found == 1 && try_farthest(s, probe).found == 1);
    CHECK(try_many_nearest(s, probe, (room){ reach, 1 }, (room){ row, 4 }) == 0);
    CHECK(try_many_farthest(s, probe, 1, (room){ row, 4 }) == 0);
    CHECK(try_many_pages(s, probe, (room){ reach, 1 }, (room){ place, NEARBY_PLACE }, NEARBY_MOST_PAGE, (room){ outcome, 3 },
                         (room){ items, LENGTH(items) }) == 0 && outcome[0] == 0);
    load_all(s, NEARBY_NEAR, probe);
    load_all(s, NEARBY_FAR, probe);
}

/* Each of the table's own is refused. One that is new to it is entered, and is then no longer new. */
static void enter_beside(store *s)
{
    const int32_t at[NEARBY_MOST_COORDINATES] = { 1 };
    const points one = { at, s->table.d };
    const size_t count = s->table.count;
    for (size_t i = 0; i < count; i++) {
        const uint32_t own = s->references[i];
        CHECK(try_enter(s, &own, 1, one).refusal == 17);
    }
    const uint32_t fresh = reference_of(&s->table, count);
    CHECK(try_enter(s, &fresh, 1, one).refusal == 0 && s->table.count == count + 1);
    CHECK(try_enter(s, &fresh, 1, one).refusal == 17 && try_test(s) == 0);
}

/* The claims share so many references by turns: one, two, and so on to one for each but the last. */
static void tables_that_hold_repeats(void)
{
    seeded from = seed(114);
    for (size_t apart = 1; apart < 30; apart++) {
        store s = full_store(&from, (uint8_t)(1 + apart % 3), 1 + apart % NEARBY_MOST_COORDINATES, 31, 30, TIED);
        for (size_t i = apart; i < 30; i++)
            s.references[i] = s.references[i - apart];
        CHECK(try_test(&s) == 0);
        ask_everything(&from, &s);
        enter_beside(&s);
        ask_everything(&from, &s);
        free_store(&s);
    }
}

/* ---- Drawn ---- */

enum { LONGEST_RUN = 12 };

/* What became of the runs. Those refused with 17 brought a reference of the table, one of their own twice, or both, and some were too
 * long besides; some of those entered brought one that only unused memory held. */
typedef struct {
    size_t entered, claims, refused_3, refused_17, of_the_table, of_the_run, of_both, and_too_long, of_unused;
} tally;

static bool is_among(const uint32_t *some, size_t n, uint32_t reference)
{
    for (size_t i = 0; i < n; i++)
        if (some[i] == reference)
            return true;
    return false;
}

/* Mostly a new one; one of the table's, of the run's, of unused memory, or one of the ends. */
static uint32_t draw_reference(seeded *from, const store *s, const uint32_t *given, size_t n, size_t *made_up)
{
    const nearby_table *t = &s->table;
    switch (below(from, 60)) {
    case 0:
    case 1: return t->count > 0 ? s->references[below(from, t->count)] : 0;
    case 2:
    case 3: return n > 0 ? given[below(from, n)] : UINT32_MAX;
    case 4: return t->count < t->capacity ? s->references[t->count + below(from, t->capacity - t->count)] : 1;
    case 5: return one_in(from, 2) ? 0 : UINT32_MAX;
    default: return reference_of(t, (*made_up)++);
    }
}

static void enter_drawn(seeded *from, store *s, size_t *made_up, tally *sum)
{
    const nearby_table *t = &s->table;
    const size_t n = below(from, LONGEST_RUN + 1), count = t->count;
    uint32_t given[LONGEST_RUN];
    int32_t run[LONGEST_RUN * NEARBY_MOST_COORDINATES];
    bool of_the_table = false, of_the_run = false, unused = false, too_long = n > t->capacity - count;
    for (size_t i = 0; i < n; i++) {
        given[i] = draw_reference(from, s, given, i, made_up);
        of_the_table |= is_among(s->references, count, given[i]);
        of_the_run |= is_among(given, i, given[i]);
        unused |= is_among(s->references + count, s->references_length - count, given[i]);
    }
    put_coordinates(from, TIED, run, n * t->d);
    uint8_t refusal = try_enter(s, given, n, (points){ run, n * t->d }).refusal;
    CHECK(refusal == (of_the_table || of_the_run ? 17 : too_long ? 3 : 0));
    CHECK(s->table.count == (refusal == 0 ? count + n : count));
    sum->entered += refusal == 0;
    sum->claims += refusal == 0 ? n : 0;
    sum->refused_3 += refusal == 3;
    sum->refused_17 += refusal == 17;
    sum->of_the_table += of_the_table && !of_the_run;
    sum->of_the_run += of_the_run && !of_the_table;
    sum->of_both += of_the_table && of_the_run;
    sum->and_too_long += refusal == 17 && too_long;
    sum->of_unused += refusal == 0 && unused;
}

/* Every measure and d, from an empty table on. After a refusal the table goes on as it was. */
static void runs_drawn(void)
{
    seeded from = seed(115);
    tally sum = { 0 };
    for (size_t table = 0; table < 480; table++) {
        size_t d = 1 + table / 3 % NEARBY_MOST_COORDINATES, capacity = 1 + below(&from, 100), made_up = 0;
        store s = lend_store(&from, d, capacity, below(&from, 3));
        s.table = try_make((uint32_t)next_number(&from), (uint8_t)(1 + table % 3), d, capacity, &s).table;
        for (int run = 0; run < 30; run++)
            enter_drawn(&from, &s, &made_up, &sum);
        CHECK(try_test(&s) == 0);
        free_store(&s);
    }
    CHECK(sum.entered >= 4000 && sum.claims >= 15000 && sum.refused_3 >= 3000 && sum.refused_17 >= 3000);
    CHECK(sum.of_the_table >= 1500 && sum.of_the_run >= 1000 && sum.of_both >= 200);
    CHECK(sum.and_too_long >= 1500 && sum.of_unused >= 200);
}

void repeat_tests(void)
{
    run_test("repeats: by hand", by_hand);
    run_test("repeats: one claim, two tablets", one_claim_two_tablets);
    run_test("repeats: what unused memory holds is none", unused_memory);
    run_test("repeats: tables that hold them", tables_that_hold_repeats);
    run_test("repeats: drawn on purpose, runs refused and entered", runs_drawn);
}
