/* The calls that answer many questions at once, each beside the single call and the model; many_answers.c has those on lines. */
#include "stores.h"
#include "tablets.h"
#include "tests.h"

#include <stdlib.h>
#include <string.h>

enum { MOST = 12 };

/* Questions for one table; the places with an order in front, as nearby_many_pages takes them. */
typedef struct {
    size_t n;
    int32_t probes[8 * MOST];
    uint64_t reaches[MOST], places[NEARBY_PLACE * MOST];
} questions;

static questions any_questions(seeded *from, const store *s, style how)
{
    questions q = { .n = below(from, MOST + 1) };
    size_t d = s->table.d;
    put_coordinates(from, how, q.probes, LENGTH(q.probes));
    for (size_t i = 0; i < q.n; i++) {
        q.reaches[i] = any_reach(from, s, q.probes + i * d);
        put_place(from, s, q.probes + i * d, q.places + NEARBY_PLACE * i);
    }
    return q;
}

static points probes_of(const questions *q, const store *s) { return (points){ q->probes, q->n * s->table.d }; }
static room reaches_of(questions *q) { return (room){ q->reaches, q->n }; }
static room places_of(questions *q) { return (room){ q->places, NEARBY_PLACE * q->n }; }

static bool same_row(const uint64_t *row, nearby_item item)
{
    return row[0] == item.found && row[1] == item.number && row[2] == item.reference && row[3] == item.distance;
}

static void ask_many_ends(seeded *from, const store *s, questions *q)
{
    size_t d = s->table.d;
    room out = noisy_room(from, 4 * q->n + below(from, 5));
    CHECK(try_many_nearest(s, probes_of(q, s), reaches_of(q), out) == 0);
    for (size_t i = 0; i < q->n; i++)
        CHECK(same_row(out.at + 4 * i, try_nearest(s, (points){ q->probes + i * d, d }, q->reaches[i])));
    CHECK(try_many_farthest(s, probes_of(q, s), q->n, out) == 0);
    for (size_t i = 0; i < q->n; i++)
        CHECK(same_row(out.at + 4 * i, try_farthest(s, (points){ q->probes + i * d, d })));
    free_room(out);
}

static void ask_many_pages(seeded *from, const store *s, questions *q)
{
    size_t d = s->table.d, size = 1 + below(from, NEARBY_MOST_PAGE), width = size * NEARBY_ITEM;
    room outcomes = noisy_room(from, 3 * q->n + below(from, 4)), items = noisy_room(from, width * q->n + below(from, 4));
    uint64_t *before = malloc((items.length + 1) * sizeof(uint64_t));
    memcpy(before, items.at, items.length * sizeof(uint64_t));
    CHECK(try_many_pages(s, probes_of(q, s), reaches_of(q), places_of(q), size, outcomes, items) == 0);
    for (size_t i = 0; i < q->n; i++) {
        const uint64_t *place = q->places + NEARBY_PLACE * i;
        nearby_filled page = try_page(s, place[0] != 0, (points){ q->probes + i * d, d }, q->reaches[i],
                                      (nearby_start){ place[1] != 0, place[2], place[3], place[4] }, size,
                                      (room){ before + i * width, width });
        const uint64_t *outcome = outcomes.at + 3 * i;
        CHECK(outcome[0] == page.refusal && outcome[1] == page.count && outcome[2] == page.last);
    }
    CHECK(memcmp(before, items.at, items.length * sizeof(uint64_t)) == 0);
    free(before);
    free_room(outcomes);
    free_room(items);
}

static bool orders_differ(const questions *q)
{
    for (size_t i = 1; i < q->n; i++)
        if ((q->places[NEARBY_PLACE * i] != 0) != (q->places[0] != 0))
            return true;
    return false;
}

/* Most calls have questions of both orders. */
static void many_equal_single(void)
{
    seeded from = seed(41);
    size_t differ = 0;
    for (int round = 0; round < 400; round++) {
        style how = (style)(round % STYLES);
        size_t n = below(&from, 60);
        store s = full_store(&from, (uint8_t)(1 + round % 3), 1 + below(&from, 8), n + 1, n, how);
        questions q = any_questions(&from, &s, how);
        differ += orders_differ(&q);
        ask_many_ends(&from, &s, &q);
        ask_many_pages(&from, &s, &q);
        free_store(&s);
    }
    CHECK(differ >= 200);
}

static void many_on_a_large_table(void)
{
    seeded from = seed(42);
    for (style how = 0; how < STYLES; how++) {
        store s = full_store(&from, (uint8_t)(1 + how % 3), 3, 4096, 4096, how);
        questions q = any_questions(&from, &s, how);
        q.n = q.n < 2 ? q.n : 2;
        q.places[0] = NEARBY_NEAR;
        q.places[NEARBY_PLACE] = NEARBY_FAR;
        ask_many_ends(&from, &s, &q);
        ask_many_pages(&from, &s, &q);
        free_store(&s);
    }
}

static const uint64_t flags[] = { 0, 1, 2, 255, 256, 1ull << 32, UINT64_MAX };

/* Each flag is the order of a question, and the one that stands so far behind it is that question's `from`. */
static void ask_with_flags(seeded *from, const store *s, size_t apart)
{
    questions q = any_questions(from, s, TIED);
    q.n = LENGTH(flags);
    for (size_t i = 0; i < q.n; i++) {
        put_place(from, s, q.probes + 2 * i, q.places + NEARBY_PLACE * i);
        q.places[NEARBY_PLACE * i] = flags[i];
        q.places[NEARBY_PLACE * i + 1] = flags[(i + apart) % LENGTH(flags)];
        q.reaches[i] = UINT64_MAX;
    }
    ask_many_pages(from, s, &q);
}

/* A high word of an order or of `from` counts as a flag too. */
static void places_with_any_flag(void)
{
    seeded from = seed(43);
    store s = full_store(&from, 1, 2, 9, 9, TIED);
    for (size_t apart = 0; apart < LENGTH(flags); apart++)
        ask_with_flags(&from, &s, apart);
    free_store(&s);
}

/* The examples' first pages of 2 and those behind claim 1, in both orders in one call, worked by hand. */
static void both_orders_in_one_call(void)
{
    seeded from = seed(40);
    store s = marked_store(&from, 8);
    const int32_t probes[] = { 4, 4, 4, 4 };
    uint64_t reaches[] = { 5, 5, 5, 5 }, outcomes[12], items[24] = { 0 };
    uint64_t places[] = { NEARBY_FAR, 0, 0, 0, 0, NEARBY_NEAR, 0, 0, 0, 0, NEARBY_NEAR, 1, 5, 1, 1, NEARBY_FAR, 1, 5, 1, 1 };
    const uint64_t told[] = { 0, 2, 0, 0, 2, 0, 0, 2, 0, 0, 1, 1 };
    const uint64_t pages[] = { 2, 103, 5, 0, 101, 2, 1, 102, 1, 4, 105, 1, 4, 105, 1, 0, 101, 2, 4, 105, 1, 0, 0, 0 };
    CHECK(try_many_pages(&s, (points){ probes, 4 }, (room){ reaches, 4 }, (room){ places, 20 }, 2, (room){ outcomes, 12 },
                         (room){ items, 24 }) == 0);
    CHECK(memcmp(outcomes, told, sizeof told) == 0 && memcmp(items, pages, sizeof pages) == 0);
    free_store(&s);
}

/* [4.18] A row is NEARBY_PLACE numbers, and neither one less nor one more, which some other number of questions would have. */
static void places_of_four_and_six_numbers(void)
{
    seeded from = seed(50);
    store s = full_store(&from, 1, 1, 9, 9, TIED);
    int32_t probes[10] = { 0 };
    uint64_t reaches[10] = { 0 }, places[60] = { 0 }, outcomes[30], items[30];
    for (size_t n = 1; n <= 10; n++)
        for (size_t each = NEARBY_PLACE - 1; each <= NEARBY_PLACE + 1; each++)
            CHECK(try_many_pages(&s, (points){ probes, n }, (room){ reaches, n }, (room){ places, each * n }, 1,
                                 (room){ outcomes, 3 * n }, (room){ items, 3 * n }) == (each == NEARBY_PLACE ? 0 : 5));
    free_store(&s);
}

/* Mostly the length; otherwise one more, or one less where there is one less. */
static size_t nearly(seeded *from, size_t length)
{
    if (!one_in(from, 4))
        return length;
    return length == 0 || one_in(from, 2) ? length + 1 : length - 1;
}

/* Questions to n probes with slices that are one too long or too short, and sizes out of range. */
static void ask_amiss(seeded *from, const store *s, size_t n)
{
    const size_t sizes[] = { 0, 1, 2, 16, 17, SIZE_MAX / 3 + 1, SIZE_MAX };
    uint64_t out[20] = { 0 }, outcomes[20] = { 0 }, items[40] = { 0 }, reaches[5] = { 0 }, places[NEARBY_PLACE * 5] = { 0 };
    int32_t probes[40] = { 0 };
    size_t size = one_in(from, 5) ? sizes[below(from, LENGTH(sizes))] : 3;
    points p = { probes, nearly(from, n * s->table.d) };
    room r = { reaches, n }, rows = { out, nearly(from, 4 * n) };
    try_many_nearest(s, p, r, rows);
    try_many_farthest(s, p, n, rows);
    for (size_t i = 0; i < n; i++)
        places[NEARBY_PLACE * i] = any_order(from);
    try_many_pages(s, p, r, (room){ places, nearly(from, NEARBY_PLACE * n) }, size, (room){ outcomes, nearly(from, 3 * n) },
                   (room){ items, nearly(from, 9 * n) });
}

static void many_with_lengths_amiss(void)
{
    seeded from = seed(44);
    for (size_t d = 1; d <= 8; d++) {
        store s = full_store(&from, 2, d, 12, 11, TIED);
        for (int turn = 0; turn < 400; turn++)
            ask_amiss(&from, &s, below(&from, 5));
        free_store(&s);
    }
}

/* Counts whose product with d goes round to a small number. */
static void many_with_counts_too_large(void)
{
    seeded from = seed(48);
    const size_t counts[] = { SIZE_MAX, SIZE_MAX / 2 + 1, SIZE_MAX / 3 + 1, SIZE_MAX / 4 + 1, SIZE_MAX / 5 + 1, SIZE_MAX / 8 + 1 };
    int32_t probes[16] = { 0 };
    uint64_t out[64] = { 0 };
    for (size_t d = 1; d <= 8; d++) {
        store s = full_store(&from, 2, d, 12, 11, TIED);
        for (size_t i = 0; i < LENGTH(counts); i++)
            for (size_t length = 0; length <= LENGTH(probes); length++)
                CHECK(try_many_farthest(&s, (points){ probes, length }, counts[i], (room){ out, LENGTH(out) }) == 5);
        free_store(&s);
    }
}

void many_tests(void)
{
    run_test("many: equal to single calls", many_equal_single);
    run_test("many: a large table", many_on_a_large_table);
    run_test("many: places with any flag", places_with_any_flag);
    run_test("many: both orders in one call", both_orders_in_one_call);
    run_test("many: places of four and six numbers", places_of_four_and_six_numbers);
    run_test("many: lengths amiss", many_with_lengths_amiss);
    run_test("many: counts too large", many_with_counts_too_large);
}
