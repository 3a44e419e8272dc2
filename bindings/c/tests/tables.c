/* Tables: runs that do not fit, and every call on damaged tables. */
#include "stores.h"
#include "tests.h"

static void all_of_a_run_or_nothing(void)
{
    seeded from = seed(4);
    uint32_t given[12];
    int32_t run[24] = { 0 };
    for (size_t capacity = 1; capacity <= 6; capacity++)
        for (size_t n = 0; n <= capacity; n++)
            for (size_t more = 0; more <= 12; more++) {
                store s = full_store(&from, 1, 2, capacity, n, TIED);
                for (size_t i = 0; i < more; i++)
                    given[i] = reference_of(&s.table, n + i);
                nearby_tabled entered = try_enter(&s, given, more, (points){ run, 2 * more });
                CHECK(entered.refusal == (n + more > capacity ? 3 : 0));
                free_store(&s);
            }
}

/* The references are all alike, but what is told first is the coordinates. */
static void runs_with_coordinates_amiss(void)
{
    seeded from = seed(5);
    uint32_t given[4] = { 0 };
    int32_t run[40] = { 0 };
    for (size_t d = 1; d <= 8; d++) {
        store s = full_store(&from, 2, d, 9, 3, ANYWHERE);
        for (size_t n = 0; n <= 4; n++)
            for (size_t length = 0; length <= 40; length++)
                if (length != n * d)
                    CHECK(try_enter(&s, given, n, (points){ run, length }).refusal == 5);
        CHECK(try_test(&s) == 0);
        free_store(&s);
    }
}

/* Every call on a table, with arguments that are in order. */
static void all_calls(const store *s)
{
    int32_t probe[8] = { 1, -1, 2, -2, 0, 3, 1, 1 };
    uint64_t items[48] = { 0 }, reach[1] = { UINT64_MAX }, start[NEARBY_PLACE] = { NEARBY_FAR }, outcomes[3] = { 0 };
    uint8_t out[NEARBY_ANSWER_LINE] = { 0 };
    const uint8_t line[] = "00\n";
    const text asked = { line, 3 };
    points p = { probe, s->table.d <= 8 ? s->table.d : 8 };
    store entered = *s;
    try_test(s);
    try_nearest(s, p, UINT64_MAX);
    try_farthest(s, p);
    try_page(s, NEARBY_NEAR, p, UINT64_MAX, (nearby_start){ 0 }, 16, (room){ items, 48 });
    try_page(s, NEARBY_FAR, p, UINT64_MAX, (nearby_start){ 0 }, 16, (room){ items, 48 });
    try_answer(s, asked, (output){ out, sizeof out });
    try_many_nearest(s, p, (room){ reach, 1 }, (room){ items, 48 });
    try_many_farthest(s, p, 1, (room){ items, 48 });
    try_many_pages(s, p, (room){ reach, 1 }, (room){ start, NEARBY_PLACE }, 16, (room){ outcomes, 3 }, (room){ items, 48 });
    try_many_answers(s, asked, (room){ outcomes, 3 }, (output){ out, sizeof out });
    try_enter(&entered, NULL, 0, (points){ NULL, 0 });
}

/* Every call with one number of the nodes changed: one in use is never changed without 2, one behind them is never read. */
static void nodes_damaged(void)
{
    seeded from = seed(6);
    for (int round = 0; round < 24; round++) {
        size_t n = 1 + below(&from, 24);
        store s = full_store(&from, (uint8_t)(1 + round % 3), 1 + below(&from, 8), n + 2, n, (style)(round % STYLES));
        for (size_t i = 0; i < s.nodes_length; i++) {
            uint64_t was = s.nodes[i];
            const uint64_t damage[] = { was + 1, was - 1, 0, UINT64_MAX, was ^ (1ull << below(&from, 64)), next_number(&from) };
            for (size_t k = 0; k < LENGTH(damage); k++) {
                s.nodes[i] = damage[k];
                bool changed = damage[k] != was && i < s.table.used * NEARBY_NODE;
                CHECK(try_test(&s) == (changed ? 2 : 0));
                if (k == i % LENGTH(damage))
                    all_calls(&s);
                s.nodes[i] = was;
            }
        }
        free_store(&s);
    }
}

/* A moved claim gives 2, or is sound where the tree comes out the same; a reference plays no part in the tree. */
static void claims_damaged(void)
{
    seeded from = seed(7);
    for (int round = 0; round < 60; round++) {
        size_t n = 1 + below(&from, 24);
        store s = full_store(&from, (uint8_t)(1 + round % 3), 1 + below(&from, 4), n + 1, n, (style)(round % STYLES));
        for (size_t i = 0; i < s.coordinates_length; i++) {
            int32_t was = s.coordinates[i];
            s.coordinates[i] = one_in(&from, 2) ? (int32_t)((uint32_t)was + 1u) : (int32_t)(next_number(&from) & 0xffffffff);
            try_test(&s);
            if (one_in(&from, 8))
                all_calls(&s);
            s.coordinates[i] = was;
        }
        s.references[below(&from, n)]++;
        CHECK(try_test(&s) == 0);
        all_calls(&s);
        free_store(&s);
    }
}

static void headers_damaged(void)
{
    seeded from = seed(8);
    const size_t sizes[] = { 0, 1, 2, 3, 4, 5, 6, 7, 8, 9, 10, 11, 12, 4095, 4096, 4097, SIZE_MAX / 8 + 1, SIZE_MAX / 6 + 1, SIZE_MAX };
    const uint8_t measures[] = { 0, 1, 2, 3, 4, 255 };
    store s = full_store(&from, 1, 2, 10, 8, TIED);
    const nearby_table whole = s.table;
    for (size_t i = 0; i < LENGTH(measures); i++) {
        s.table.measure = measures[i];
        all_calls(&s);
        try_make(9, measures[i], 2, 10, &s);
    }
    s.table = whole;
    for (size_t i = 0; i < LENGTH(sizes); i++) {
        s.table.d = sizes[i];
        all_calls(&s);
        try_make(9, 1, sizes[i], 10, &s);
        s.table = whole;
        s.table.capacity = sizes[i];
        all_calls(&s);
        try_make(9, 1, 2, sizes[i], &s);
        s.table = whole;
        s.table.count = sizes[i];
        all_calls(&s);
        s.table = whole;
        s.table.used = sizes[i];
        all_calls(&s);
        s.table = whole;
    }
    free_store(&s);
}

/* Each of the three slices one element short, and of length 0. */
static void memory_too_small(void)
{
    seeded from = seed(9);
    for (size_t d = 1; d <= 8; d++) {
        store s = lend_store(&from, d, 10, 0);
        s.table = try_make(3, 1, d, 10, &s).table;
        enter_run(&from, &s, 7, TIED);
        for (int which = 0; which < 3; which++)
            for (size_t cut = 0; cut < 2; cut++) {
                store t = s;
                size_t *length = which == 0 ? &t.references_length : which == 1 ? &t.coordinates_length : &t.nodes_length;
                *length = cut == 0 ? *length - 1 : 0;
                CHECK(try_make(3, 1, d, 10, &t).refusal == 1 && try_test(&t) == 1);
                all_calls(&t);
            }
        free_store(&s);
    }
}

void table_tests(void)
{
    run_test("tables: all of a run or nothing", all_of_a_run_or_nothing);
    run_test("tables: runs with coordinates amiss", runs_with_coordinates_amiss);
    run_test("tables: damaged nodes", nodes_damaged);
    run_test("tables: damaged claims", claims_damaged);
    run_test("tables: damaged headers", headers_damaged);
    run_test("tables: memory too small", memory_too_small);
}
