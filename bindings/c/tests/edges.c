/* Null with length 0 for every slice of every call. */
#include "stores.h"
#include "tests.h"

static const store nothing;
static const points no_points;
static const text no_text;
static const room no_room;
static const output no_output;

/* The store with one of its slices null, or whole where `which` is 3. */
static store without(const store *s, int which)
{
    store t = *s;
    if (which == 0) {
        t.references = NULL;
        t.references_length = 0;
    } else if (which == 1) {
        t.coordinates = NULL;
        t.coordinates_length = 0;
    } else if (which == 2) {
        t.nodes = NULL;
        t.nodes_length = 0;
    }
    return t;
}

static void null_for_table_slices(void)
{
    seeded from = seed(51);
    store s = full_store(&from, 1, 2, 6, 5, TIED);
    const int32_t probe[] = { 1, 1 };
    uint64_t items[48], reach[1] = { 9 }, start[NEARBY_PLACE] = { NEARBY_FAR }, outcomes[3];
    uint8_t out[NEARBY_ANSWER_LINE];
    const text line = { (const uint8_t *)"00\n", 3 };
    const uint32_t given[] = { 1 };
    points p = { probe, 2 };
    for (int which = 0; which < 3; which++) {
        store t = without(&s, which);
        CHECK(try_make(1, 1, 2, 6, &t).refusal == 1 && try_test(&t) == 1);
        CHECK(try_enter(&t, given, 1, p).refusal == 1);
        CHECK(try_nearest(&t, p, 9).refusal == 1 && try_farthest(&t, p).refusal == 1);
        CHECK(try_page(&t, NEARBY_NEAR, p, 9, (nearby_start){ 0 }, 3, (room){ items, 48 }).refusal == 1);
        CHECK(try_page(&t, NEARBY_FAR, p, 9, (nearby_start){ 0 }, 3, (room){ items, 48 }).refusal == 1);
        CHECK(try_answer(&t, line, (output){ out, sizeof out }).refusal == 1);
        CHECK(try_many_nearest(&t, p, (room){ reach, 1 }, (room){ items, 48 }) == 1);
        CHECK(try_many_farthest(&t, p, 1, (room){ items, 48 }) == 1);
        CHECK(try_many_pages(&t, p, (room){ reach, 1 }, (room){ start, NEARBY_PLACE }, 3, (room){ outcomes, 3 }, (room){ items, 48 })
              == 1);
        CHECK(try_many_answers(&t, line, (room){ outcomes, 3 }, (output){ out, sizeof out }).refusal == 1);
    }
    free_store(&s);
}

static void null_for_question_slices(void)
{
    seeded from = seed(52);
    store s = full_store(&from, 1, 2, 6, 5, TIED);
    const int32_t probe[] = { 1, 1 };
    const uint32_t given[] = { 1 };
    uint64_t items[48], reach[1] = { 9 }, start[NEARBY_PLACE] = { NEARBY_FAR }, outcomes[3];
    uint8_t out[NEARBY_ANSWER_LINE];
    const text line = { (const uint8_t *)"00\n", 3 };
    points p = { probe, 2 };
    room r = { reach, 1 }, l = { start, NEARBY_PLACE }, told = { outcomes, 3 }, filled = { items, 48 };
    CHECK(try_enter(&s, NULL, 0, no_points).refusal == 0);
    CHECK(try_enter(&s, given, 1, no_points).refusal == 5 && try_enter(&s, NULL, 0, p).refusal == 5);
    CHECK(try_nearest(&s, no_points, 9).refusal == 5 && try_farthest(&s, no_points).refusal == 5);
    for (uint8_t order = NEARBY_NEAR; order <= NEARBY_FAR; order++) {
        CHECK(try_page(&s, order, no_points, 9, (nearby_start){ 0 }, 3, filled).refusal == 5);
        CHECK(try_page(&s, order, p, 9, (nearby_start){ 0 }, 3, no_room).refusal == 12);
    }
    CHECK(try_answer(&s, no_text, (output){ out, sizeof out }).refusal == 9 && try_answer(&s, line, no_output).refusal == 12);
    CHECK(try_many_nearest(&s, no_points, no_room, no_room) == 0 && try_many_farthest(&s, no_points, 0, no_room) == 0);
    CHECK(try_many_nearest(&s, no_points, r, filled) == 5 && try_many_nearest(&s, p, no_room, filled) == 5);
    CHECK(try_many_nearest(&s, p, r, no_room) == 12 && try_many_farthest(&s, p, 1, no_room) == 12);
    CHECK(try_many_farthest(&s, no_points, 1, filled) == 5 && try_many_farthest(&s, p, 0, filled) == 5);
    CHECK(try_many_pages(&s, no_points, no_room, no_room, 3, no_room, no_room) == 0);
    CHECK(try_many_pages(&s, no_points, r, l, 3, told, filled) == 5 && try_many_pages(&s, p, no_room, l, 3, told, filled) == 5);
    CHECK(try_many_pages(&s, p, r, no_room, 3, told, filled) == 5);
    CHECK(try_many_pages(&s, p, r, l, 3, no_room, filled) == 12 && try_many_pages(&s, p, r, l, 3, told, no_room) == 12);
    CHECK(try_many_answers(&s, no_text, no_room, (output){ out, sizeof out }).refusal == 0);
    CHECK(try_many_answers(&s, line, no_room, (output){ out, sizeof out }).lines == 0);
    CHECK(try_many_answers(&s, line, told, no_output).refusal == 12);
    free_store(&s);
}

static void null_for_a_list(uint8_t order)
{
    const int32_t probe[] = { 1, 1 };
    uint8_t out[NEARBY_ANSWER_LINE];
    nearby_list list = try_open(order, 7, 1, 2, (points){ probe, 2 }, 9).list;
    CHECK(try_open(order, 7, 1, 2, no_points, 9).refusal == 5 && try_open(order, 7, 1, 0, no_points, 9).refusal == 1);
    CHECK(try_write_ask(list, no_room, 3, (output){ out, sizeof out }).refusal == 0);
    CHECK(try_write_ask(list, no_room, 3, no_output).refusal == 12);
    CHECK(try_take(list, no_room, no_text).refusal == 9);
    nearby_scope scope = { .reach = 9 };
    size_t length = try_answer_line(order, 7, 1, 2, (points){ probe, 2 }, scope, 1, 0, no_room, (output){ out, sizeof out }).length;
    nearby_listed taken = try_take(list, no_room, (text){ out, length });
    CHECK(taken.refusal == 0 && taken.list.complete == 1 && taken.list.count == 0);
    CHECK(try_write_ask(taken.list, no_room, 3, no_output).refusal == 16);
}

static void null_for_list_slices(void)
{
    null_for_a_list(NEARBY_NEAR);
    null_for_a_list(NEARBY_FAR);
}

static void null_for_lines_of(uint8_t order)
{
    const int32_t place[] = { 1 };
    uint64_t item[] = { 1, 2, 3 };
    uint8_t out[NEARBY_ANSWER_LINE];
    const nearby_scope scope = { .reach = 9 };
    output o = { out, sizeof out };
    points p = { place, 1 };
    CHECK(try_ask_line(order, 7, 1, 1, no_points, scope, 1, o).refusal == 10);
    CHECK(try_ask_line(order, 7, 1, 1, p, scope, 1, no_output).refusal == 12);
    CHECK(try_ask_line(order, 7, 1, 0, no_points, scope, 1, o).refusal == 10);
    CHECK(try_answer_line(order, 7, 1, 1, no_points, scope, 1, 0, no_room, o).refusal == 10);
    CHECK(try_answer_line(order, 7, 1, 1, p, scope, 1, 1, no_room, o).refusal == 10);
    CHECK(try_answer_line(order, 7, 1, 1, p, scope, 1, 0, no_room, o).refusal == 0);
    CHECK(try_answer_line(order, 7, 1, 1, p, scope, 1, 1, (room){ item, 3 }, no_output).refusal == 12);
}

static void null_for_line_slices(void)
{
    const int32_t place[] = { 1 };
    uint8_t out[NEARBY_CLAIM_LINE];
    output o = { out, sizeof out };
    null_for_lines_of(NEARBY_NEAR);
    null_for_lines_of(NEARBY_FAR);
    CHECK(try_claim_line(7, 1, 1, 5, no_points, o).refusal == 10);
    CHECK(try_claim_line(7, 1, 1, 5, (points){ place, 1 }, no_output).refusal == 12);
    CHECK(try_read_ask(no_text).refusal == 9 && try_read_answer(no_text).refusal == 9 && try_read_claim(no_text).refusal == 9);
}

/* A call with nothing at all. */
static void null_for_everything(void)
{
    store s = nothing;
    CHECK(try_make(0, 0, 0, 0, &s).refusal == 1 && try_make(1, 1, 1, 1, &s).refusal == 1 && try_test(&s) == 1);
    CHECK(try_enter(&s, NULL, 0, no_points).refusal == 1);
    CHECK(try_nearest(&s, no_points, 0).refusal == 1 && try_farthest(&s, no_points).refusal == 1);
    CHECK(try_page(&s, 0, no_points, 0, (nearby_start){ 0 }, 0, no_room).refusal == 1);
    CHECK(try_open(0, 0, 0, 0, no_points, 0).refusal == 1);
    CHECK(try_answer(&s, no_text, no_output).refusal == 12);
    CHECK(try_write_ask((nearby_list){ 0 }, no_room, 0, no_output).refusal == 2);
    CHECK(try_take((nearby_list){ 0 }, no_room, no_text).refusal == 2);
    CHECK(try_many_nearest(&s, no_points, no_room, no_room) == 1 && try_many_farthest(&s, no_points, 0, no_room) == 1);
    CHECK(try_many_pages(&s, no_points, no_room, no_room, 0, no_room, no_room) == 1);
    CHECK(try_many_answers(&s, no_text, no_room, no_output).refusal == 12);
}

void edge_tests(void)
{
    run_test("null: for the slices of a table", null_for_table_slices);
    run_test("null: for the slices of a question", null_for_question_slices);
    run_test("null: for the slices of a list", null_for_list_slices);
    run_test("null: for the slices of a line", null_for_line_slices);
    run_test("null: for everything", null_for_everything);
}
