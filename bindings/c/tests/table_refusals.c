/*
 * What each call on a table refuses, by number, and of two faults at once the one that stands first in the call's order. The
 * numbers are those of the rules; neither the library nor the model had a part in them, and both have to give them.
 */
#include "orders.h"
#include "table_scene.h"
#include "tests.h"

#include <stdio.h>

/* Ranges, and lengths of lent memory; each row that is refused differs in one thing from a row that is not. */
static const struct {
    uint8_t measure;
    size_t d, capacity, references, coordinates, nodes;
    uint8_t number;
} making[] = {
    { 1, 2, 8, 8, 16, 48, 0 },
    { 0, 2, 8, 8, 16, 48, 1 },
    { 4, 2, 8, 8, 16, 48, 1 },
    { 255, 2, 8, 8, 16, 48, 1 },
    { 1, 0, 8, 8, 16, 48, 1 },
    { 1, 2, 0, 8, 16, 48, 1 },
    { 1, 2, 8, 7, 16, 48, 1 },
    { 1, 2, 8, 8, 15, 48, 1 },
    { 1, 2, 8, 8, 16, 47, 1 },
    { 3, 8, 4096, 4097, 36873, 24582, 0 },
    { 3, 9, 4096, 4097, 36873, 24582, 1 },
    { 3, 8, 4097, 4097, 36873, 24582, 1 },
};

/* Making a table, and testing the empty one that would be made. */
static void refused_to_make(void)
{
    seeded from = seed(71);
    store lent = lend_store(&from, NEARBY_MOST_COORDINATES + 1, NEARBY_MOST_CLAIMS + 1, 0);
    for (size_t i = 0; i < LENGTH(making); i++) {
        store s = lent;
        s.table = (nearby_table){ 7, making[i].measure, making[i].d, making[i].capacity, 0, 0 };
        s.references_length = making[i].references;
        s.coordinates_length = making[i].coordinates;
        s.nodes_length = making[i].nodes;
        CHECK(try_make(7, making[i].measure, making[i].d, making[i].capacity, &s).refusal == making[i].number);
        CHECK(try_test(&s) == making[i].number);
    }
    free_store(&lent);
}

/* ---- Cases: what is wrong, and the number ---- */

typedef struct {
    fault faults[2];
    uint8_t number;
} refusal_case;

static const refusal_case testing[] = {
    { { MEASURE_0 }, 1 },
    { { CAPACITY_OVER_THE_MEMORY }, 1 },
    { { NODE_NUMBER_CHANGED }, 2 },
    { { COUNT_OVER_CAPACITY }, 2 },
    { { ALL_NODES_IN_USE }, 2 },
    { { MEASURE_0, NODE_NUMBER_CHANGED }, 1 },
};

static const refusal_case entering[] = {
    { { MEASURE_0 }, 1 },
    { { CAPACITY_OVER_THE_MEMORY }, 1 },
    { { NODE_NUMBER_CHANGED }, 2 },
    { { COUNT_OVER_CAPACITY }, 2 },
    { { ALL_NODES_IN_USE }, 2 },
    { { COORDINATE_TOO_MANY }, 5 },
    { { COORDINATE_MISSING }, 5 },
    { { REFERENCE_OF_CLAIM_2 }, 17 },
    { { REFERENCE_TWICE }, 17 },
    { { RUN_OVER_CAPACITY }, 3 },
    { { MEASURE_0, NODE_NUMBER_CHANGED }, 1 },
    { { MEASURE_0, REFERENCE_OF_CLAIM_2 }, 1 },
    { { NODE_NUMBER_CHANGED, COORDINATE_TOO_MANY }, 2 },
    { { NODE_NUMBER_CHANGED, REFERENCE_OF_CLAIM_2 }, 2 },
    { { NODE_NUMBER_CHANGED, REFERENCE_TWICE }, 2 },
    { { COORDINATE_MISSING, RUN_OVER_CAPACITY }, 5 },
    { { COORDINATE_MISSING, REFERENCE_OF_CLAIM_2 }, 5 },
    { { COORDINATE_TOO_MANY, REFERENCE_TWICE }, 5 },
    { { REFERENCE_OF_CLAIM_2, RUN_OVER_CAPACITY }, 17 },
    { { REFERENCE_TWICE, RUN_OVER_CAPACITY }, 17 },
};

static const refusal_case nearest_or_farthest[] = {
    { { MEASURE_0 }, 1 },
    { { NODE_NUMBER_CHANGED }, 2 },
    { { COORDINATE_TOO_MANY }, 5 },
    { { COORDINATE_MISSING }, 5 },
    { { MEASURE_0, NODE_NUMBER_CHANGED }, 1 },
    { { NODE_NUMBER_CHANGED, COORDINATE_TOO_MANY }, 2 },
};

static const refusal_case paging[] = {
    { { MEASURE_0 }, 1 },
    { { NODE_NUMBER_CHANGED }, 2 },
    { { COORDINATE_TOO_MANY }, 5 },
    { { SIZE_0 }, 6 },
    { { SIZE_17 }, 6 },
    { { SNAPSHOT_6 }, 7 },
    { { MARK_DISTANCE_WRONG }, 8 },
    { { MARK_OVER_REACH }, 8 },
    { { SNAPSHOT_4 }, 8 },
    { { MARK_NUMBER_5 }, 8 },
    { { MARK_NUMBER_6 }, 8 },
    { { ROOM_SHORT }, 12 },
    { { MEASURE_0, NODE_NUMBER_CHANGED }, 1 },
    { { NODE_NUMBER_CHANGED, COORDINATE_TOO_MANY }, 2 },
    { { COORDINATE_TOO_MANY, SIZE_0 }, 5 },
    { { SIZE_0, SNAPSHOT_6 }, 6 },
    { { SIZE_0, MARK_DISTANCE_WRONG }, 6 },
    { { SIZE_17, ROOM_SHORT }, 6 },
    { { SNAPSHOT_6, MARK_DISTANCE_WRONG }, 7 },
    { { SNAPSHOT_6, MARK_NUMBER_6 }, 7 },
    { { MARK_DISTANCE_WRONG, ROOM_SHORT }, 8 },
};

static const refusal_case answering[] = {
    { { OUTPUT_SHORT }, 12 },
    { { MEASURE_0 }, 1 },
    { { NODE_NUMBER_CHANGED }, 2 },
    { { NO_LINE_END }, 9 },
    { { ODD_DIGITS }, 9 },
    { { A_CLAIM }, 10 },
    { { AN_ANSWER }, 10 },
    { { SIZE_0 }, 10 },
    { { SIZE_17 }, 10 },
    { { TABLE_8 }, 11 },
    { { MEASURE_2 }, 11 },
    { { D_2 }, 11 },
    { { SNAPSHOT_6 }, 7 },
    { { MARK_DISTANCE_WRONG }, 8 },
    { { MARK_OVER_REACH }, 8 },
    { { SNAPSHOT_4 }, 8 },
    { { MARK_NUMBER_5 }, 8 },
    { { OUTPUT_SHORT, MEASURE_0 }, 12 },
    { { OUTPUT_SHORT, NODE_NUMBER_CHANGED }, 12 },
    { { MEASURE_0, NODE_NUMBER_CHANGED }, 1 },
    { { NODE_NUMBER_CHANGED, NO_LINE_END }, 2 },
    { { NO_LINE_END, A_CLAIM }, 9 },
    { { NO_LINE_END, AN_ANSWER }, 9 },
    { { SIZE_0, TABLE_8 }, 10 },
    { { TABLE_8, SNAPSHOT_6 }, 11 },
    { { SNAPSHOT_6, MARK_DISTANCE_WRONG }, 7 },
};

static const refusal_case many_nearest_or_farthest[] = {
    { { MEASURE_0 }, 1 },
    { { NODE_NUMBER_CHANGED }, 2 },
    { { COORDINATE_TOO_MANY }, 5 },
    { { COORDINATE_MISSING }, 5 },
    { { ROOM_SHORT }, 12 },
    { { MEASURE_0, NODE_NUMBER_CHANGED }, 1 },
    { { NODE_NUMBER_CHANGED, COORDINATE_TOO_MANY }, 2 },
    { { COORDINATE_TOO_MANY, ROOM_SHORT }, 5 },
};

static const refusal_case many_paging[] = {
    { { MEASURE_0 }, 1 },
    { { NODE_NUMBER_CHANGED }, 2 },
    { { COORDINATE_TOO_MANY }, 5 },
    { { START_NUMBER_MISSING }, 5 },
    { { SIZE_0 }, 6 },
    { { SIZE_17 }, 6 },
    { { OUTCOMES_SHORT }, 12 },
    { { ROOM_SHORT }, 12 },
    { { SNAPSHOT_6 }, 7 },
    { { MARK_DISTANCE_WRONG }, 8 },
    { { MARK_OVER_REACH }, 8 },
    { { MARK_NUMBER_5 }, 8 },
    { { MEASURE_0, NODE_NUMBER_CHANGED }, 1 },
    { { NODE_NUMBER_CHANGED, START_NUMBER_MISSING }, 2 },
    { { START_NUMBER_MISSING, SIZE_0 }, 5 },
    { { SIZE_17, ROOM_SHORT }, 6 },
    { { OUTCOMES_SHORT, SNAPSHOT_6 }, 12 },
    { { ROOM_SHORT, SNAPSHOT_6 }, 12 },
    { { SNAPSHOT_6, MARK_DISTANCE_WRONG }, 7 },
};

/* ---- Each case, and that none is missing ---- */

typedef struct {
    const refusal_case *at;
    size_t length;
} cases;

#define CASES(array) ((cases){ (array), LENGTH(array) })

/* The number that a fault gives alone, or 0. */
static uint8_t alone(cases all, fault f)
{
    for (size_t i = 0; i < all.length; i++)
        if (all.at[i].faults[0] == f && all.at[i].faults[1] == NO_FAULT)
            return all.at[i].number;
    return 0;
}

/* Whether some case has two faults of these numbers, or one of the first where the second is 0. */
static bool has_case(cases all, uint8_t first, uint8_t second)
{
    for (size_t i = 0; i < all.length; i++) {
        const refusal_case *one = &all.at[i];
        if (one->number == first && alone(all, one->faults[0]) == first && alone(all, one->faults[1]) == second)
            return true;
    }
    return false;
}

/* Every number of the call has a case of its own, and one with the number behind it. */
static void check_none_is_missing(call which, cases all)
{
    uint8_t order[2 * MOST_NUMBERS] = { 0 };
    size_t length = 0;
    for (size_t i = 0; call_numbers[which][i] != 0; i++)
        order[length++] = call_numbers[which][i];
    for (size_t i = 0; row_numbers[which][i] != 0; i++)
        order[length++] = row_numbers[which][i];
    for (size_t i = 0; i < length; i++)
        CHECK(has_case(all, order[i], 0) && (i + 1 == length || has_case(all, order[i], order[i + 1])));
}

static uint8_t call_with(call which, uint8_t order, const fault *faults)
{
    seeded from = seed(72);
    scene c = set_scene(&from, order);
    put_fault(&c, faults[0]);
    put_fault(&c, faults[1]);
    uint8_t refusal = call_scene(which, &c);
    free_store(&c.s);
    return refusal;
}

static void check_cases_in(uint8_t order, call which, cases all)
{
    const fault none[] = { NO_FAULT, NO_FAULT };
    CHECK(call_with(which, order, none) == 0);
    for (size_t i = 0; i < all.length; i++)
        if (!CHECK(call_with(which, order, all.at[i].faults) == all.at[i].number))
            printf(" (call %d, order %d, case %zu)", (int)which, order, i);
}

/* A call that knows no order is called in near order alone. */
static void check_cases(call which, cases all)
{
    check_cases_in(NEARBY_NEAR, which, all);
    check_none_is_missing(which, all);
}

static void check_cases_of_both_orders(call which, cases all)
{
    check_cases(which, all);
    check_cases_in(NEARBY_FAR, which, all);
}

static void refused_to_test(void) { check_cases(TEST, CASES(testing)); }
static void refused_to_enter(void) { check_cases(ENTER, CASES(entering)); }
static void refused_nearest(void) { check_cases(NEAREST, CASES(nearest_or_farthest)); }
static void refused_farthest(void) { check_cases(FARTHEST, CASES(nearest_or_farthest)); }
static void refused_pages(void) { check_cases_of_both_orders(PAGE, CASES(paging)); }
static void refused_asks(void) { check_cases_of_both_orders(ANSWER, CASES(answering)); }
static void refused_many_nearest(void) { check_cases(MANY_NEAREST, CASES(many_nearest_or_farthest)); }
static void refused_many_farthest(void) { check_cases(MANY_FARTHEST, CASES(many_nearest_or_farthest)); }
static void refused_many_pages(void) { check_cases_of_both_orders(MANY_PAGES, CASES(many_paging)); }
/* A buffer of asks is refused as a single ask is, but for the numbers of the line, which its row has. */
static void refused_many_asks(void) { check_cases_of_both_orders(MANY_ANSWERS, CASES(answering)); }

void table_refusal_tests(void)
{
    run_test("table refusals: making", refused_to_make);
    run_test("table refusals: testing", refused_to_test);
    run_test("table refusals: entering", refused_to_enter);
    run_test("table refusals: nearest", refused_nearest);
    run_test("table refusals: farthest", refused_farthest);
    run_test("table refusals: pages", refused_pages);
    run_test("table refusals: asks at the office", refused_asks);
    run_test("table refusals: many nearest", refused_many_nearest);
    run_test("table refusals: many farthest", refused_many_farthest);
    run_test("table refusals: many pages", refused_many_pages);
    run_test("table refusals: many asks", refused_many_asks);
}
