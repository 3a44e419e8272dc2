/* Every refusal of taking a line into a list that is sound: 9, 10, 16, 13, 14, 15; and 2 before each of them. */
#include "list_cases.h"
#include "tests.h"

/* The line. */
static void unended(situation *c) { c->unended = true; }
static void no_digit(situation *c) { c->no_digit = true; }
static void ask_line(situation *c) { c->writer = ASK_LINE; c->fields.scope = (nearby_scope){ .reach = 5 }; }
static void claim_line(situation *c) { c->writer = CLAIM_LINE; }
static void other_order(situation *c) { c->fields.order = c->fields.order == NEARBY_NEAR ? NEARBY_FAR : NEARBY_NEAR; }
static void byte_short(situation *c) { c->byte_short = true; }

/* The ask that it answers. */
static void other_table(situation *c) { c->fields.table = 8; }
static void other_measure(situation *c) { c->fields.measure = 2; }
static void other_d(situation *c) { c->fields.d = 2; }
static void other_probe(situation *c) { c->fields.probe[0] = 5; }
static void other_reach(situation *c) { c->fields.scope.reach = 6; }
static void other_snapshot(situation *c) { c->fields.scope.snapshot = 6; }
static void other_mark_distance(situation *c) { c->fields.scope.distance = 0; }
static void other_mark_number(situation *c) { c->fields.scope.number = 3; }
static void from_the_start(situation *c) { c->fields.scope = (nearby_scope){ .reach = 5, .snapshot = 5 }; }
static void from_a_mark(situation *c) { c->fields.scope.from = 1; }

/* Its items. What is after the mark in far order is within reach, as the mark is: there an item over reach shows on the first page. */
static void page_falls(situation *c) { set_page(c, (two_items){ 3, 3, 0, 2 }, (two_items){ 2, 2, 4, 3 }); }
static void page_falls_within_a_tie(situation *c) { set_page(c, (two_items){ 3, 2, 0, 2 }, (two_items){ 4, 2, 2, 2 }); }
static void page_item_twice(situation *c) { set_page(c, (two_items){ 3, 2, 3, 2 }, (two_items){ 2, 2, 2, 2 }); }
static void page_item_is_the_mark(situation *c) { set_page(c, (two_items){ 4, 1, 3, 2 }, (two_items){ 1, 4, 4, 2 }); }
static void page_number_before_the_mark(situation *c) { set_page(c, (two_items){ 3, 1, 0, 2 }, (two_items){ 0, 4, 4, 2 }); }
static void page_distance_before_the_mark(situation *c) { set_page(c, (two_items){ 4, 0, 3, 2 }, (two_items){ 2, 5, 4, 2 }); }
static void page_to_the_end(situation *c) { set_page(c, (two_items){ 0, 2, 3, 5 }, (two_items){ 2, 2, 4, 0 }); }
static void page_item_over_reach(situation *c) { set_page(c, (two_items){ 0, 2, 3, 6 }, (two_items){ 2, 6, 4, 2 }); }
static void page_item_at_snapshot(situation *c) { set_page(c, (two_items){ 0, 2, 5, 2 }, (two_items){ 2, 2, 5, 2 }); }
static void page_item_over_snapshot(situation *c) { set_page(c, (two_items){ 0, 2, 4095, 2 }, (two_items){ 2, 2, 4095, 2 }); }
static void page_empty(situation *c) { c->fields.count = 0; }
static void page_last(situation *c) { c->fields.last = 1; }

/* The list's room. */
static void room_of_2_items(situation *c) { c->items_length = 2 * NEARBY_ITEM; }
static void room_of_3_items(situation *c) { c->items_length = 3 * NEARBY_ITEM; }
static void room_of_11_numbers(situation *c) { c->items_length = 11; }
static void room_of_nothing(situation *c) { c->items_length = 0; }

/* Before the start the answer's snapshot is not compared: it becomes the list's. */
static const list_case taken[] = {
    CASE(0, in_order),
    CASE(0, list_started_as_255),
    CASE(0, list_far_as_255),
    CASE(0, list_at_snapshot_4096),
    CASE(0, page_to_the_end),
    CASE(0, page_last),
    CASE(0, page_empty, page_last),
    CASE(0, room_of_2_items, page_empty, page_last),
    CASE(0, list_not_started),
    CASE(0, list_not_started, list_far_as_255),
    CASE(0, list_not_started, other_snapshot),
    CASE(0, list_not_started, room_of_2_items),
    CASE(0, list_not_started, page_empty, page_last),
};

static const list_case refused[] = {
    CASE(9, unended),
    CASE(9, no_digit),
    CASE(10, ask_line),
    CASE(10, ask_line, other_order),
    CASE(10, claim_line),
    CASE(10, byte_short),
    CASE(10, other_order),
    CASE(10, other_order, list_far_as_255),
    CASE(10, other_order, page_empty, page_last),
    CASE(10, list_not_started, other_order),
    CASE(16, list_complete),
    CASE(16, list_complete_as_255),
    CASE(16, list_complete, list_empty),
    CASE(13, other_table),
    CASE(13, other_measure),
    CASE(13, other_d),
    CASE(13, other_probe),
    CASE(13, other_reach),
    CASE(13, other_snapshot),
    CASE(13, other_mark_distance),
    CASE(13, other_mark_number),
    CASE(13, from_the_start),
    CASE(13, list_started_as_255, other_table),
    CASE(13, list_not_started, other_table),
    CASE(13, list_not_started, from_a_mark),
    CASE(14, page_falls),
    CASE(14, page_falls_within_a_tie),
    CASE(14, page_item_twice),
    CASE(14, page_item_is_the_mark),
    CASE(14, page_number_before_the_mark),
    CASE(14, page_distance_before_the_mark),
    CASE(14, page_item_over_reach),
    CASE(14, page_item_at_snapshot),
    CASE(14, page_item_over_snapshot),
    CASE(14, page_empty),
    CASE(14, list_not_started, page_falls),
    CASE(14, list_not_started, page_falls_within_a_tie),
    CASE(14, list_not_started, page_item_twice),
    CASE(14, list_not_started, page_item_over_reach),
    CASE(14, list_not_started, page_item_at_snapshot),
    CASE(14, list_not_started, page_empty),
    CASE(15, room_of_3_items),
    CASE(15, room_of_11_numbers),
    CASE(15, room_of_2_items),
    CASE(15, room_of_2_items, page_last),
    CASE(15, list_not_started, room_of_nothing),
};

/* Each number with each one behind it in the call's order. */
static const list_case two_at_once[] = {
    CASE(2, list_falls, unended),
    CASE(2, list_falls, ask_line),
    CASE(2, list_falls, other_order),
    CASE(2, list_falls, list_complete),
    CASE(2, list_falls, other_table),
    CASE(2, list_falls, page_falls),
    CASE(2, list_falls, room_of_3_items),
    CASE(9, unended, ask_line),
    CASE(9, unended, other_order),
    CASE(9, no_digit, other_order),
    CASE(9, unended, list_complete),
    CASE(9, unended, other_table),
    CASE(9, unended, page_falls),
    CASE(9, unended, room_of_3_items),
    CASE(10, ask_line, list_complete),
    CASE(10, other_order, list_complete),
    CASE(10, other_order, list_complete_as_255),
    CASE(10, other_order, other_table),
    CASE(10, other_order, page_falls),
    CASE(10, other_order, room_of_3_items),
    CASE(10, byte_short, other_table),
    CASE(10, byte_short, page_falls),
    CASE(10, byte_short, room_of_3_items),
    CASE(16, list_complete, other_table),
    CASE(16, list_complete, page_falls),
    CASE(16, list_complete, room_of_3_items),
    CASE(13, other_table, page_falls),
    CASE(13, other_table, room_of_3_items),
    CASE(14, page_falls, room_of_3_items),
};

static void lines_taken(void)
{
    take_cases(taken, LENGTH(taken));
}

static void lines_refused(void)
{
    take_cases(refused, LENGTH(refused));
}

static void first_in_order(void)
{
    take_cases(two_at_once, LENGTH(two_at_once));
}

void take_refusal_tests(void)
{
    run_test("take refusals: nothing amiss", lines_taken);
    run_test("take refusals: each reason alone", lines_refused);
    run_test("take refusals: two at once", first_in_order);
}
