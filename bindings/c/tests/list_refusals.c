/* Every refusal of opening a list and of writing its ask, and every reason for which a list is not sound. */
#include "list_cases.h"
#include "tests.h"

/* ---- Opening: 1, 5 ---- */

static void open_in(uint8_t order)
{
    const size_t sizes[] = { 0, 1, 2, 7, 8, 9, 255, 256, SIZE_MAX };
    const int32_t probe[10] = { 1, 2, 3, 4, 5, 6, 7, 8, 9, 10 };
    for (unsigned measure = 0; measure < 256; measure++)
        for (size_t i = 0; i < LENGTH(sizes); i++)
            for (size_t length = 0; length <= 10; length++) {
                nearby_listed opened = try_open(order, 7, (uint8_t)measure, sizes[i], (points){ probe, length }, 5);
                bool in_range = measure >= 1 && measure <= 3 && sizes[i] >= 1 && sizes[i] <= 8;
                CHECK(opened.refusal == (!in_range ? 1 : length != sizes[i] ? 5 : 0));
                CHECK(opened.list.order == (opened.refusal == 0 && order != NEARBY_NEAR));
            }
}

static void opening(void)
{
    open_in(NEARBY_NEAR);
    open_in(NEARBY_FAR);
    open_in(255);
}

/* ---- Lists that are not sound: 2 ---- */

static void measure_0(situation *c) { c->list.measure = 0; }
static void measure_4(situation *c) { c->list.measure = 4; }
static void d_0(situation *c) { c->list.d = 0; }
static void probe_of_nothing(situation *c) { c->list.probe[0] = 0; }
static void d_9(situation *c) { c->list.d = 9; }
static void unused_place_2(situation *c) { c->list.probe[1] = 1; }
static void unused_place_8(situation *c) { c->list.probe[7] = -1; }
static void snapshot_1(situation *c) { c->list.snapshot = 1; }
static void snapshot_4097(situation *c) { c->list.snapshot = 4097; }
static void room_of_1_item(situation *c) { c->items_length = NEARBY_ITEM; }
static void room_of_5_numbers(situation *c) { c->items_length = 5; }
static void falls_within_a_tie(situation *c) { set_list(c, (two_items){ 4, 1, 1, 1 }, (two_items){ 1, 4, 0, 4 }); }
static void item_twice(situation *c) { set_list(c, (two_items){ 4, 1, 4, 1 }, (two_items){ 1, 4, 1, 4 }); }
static void item_over_reach(situation *c) { set_list(c, (two_items){ 1, 1, 4, 6 }, (two_items){ 0, 6, 1, 4 }); }
static void item_at_snapshot(situation *c) { set_list(c, (two_items){ 1, 1, 5, 1 }, (two_items){ 0, 5, 5, 4 }); }
static void item_over_snapshot(situation *c) { set_list(c, (two_items){ 1, 1, UINT64_MAX, 1 }, (two_items){ 0, 5, UINT64_MAX, 4 }); }
static void not_flagged_as_started(situation *c) { c->list.started = 0; }
static void flagged_as_started(situation *c) { c->list.started = 1; }

static const list_case not_sound[] = {
    CASE(2, measure_0),
    CASE(2, measure_4),
    CASE(2, d_0, probe_of_nothing),
    CASE(2, d_9),
    CASE(2, unused_place_2),
    CASE(2, unused_place_8),
    CASE(2, snapshot_4097),
    CASE(2, room_of_1_item),
    CASE(2, room_of_5_numbers),
    CASE(2, list_falls),
    CASE(2, falls_within_a_tie),
    CASE(2, item_twice),
    CASE(2, item_over_reach),
    CASE(2, item_at_snapshot),
    CASE(2, item_over_snapshot),
    CASE(2, not_flagged_as_started),
    CASE(2, list_not_started, snapshot_1),
    CASE(2, list_not_started, list_complete),
    CASE(2, list_not_started, flagged_as_started),
};

static void lists_not_sound(void)
{
    ask_cases(not_sound, LENGTH(not_sound));
    take_cases(not_sound, LENGTH(not_sound));
}

/* ---- [9.12] Writing an ask ---- */

static void size_0(situation *c) { c->size = 0; }
static void size_17(situation *c) { c->size = 17; }
static void out_of_122(situation *c) { c->out_length = 122; }

static const list_case asks[] = {
    CASE(0, in_order),
    CASE(0, list_started_as_255),
    CASE(0, list_far_as_255),
    CASE(0, list_at_snapshot_4096),
    CASE(0, list_not_started),
    CASE(0, list_not_started, list_far_as_255),
    CASE(16, list_complete),
    CASE(16, list_complete_as_255),
    CASE(16, list_complete, list_empty),
    CASE(6, size_0),
    CASE(6, size_17),
    CASE(12, out_of_122),
    /* Two at once: the first in the call's order. */
    CASE(2, list_falls, list_complete),
    CASE(2, list_falls, size_0),
    CASE(2, list_falls, out_of_122),
    CASE(16, list_complete, size_0),
    CASE(16, list_complete, out_of_122),
    CASE(6, size_0, out_of_122),
};

static void asking(void)
{
    ask_cases(asks, LENGTH(asks));
}

static void ask_in_every_room(uint8_t order)
{
    const size_t sizes[] = { 0, 1, 16, 17, 255, 256, 257, SIZE_MAX };
    const int32_t probe[] = { 4 };
    tablet t = open_tablet(order, 7, 1, (points){ probe, 1 }, 5, 0);
    for (size_t i = 0; i < LENGTH(sizes); i++)
        for (size_t length = 0; length <= NEARBY_ASK_LINE + 1; length++) {
            uint8_t *out = brink(length);
            uint8_t refusal = try_write_ask(t.list, t.items, sizes[i], (output){ out, length }).refusal;
            bool in_range = sizes[i] >= 1 && sizes[i] <= 16;
            CHECK(refusal == (!in_range ? 6 : length < 123 ? 12 : 0));
            brink_free(out, length);
        }
    free_room(t.items);
}

static void asking_in_every_room(void)
{
    ask_in_every_room(NEARBY_NEAR);
    ask_in_every_room(NEARBY_FAR);
}

void list_refusal_tests(void)
{
    run_test("list refusals: opening", opening);
    run_test("list refusals: lists that are not sound", lists_not_sound);
    run_test("list refusals: writing an ask", asking);
    run_test("list refusals: writing an ask into every room", asking_in_every_room);
}
