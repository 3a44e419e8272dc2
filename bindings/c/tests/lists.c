/* Generated lists of both orders, where a list or a line is damaged. */
#include "stores.h"
#include "tablets.h"
#include "tests.h"

#include <stdlib.h>
#include <string.h>

/* A list with some pages of a table, and the answer to its present ask. */
typedef struct {
    store s;
    tablet t;
    uint8_t answer[NEARBY_ANSWER_LINE];
    size_t length;
} scene;

static void fetch(scene *c, size_t size)
{
    c->length = fetch_answer(&c->t, &c->s, size, (output){ c->answer, sizeof c->answer });
}

static text answer_of(const scene *c)
{
    return (text){ c->answer, c->length };
}

/* The order of a round: each is taken for five rounds on end, so that lists of 0 to 4 pages come in both. */
static uint8_t order_of_round(int round)
{
    return round / 5 % 2 == 0 ? NEARBY_NEAR : NEARBY_FAR;
}

static scene set_scene(seeded *from, uint8_t order, size_t pages)
{
    scene c = { .s = full_store(from, (uint8_t)(1 + below(from, 3)), 1 + below(from, 8), 40, 30, TIED) };
    int32_t probe[8];
    put_coordinates(from, TIED, probe, 8);
    const nearby_table *t = &c.s.table;
    c.t = open_tablet(order, t->number, t->measure, (points){ probe, t->d }, UINT64_MAX, 40 * NEARBY_ITEM + below(from, 3));
    for (size_t i = 0; i < pages; i++) {
        fetch(&c, 4);
        c.t.list = try_take(c.t.list, c.t.items, answer_of(&c)).list;
    }
    fetch(&c, 3);
    return c;
}

static void drop_scene(scene *c)
{
    free_store(&c->s);
    free_room(c->t.items);
}

/* Any digit of an answer or an ask changed: what tablet and office make of it is what the model makes of it. */
static void change_digits(seeded *from, uint8_t order, size_t pages)
{
    uint8_t ask[NEARBY_ASK_LINE], out[NEARBY_ANSWER_LINE];
    scene c = set_scene(from, order, pages);
    size_t asked = try_write_ask(c.t.list, c.t.items, 5, (output){ ask, sizeof ask }).length;
    for (int turn = 0; turn < 3000; turn++) {
        size_t at = below(from, c.length), in_ask = below(from, asked);
        uint8_t was = c.answer[at], was_asked = ask[in_ask];
        uint64_t *kept = malloc(c.t.items.length * sizeof(uint64_t));
        memcpy(kept, c.t.items.at, c.t.items.length * sizeof(uint64_t));
        c.answer[at] = ask[in_ask] = (uint8_t)(one_in(from, 8) ? next_number(from) : (uint8_t)"0123456789abcdef"[turn % 16]);
        try_take(c.t.list, c.t.items, answer_of(&c));
        try_answer(&c.s, (text){ ask, asked }, (output){ out, sizeof out });
        memcpy(c.t.items.at, kept, c.t.items.length * sizeof(uint64_t));
        free(kept);
        c.answer[at] = was;
        ask[in_ask] = was_asked;
    }
    drop_scene(&c);
}

static void ends_with_a_digit_changed(void)
{
    seeded from = seed(32);
    for (size_t pages = 0; pages < 4; pages++) {
        change_digits(&from, NEARBY_NEAR, pages);
        change_digits(&from, NEARBY_FAR, pages);
    }
}

/* An answer written with fields that are near the right ones. */
static void send_amiss(seeded *from, const scene *c)
{
    nearby_answer_fields a = nearby_read_answer_line(c->answer, c->length).answer;
    uint8_t out[NEARBY_ANSWER_LINE];
    uint64_t near = below(from, 3);
    switch (below(from, 15)) {
    case 0: a.table ^= (uint32_t)near; break;
    case 1: a.measure = (uint8_t)(1 + near); break;
    case 2: a.probe[below(from, a.d)] ^= (int32_t)near; break;
    case 3: a.scope.reach -= near; break;
    case 4: a.scope.from = (uint8_t)(near % 2); break;
    case 5: a.scope.snapshot = (uint16_t)(a.scope.snapshot + near - 1); break;
    case 6: a.scope.distance += near - 1; break;
    case 7: a.scope.number = (uint16_t)(a.scope.number + near - 1); break;
    case 8: a.last = (uint8_t)(near % 2); break;
    case 9: a.count = (uint8_t)near; break;
    case 10: a.items[3 * near] = below(from, 40); break;
    case 11: a.items[3 * near + 2] += below(from, 3) - 1; break;
    case 12: a.scope.distance = a.scope.number = 0; break;
    case 13: a.order = (uint8_t)near; break;
    default: memmove(a.items, a.items + 3, 6 * sizeof(uint64_t)); break;
    }
    if (a.scope.from == 0)
        a.scope.distance = a.scope.number = 0;
    nearby_written wrote = nearby_write_answer_line(a.order, a.table, a.measure, a.d, a.probe, a.d, a.scope, a.last, a.count,
                                                    a.items, 3u * a.count, out, sizeof out);
    if (wrote.refusal != 0)
        return;
    room items = make_room(c->t.items.length - (one_in(from, 4) ? (40 - c->t.list.count - below(from, 4)) * NEARBY_ITEM : 0));
    memcpy(items.at, c->t.items.at, items.length * sizeof(uint64_t));
    try_take(c->t.list, items, (text){ out, wrote.length });
    free_room(items);
}

static void answers_amiss(void)
{
    seeded from = seed(33);
    for (int round = 0; round < 40; round++) {
        scene c = set_scene(&from, order_of_round(round), (size_t)round % 5);
        for (int turn = 0; turn < 400; turn++)
            send_amiss(&from, &c);
        drop_scene(&c);
    }
}

/* A list with one field or item amiss asks nothing and takes nothing, unless the rules call it sound. */
static void damage_list(seeded *from, nearby_list *l, room items)
{
    const uint8_t flags[] = { 0, 1, 2, 255 };
    const size_t sizes[] = { 0, 1, 7, 8, 9, 40, 41, SIZE_MAX / 3 + 1, SIZE_MAX };
    size_t size = sizes[below(from, LENGTH(sizes))];
    size_t at = below(from, items.length);
    switch (below(from, 10)) {
    case 0: l->measure = (uint8_t)below(from, 6); break;
    case 1: l->started = flags[below(from, 4)]; break;
    case 2: l->complete = flags[below(from, 4)]; break;
    case 3: l->d = size; break;
    case 4: l->probe[below(from, 8)] += (int32_t)below(from, 2); break;
    case 5: l->reach = below(from, 12); break;
    case 6: l->snapshot = one_in(from, 2) ? 4095 + below(from, 3) : below(from, 41); break;
    case 7: l->count = size; break;
    case 8: l->order = flags[below(from, 4)]; break;
    default: items.at[at] = one_in(from, 2) ? items.at[at] + below(from, 3) - 1 : next_number(from); break;
    }
}

static void lists_damaged(void)
{
    seeded from = seed(34);
    uint8_t out[NEARBY_ASK_LINE] = { 0 };
    for (int round = 0; round < 40; round++) {
        scene c = set_scene(&from, order_of_round(round), (size_t)round % 5);
        for (int turn = 0; turn < 400; turn++) {
            nearby_list l = c.t.list;
            room items = make_room(c.t.items.length);
            memcpy(items.at, c.t.items.at, items.length * sizeof(uint64_t));
            damage_list(&from, &l, items);
            try_write_ask(l, items, 1 + below(&from, 16), (output){ out, sizeof out });
            try_take(l, items, one_in(&from, 4) ? (text){ out, 7 } : answer_of(&c));
            free_room(items);
        }
        drop_scene(&c);
    }
}

/* [7.5] A list that has started does not take an answer from the start, which may be of another snapshot. */
static void take_late(seeded *from, uint8_t order)
{
    scene c = set_scene(from, order, 0);
    uint8_t first[NEARBY_ANSWER_LINE];
    size_t length = c.length;
    memcpy(first, c.answer, length);
    enter_run(from, &c.s, 1, TIED);
    fetch(&c, 3);
    nearby_listed taken = try_take(c.t.list, c.t.items, answer_of(&c));
    CHECK(taken.refusal == 0 && taken.list.snapshot == 31);
    CHECK(try_take(taken.list, c.t.items, (text){ first, length }).refusal == 13);
    CHECK(try_take(taken.list, c.t.items, answer_of(&c)).refusal == 13);
    drop_scene(&c);
}

static void late_first_answer(void)
{
    seeded from = seed(36);
    take_late(&from, NEARBY_NEAR);
    take_late(&from, NEARBY_FAR);
}

void list_tests(void)
{
    run_test("lists: both ends with a digit changed", ends_with_a_digit_changed);
    run_test("lists: answers amiss", answers_amiss);
    run_test("lists: damaged lists", lists_damaged);
    run_test("lists: a late first answer", late_first_answer);
}
