#include "list_cases.h"

#include <stdio.h>
#include <string.h>

/* By order, a list after its first page of 2, and the answer to its present ask; the room has just the place for them. The near one,
 * from probe 4, has claims 1 and 4 at distance 1, and then come 0 and 3 at distance 2. The far one, from probe 7, has claim 0 at
 * distance 5 and claim 1 at 4, and then come 2 and 4 at distance 2. */
static const situation ordered[] = {
    [NEARBY_NEAR] = {
        .list = { .table = 7, .order = NEARBY_NEAR, .measure = 1, .started = 1, .d = 1, .probe = { 4 }, .reach = 5, .snapshot = 5,
                  .count = 2 },
        .items = { 1, 0x66, 1, 4, 0x69, 1 },
        .items_length = 4 * NEARBY_ITEM,
        .writer = ANSWER_LINE,
        .fields = { .table = 7, .order = NEARBY_NEAR, .measure = 1, .d = 1, .probe = { 4 },
                    .scope = { .reach = 5, .from = 1, .snapshot = 5, .distance = 1, .number = 4 },
                    .count = 2, .items = { 0, 0x65, 2, 3, 0x68, 2 } },
        .size = 2,
        .out_length = NEARBY_ASK_LINE,
    },
    [NEARBY_FAR] = {
        .list = { .table = 7, .order = NEARBY_FAR, .measure = 1, .started = 1, .d = 1, .probe = { 7 }, .reach = 5, .snapshot = 5,
                  .count = 2 },
        .items = { 0, 0x65, 5, 1, 0x66, 4 },
        .items_length = 4 * NEARBY_ITEM,
        .writer = ANSWER_LINE,
        .fields = { .table = 7, .order = NEARBY_FAR, .measure = 1, .d = 1, .probe = { 7 },
                    .scope = { .reach = 5, .from = 1, .snapshot = 5, .distance = 4, .number = 1 },
                    .count = 2, .items = { 2, 0x67, 2, 4, 0x69, 2 } },
        .size = 2,
        .out_length = NEARBY_ASK_LINE,
    },
};

/* ---- Changes ---- */

static void set_items(uint64_t *items, two_items to)
{
    items[0] = to.first;
    items[2] = to.first_distance;
    items[3] = to.second;
    items[5] = to.second_distance;
}

void set_list(situation *c, two_items near, two_items far)
{
    set_items(c->items, c->list.order == NEARBY_NEAR ? near : far);
}

void set_page(situation *c, two_items near, two_items far)
{
    set_items(c->fields.items, c->list.order == NEARBY_NEAR ? near : far);
}

void in_order(situation *c)
{
    (void)c;
}

void list_not_started(situation *c)
{
    c->list.started = 0;
    c->list.snapshot = 0;
    c->list.count = 0;
    c->fields.scope = (nearby_scope){ .reach = 5, .snapshot = 5 };
    set_page(c, (two_items){ 1, 1, 4, 1 }, (two_items){ 0, 5, 1, 4 });
}

void list_started_as_255(situation *c) { c->list.started = 255; }
void list_complete(situation *c) { c->list.complete = 1; }
void list_complete_as_255(situation *c) { c->list.complete = 255; }
void list_empty(situation *c) { c->list.count = 0; }
void list_at_snapshot_4096(situation *c) { c->list.snapshot = c->fields.scope.snapshot = 4096; }
void list_far_as_255(situation *c) { c->list.order = c->list.order == NEARBY_NEAR ? NEARBY_NEAR : 255; }
void list_falls(situation *c) { set_list(c, (two_items){ 1, 2, 4, 1 }, (two_items){ 0, 4, 1, 5 }); }

/* ---- Cases ---- */

static situation situation_of(const list_case *k, uint8_t order)
{
    situation c = ordered[order];
    for (size_t i = 0; i < LENGTH(k->changes) && k->changes[i] != NULL; i++)
        k->changes[i](&c);
    return c;
}

static room lend_room(const situation *c)
{
    room items = make_room(c->items_length);
    memcpy(items.at, c->items, c->items_length * sizeof(uint64_t));
    return items;
}

static void check_number(const list_case *k, uint8_t order, uint8_t is)
{
    if (!CHECK(is == k->refusal))
        printf(" (order %u, %s: %u and not %u)", order, k->what, is, k->refusal);
}

static void ask_case(const list_case *k, uint8_t order)
{
    situation c = situation_of(k, order);
    room items = lend_room(&c);
    uint8_t *out = brink(c.out_length);
    memset(out, '.', c.out_length);
    check_number(k, order, try_write_ask(c.list, items, c.size, (output){ out, c.out_length }).refusal);
    brink_free(out, c.out_length);
    free_room(items);
}

void ask_cases(const list_case *cases, size_t count)
{
    for (size_t i = 0; i < count; i++) {
        ask_case(&cases[i], NEARBY_NEAR);
        ask_case(&cases[i], NEARBY_FAR);
    }
}

static size_t write_whole(situation *c, output out)
{
    nearby_answer_fields *f = &c->fields;
    points probe = { f->probe, f->d };
    switch (c->writer) {
    case ASK_LINE: return model_ask_line(f->order, f->table, f->measure, f->d, probe, f->scope, 2, out).length;
    case CLAIM_LINE: return model_claim_line(f->table, f->measure, f->d, 0x65, probe, out).length;
    default:
        return model_answer_line(f->order, f->table, f->measure, f->d, probe, f->scope, f->last, f->count,
                                 (room){ f->items, (size_t)f->count * NEARBY_ITEM }, out).length;
    }
}

/* The line as it arrives, in memory that ends with it. */
static output write_line(situation *c)
{
    uint8_t whole[NEARBY_ANSWER_LINE];
    size_t length = write_whole(c, (output){ whole, sizeof whole });
    CHECK(length > 0);
    if (c->no_digit)
        whole[length / 2] = 'A';
    if (c->byte_short) {
        length -= 2;
        whole[length - 1] = '\n';
    }
    length -= c->unended;
    output line = { brink(length), length };
    memcpy(line.at, whole, length);
    return line;
}

static void take_case(const list_case *k, uint8_t order)
{
    situation c = situation_of(k, order);
    room items = lend_room(&c);
    output line = write_line(&c);
    nearby_listed taken = try_take(c.list, items, (text){ line.at, line.length });
    check_number(k, order, taken.refusal);
    CHECK(taken.list.order == order);
    brink_free(line.at, line.length);
    free_room(items);
}

void take_cases(const list_case *cases, size_t count)
{
    for (size_t i = 0; i < count; i++) {
        take_case(&cases[i], NEARBY_NEAR);
        take_case(&cases[i], NEARBY_FAR);
    }
}
