/* A tablet's list: opened, asking, taking. */
#include "model.h"

#include <string.h>

static bool opened_in_range(uint8_t measure, size_t d)
{
    return measure >= 1 && measure <= 3 && d >= 1 && d <= NEARBY_MOST_COORDINATES;
}

nearby_listed model_open(uint8_t order, uint32_t table, uint8_t measure, size_t d, points probe, uint64_t reach)
{
    nearby_listed made = { 0 };
    made.refusal = !opened_in_range(measure, d) ? 1 : probe.length != d ? 5 : 0;
    if (made.refusal != 0)
        return made;
    made.list.table = table;
    made.list.order = order != 0;
    made.list.measure = measure;
    made.list.d = d;
    memcpy(made.list.probe, probe.at, d * sizeof(int32_t));
    made.list.reach = reach;
    return made;
}

/* Whether item b comes after the mark (distance, number) in an order. */
static bool later(uint8_t order, uint64_t distance, uint64_t number, const uint64_t *b)
{
    bool nearer = b[2] < distance, farther = b[2] > distance, follows = b[2] == distance && b[0] > number;
    return follows || (order == NEARBY_NEAR ? farther : nearer);
}

/* Items rise in an order, each within reach and numbered below the snapshot. */
static bool items_rise(uint8_t order, const uint64_t *items, size_t count, uint64_t reach, uint64_t snapshot)
{
    for (size_t i = 0; i < count; i++) {
        const uint64_t *item = items + i * NEARBY_ITEM;
        if (item[2] > reach || item[0] >= snapshot)
            return false;
        if (i > 0 && !later(order, item[-1], item[-3], item))
            return false;
    }
    return true;
}

static bool list_sound(const nearby_list *l, room items)
{
    if (!opened_in_range(l->measure, l->d) || l->snapshot > NEARBY_MOST_CLAIMS || l->count > items.length / NEARBY_ITEM)
        return false;
    for (size_t i = l->d; i < NEARBY_MOST_COORDINATES; i++)
        if (l->probe[i] != 0)
            return false;
    if (!l->started && (l->count != 0 || l->snapshot != 0 || l->complete))
        return false;
    if (l->started && l->count == 0 && !l->complete)
        return false;
    return items_rise(l->order, items.at, l->count, l->reach, l->snapshot);
}

/* What stands behind the probe in the list's present ask. A complete list without items has no ask. */
static nearby_scope present_scope(const nearby_list *l, const uint64_t *items)
{
    nearby_scope p = { .reach = l->reach };
    if (l->started && l->count > 0) {
        const uint64_t *last = items + (l->count - 1) * NEARBY_ITEM;
        p.from = 1;
        p.snapshot = (uint16_t)l->snapshot;
        p.distance = last[2];
        p.number = (uint16_t)last[0];
    }
    return p;
}

nearby_written model_write_ask(nearby_list l, room items, size_t size, output out)
{
    uint8_t refusal = 0;
    if (!list_sound(&l, items))
        refusal = 2;
    else if (l.complete)
        refusal = 16;
    else if (size < 1 || size > NEARBY_MOST_PAGE)
        refusal = 6;
    else if (out.length < NEARBY_ASK_LINE)
        refusal = 12;
    if (refusal != 0)
        return (nearby_written){ .refusal = refusal };
    return model_ask_line(l.order, l.table, l.measure, (uint8_t)l.d, (points){ l.probe, l.d }, present_scope(&l, items.at),
                          (uint8_t)size, out);
}

static bool to_present_ask(const nearby_list *l, const nearby_answer_fields *a, nearby_scope present)
{
    const nearby_scope *p = &a->scope;
    if (a->table != l->table || a->measure != l->measure || a->d != l->d || p->reach != l->reach || p->from != present.from)
        return false;
    if (memcmp(a->probe, l->probe, sizeof a->probe) != 0)
        return false;
    return p->from == 0
        || (p->snapshot == present.snapshot && p->distance == present.distance && p->number == present.number);
}

static bool page_holds(const nearby_answer_fields *a)
{
    if (a->count == 0)
        return a->last == 1;
    if (a->scope.from == 1 && !later(a->order, a->scope.distance, a->scope.number, a->items))
        return false;
    return items_rise(a->order, a->items, a->count, a->scope.reach, a->scope.snapshot);
}

static uint8_t take_refusal(const nearby_list *l, room items, const nearby_answer_read *read)
{
    if (!list_sound(l, items))
        return 2;
    if (read->refusal != 0)
        return read->refusal;
    if (read->answer.order != (l->order != 0))
        return 10;
    if (l->complete)
        return 16;
    if (!to_present_ask(l, &read->answer, present_scope(l, items.at)))
        return 13;
    if (!page_holds(&read->answer))
        return 14;
    return l->count + read->answer.count > items.length / NEARBY_ITEM ? 15 : 0;
}

nearby_listed model_take(nearby_list l, room items, text line)
{
    nearby_answer_read read = model_read_answer(line);
    nearby_listed taken = { take_refusal(&l, items, &read), l };
    taken.list.order = l.order != 0;
    taken.list.started = l.started != 0;
    taken.list.complete = l.complete != 0;
    if (taken.refusal != 0)
        return taken;
    const nearby_answer_fields *a = &read.answer;
    if (a->count > 0)
        memcpy(items.at + l.count * NEARBY_ITEM, a->items, (size_t)a->count * NEARBY_ITEM * sizeof(uint64_t));
    taken.list.started = 1;
    taken.list.snapshot = a->scope.snapshot;
    taken.list.complete = a->last;
    taken.list.count = l.count + a->count;
    return taken;
}
