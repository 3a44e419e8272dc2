/* Questions, one or many at once, and the office: each by measuring every claim and sorting. */
#include "model.h"

#include <stdlib.h>
#include <string.h>

typedef struct {
    uint64_t number, reference, distance;
} measured;

static int by_number(const measured *x, const measured *y)
{
    return x->number < y->number ? -1 : x->number > y->number;
}

static int by_near_order(const void *a, const void *b)
{
    const measured *x = a, *y = b;
    if (x->distance != y->distance)
        return x->distance < y->distance ? -1 : 1;
    return by_number(x, y);
}

static int by_far_order(const void *a, const void *b)
{
    const measured *x = a, *y = b;
    if (x->distance != y->distance)
        return x->distance > y->distance ? -1 : 1;
    return by_number(x, y);
}

static measured measure_claim(const store *s, const int32_t *probe, size_t claim)
{
    const nearby_table *t = &s->table;
    return (measured){ claim, s->references[claim], model_distance(t->measure, t->d, s->coordinates + claim * t->d, probe) };
}

static size_t sorted(const store *s, uint8_t order, const int32_t *probe, uint64_t reach, size_t snapshot, measured *out)
{
    size_t kept = 0;
    for (size_t claim = 0; claim < snapshot; claim++) {
        measured m = measure_claim(s, probe, claim);
        if (m.distance <= reach)
            out[kept++] = m;
    }
    qsort(out, kept, sizeof(measured), order == NEARBY_NEAR ? by_near_order : by_far_order);
    return kept;
}

static void put_items(const measured *from, size_t count, uint64_t *items)
{
    for (size_t i = 0; i < count; i++) {
        items[i * NEARBY_ITEM] = from[i].number;
        items[i * NEARBY_ITEM + 1] = from[i].reference;
        items[i * NEARBY_ITEM + 2] = from[i].distance;
    }
}

size_t model_listed(const store *s, uint8_t order, const int32_t *probe, uint64_t reach, size_t snapshot, uint64_t *items)
{
    measured *all = malloc((snapshot + 1) * sizeof(measured));
    size_t count = sorted(s, order, probe, reach, snapshot, all);
    put_items(all, count, items);
    free(all);
    return count;
}

static uint8_t question_refusal(const store *s, points probe)
{
    uint8_t refusal = model_test(s);
    return refusal != 0 ? refusal : probe.length != s->table.d ? 5 : 0;
}

static nearby_item item_from(measured m)
{
    return (nearby_item){ 0, 1, m.number, m.reference, m.distance };
}

nearby_item model_nearest(const store *s, points probe, uint64_t reach)
{
    uint8_t refusal = question_refusal(s, probe);
    if (refusal != 0)
        return (nearby_item){ .refusal = refusal };
    measured *all = malloc((s->table.count + 1) * sizeof(measured));
    size_t count = sorted(s, NEARBY_NEAR, probe.at, reach, s->table.count, all);
    nearby_item found = count == 0 ? (nearby_item){ 0 } : item_from(all[0]);
    free(all);
    return found;
}

nearby_item model_farthest(const store *s, points probe)
{
    uint8_t refusal = question_refusal(s, probe);
    if (refusal != 0 || s->table.count == 0)
        return (nearby_item){ .refusal = refusal };
    measured best = measure_claim(s, probe.at, 0);
    for (size_t claim = 1; claim < s->table.count; claim++) {
        measured m = measure_claim(s, probe.at, claim);
        if (m.distance > best.distance)
            best = m;
    }
    return item_from(best);
}

static bool mark_holds(const store *s, const int32_t *probe, uint64_t reach, nearby_start start)
{
    return start.number < start.snapshot && start.distance <= reach
        && measure_claim(s, probe, start.number).distance == start.distance;
}

static uint8_t place_refusal(const store *s, const int32_t *probe, uint64_t reach, nearby_start start)
{
    if (start.from == 0)
        return 0;
    return start.snapshot > s->table.count ? 7 : !mark_holds(s, probe, reach, start) ? 8 : 0;
}

static bool after_mark(uint8_t order, measured m, nearby_start start)
{
    if (start.from == 0)
        return true;
    if (m.distance == start.distance)
        return m.number > start.number;
    return order == NEARBY_NEAR ? m.distance > start.distance : m.distance < start.distance;
}

/* The page behind all refusals: it is the last where none of the sorted claims stands behind those given. */
static nearby_filled fill_page(const store *s, uint8_t order, const int32_t *probe, uint64_t reach, nearby_start start, size_t size,
                               uint64_t *items)
{
    size_t snapshot = start.from == 0 ? s->table.count : start.snapshot, skipped = 0;
    measured *all = malloc((snapshot + 1) * sizeof(measured));
    size_t count = sorted(s, order, probe, reach, snapshot, all);
    while (skipped < count && !after_mark(order, all[skipped], start))
        skipped++;
    size_t left = count - skipped, given = left < size ? left : size, behind = left - given;
    put_items(all + skipped, given, items);
    free(all);
    return (nearby_filled){ 0, behind == 0, given };
}

nearby_filled model_page(const store *s, uint8_t order, points probe, uint64_t reach, nearby_start start, size_t size, room out)
{
    uint8_t refusal = question_refusal(s, probe);
    if (refusal == 0 && (size < 1 || size > NEARBY_MOST_PAGE))
        refusal = 6;
    if (refusal == 0)
        refusal = place_refusal(s, probe.at, reach, start);
    if (refusal == 0 && out.length < size * NEARBY_ITEM)
        refusal = 12;
    if (refusal != 0)
        return (nearby_filled){ .refusal = refusal };
    return fill_page(s, order, probe.at, reach, start, size, out.at);
}

/* ---- The office ---- */

static nearby_start start_of(nearby_scope scope)
{
    return (nearby_start){ scope.from, scope.snapshot, scope.distance, scope.number };
}

static uint8_t ask_refusal(const store *s, const nearby_ask_read *read)
{
    const nearby_ask *ask = &read->ask;
    const nearby_table *t = &s->table;
    if (read->refusal != 0)
        return read->refusal;
    if (ask->table != t->number || ask->measure != t->measure || ask->d != t->d)
        return 11;
    return place_refusal(s, ask->probe, ask->scope.reach, start_of(ask->scope));
}

nearby_written model_answer(const store *s, text line, output out)
{
    if (out.length < NEARBY_ANSWER_LINE)
        return (nearby_written){ .refusal = 12 };
    uint8_t refusal = model_test(s);
    if (refusal != 0)
        return (nearby_written){ .refusal = refusal };
    nearby_ask_read read = model_read_ask(line);
    refusal = ask_refusal(s, &read);
    if (refusal != 0)
        return (nearby_written){ .refusal = refusal };
    const nearby_ask *ask = &read.ask;
    uint64_t items[NEARBY_MOST_PAGE * NEARBY_ITEM];
    nearby_filled page = fill_page(s, ask->order, ask->probe, ask->scope.reach, start_of(ask->scope), ask->size, items);
    nearby_scope scope = ask->scope;
    if (scope.from == 0)
        scope.snapshot = (uint16_t)s->table.count;
    return model_answer_line(ask->order, ask->table, ask->measure, ask->d, (points){ ask->probe, ask->d }, scope, page.last,
                             (uint8_t)page.count, (room){ items, page.count * NEARBY_ITEM }, out);
}

/* ---- Many at once ---- */

/* Whether a length is exactly k for each of n; k is not 0. */
static bool each(size_t length, size_t k, size_t n)
{
    return length % k == 0 && length / k == n;
}

static bool too_small(size_t length, size_t k, size_t n)
{
    return length / k < n;
}

static void put_found(nearby_item item, uint64_t *row)
{
    row[0] = item.found;
    row[1] = item.number;
    row[2] = item.reference;
    row[3] = item.distance;
}

static uint8_t rows_refusal(const store *s, points probes, size_t n, room out)
{
    uint8_t refusal = model_test(s);
    if (refusal != 0)
        return refusal;
    return !each(probes.length, s->table.d, n) ? 5 : too_small(out.length, 4, n) ? 12 : 0;
}

uint8_t model_many_nearest(const store *s, points probes, room reaches, room out)
{
    uint8_t refusal = rows_refusal(s, probes, reaches.length, out);
    for (size_t i = 0; refusal == 0 && i < reaches.length; i++)
        put_found(model_nearest(s, (points){ probes.at + i * s->table.d, s->table.d }, reaches.at[i]), out.at + 4 * i);
    return refusal;
}

uint8_t model_many_farthest(const store *s, points probes, size_t n, room out)
{
    uint8_t refusal = rows_refusal(s, probes, n, out);
    for (size_t i = 0; refusal == 0 && i < n; i++)
        put_found(model_farthest(s, (points){ probes.at + i * s->table.d, s->table.d }), out.at + 4 * i);
    return refusal;
}

static uint8_t pages_refusal(const store *s, points probes, size_t n, room starts, size_t size, room outcomes, room items)
{
    uint8_t refusal = model_test(s);
    if (refusal != 0)
        return refusal;
    if (!each(probes.length, s->table.d, n) || !each(starts.length, NEARBY_PLACE, n))
        return 5;
    if (size < 1 || size > NEARBY_MOST_PAGE)
        return 6;
    return too_small(outcomes.length, 3, n) || too_small(items.length, size * NEARBY_ITEM, n) ? 12 : 0;
}

uint8_t model_many_pages(const store *s, points probes, room reaches, room starts, size_t size, room outcomes, room items)
{
    uint8_t refusal = pages_refusal(s, probes, reaches.length, starts, size, outcomes, items);
    for (size_t i = 0; refusal == 0 && i < reaches.length; i++) {
        const uint64_t *p = starts.at + NEARBY_PLACE * i;
        nearby_start start = { p[1] != 0, p[2], p[3], p[4] };
        nearby_filled page = model_page(s, p[0] != 0, (points){ probes.at + i * s->table.d, s->table.d }, reaches.at[i], start, size,
                                        (room){ items.at + i * size * NEARBY_ITEM, size * NEARBY_ITEM });
        outcomes.at[3 * i] = page.refusal;
        outcomes.at[3 * i + 1] = page.count;
        outcomes.at[3 * i + 2] = page.last;
    }
    return refusal;
}

/* The length of the line at the front of a text, its 0A counted where it has one. */
static size_t line_length(text t)
{
    const uint8_t *end = memchr(t.at, 0x0a, t.length);
    return end == NULL ? t.length : (size_t)(end - t.at) + 1;
}

nearby_answered model_many_answers(const store *s, text asks, room outcomes, output out)
{
    nearby_answered done = { 0 };
    done.refusal = out.length < NEARBY_ANSWER_LINE ? 12 : model_test(s);
    if (done.refusal != 0)
        return done;
    while (done.used < asks.length && outcomes.length - 2 * done.lines >= 2 && out.length - done.written >= NEARBY_ANSWER_LINE) {
        text left = { asks.at + done.used, asks.length - done.used };
        text line = { left.at, line_length(left) };
        nearby_written wrote = model_answer(s, line, (output){ out.at + done.written, out.length - done.written });
        outcomes.at[2 * done.lines] = wrote.refusal;
        outcomes.at[2 * done.lines + 1] = wrote.length;
        done.lines++;
        done.used += line.length;
        done.written += wrote.length;
    }
    return done;
}
