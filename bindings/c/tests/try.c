#include "try.h"

#include <stdlib.h>
#include <string.h>

static size_t given_so_far[CALLS][UINT8_MAX + 1], given_to_rows[CALLS][UINT8_MAX + 1];

size_t times_given(call which, uint8_t refusal)
{
    return given_so_far[which][refusal];
}

size_t times_given_to_a_row(call which, uint8_t refusal)
{
    return given_to_rows[which][refusal];
}

static void note(call which, uint8_t refusal)
{
    given_so_far[which][refusal]++;
}

/* Rows of so many numbers, each beginning with its refusal. */
static void note_rows(call which, const uint64_t *at, size_t rows, size_t width)
{
    for (size_t i = 0; i < rows; i++)
        if (CHECK(at[i * width] <= UINT8_MAX))
            given_to_rows[which][at[i * width]]++;
}

/* ---- Lent memory before and after ---- */

typedef struct {
    const void *at;
    void *copy;
    size_t bytes;
} kept;

static kept keep(const void *at, size_t bytes)
{
    kept k = { at, malloc(bytes + 1), bytes };
    if (bytes > 0)
        memcpy(k.copy, at, bytes);
    return k;
}

static bool holds(const kept *k)
{
    return k->bytes == 0 || memcmp(k->at, k->copy, k->bytes) == 0;
}

static void check_kept(kept k)
{
    CHECK(holds(&k));
    free(k.copy);
}

static kept keep_points(points p) { return keep(p.at, p.length * sizeof(int32_t)); }
static kept keep_text(text t) { return keep(t.at, t.length); }
static kept keep_room(room r) { return keep(r.at, r.length * sizeof(uint64_t)); }
static kept keep_output(output o) { return keep(o.at, o.length); }

/* The same room with the copy's memory, for the model to write. */
static room room_of(const kept *k) { return (room){ k->copy, k->bytes / sizeof(uint64_t) }; }
static output output_of(const kept *k) { return (output){ k->copy, k->bytes }; }

typedef struct {
    kept references, coordinates, nodes;
} kept_store;

static kept_store keep_store(const store *s)
{
    return (kept_store){ keep(s->references, s->references_length * sizeof(uint32_t)),
                         keep(s->coordinates, s->coordinates_length * sizeof(int32_t)),
                         keep(s->nodes, s->nodes_length * sizeof(uint64_t)) };
}

static void check_store(kept_store k)
{
    check_kept(k.references);
    check_kept(k.coordinates);
    check_kept(k.nodes);
}

static store store_of(const store *s, const kept_store *k)
{
    store copy = *s;
    copy.references = k->references.copy;
    copy.coordinates = k->coordinates.copy;
    copy.nodes = k->nodes.copy;
    return copy;
}

#define LENT(s) \
    (s)->table, (s)->references, (s)->references_length, (s)->coordinates, (s)->coordinates_length, (s)->nodes, (s)->nodes_length

/* ---- The same results; structs have padding, so each field is compared ---- */

static bool same_table(nearby_table a, nearby_table b)
{
    return a.number == b.number && a.measure == b.measure && a.d == b.d && a.capacity == b.capacity && a.count == b.count
        && a.used == b.used;
}

static bool same_item(nearby_item a, nearby_item b)
{
    return a.refusal == b.refusal && a.found == b.found && a.number == b.number && a.reference == b.reference
        && a.distance == b.distance;
}

static bool same_list(const nearby_list *a, const nearby_list *b)
{
    return a->table == b->table && a->order == b->order && a->measure == b->measure && a->started == b->started
        && a->complete == b->complete && a->d == b->d && memcmp(a->probe, b->probe, sizeof a->probe) == 0 && a->reach == b->reach
        && a->snapshot == b->snapshot && a->count == b->count;
}

static bool same_scope(nearby_scope a, nearby_scope b)
{
    return a.reach == b.reach && a.from == b.from && a.snapshot == b.snapshot && a.distance == b.distance && a.number == b.number;
}

static bool same_written(nearby_written a, nearby_written b)
{
    return a.refusal == b.refusal && a.length == b.length;
}

/* ---- Tables ---- */

nearby_tabled try_make(uint32_t number, uint8_t measure, size_t d, size_t capacity, const store *lent)
{
    kept_store k = keep_store(lent);
    nearby_tabled is = nearby_make_table(number, measure, d, capacity, lent->references, lent->references_length, lent->coordinates,
                                         lent->coordinates_length, lent->nodes, lent->nodes_length);
    nearby_tabled must = model_make(number, measure, d, capacity, lent);
    CHECK(is.refusal == must.refusal && same_table(is.table, must.table));
    check_store(k);
    note(MAKE, is.refusal);
    return is;
}

uint8_t try_test(const store *s)
{
    kept_store k = keep_store(s);
    uint8_t is = nearby_test_table(LENT(s));
    CHECK(is == model_test(s));
    check_store(k);
    note(TEST, is);
    return is;
}

nearby_tabled try_enter(store *s, const uint32_t *given, size_t given_length, points run)
{
    kept_store k = keep_store(s);
    kept k_given = keep(given, given_length * sizeof(uint32_t)), k_run = keep_points(run);
    store copy = store_of(s, &k);
    nearby_tabled is = nearby_enter(LENT(s), given, given_length, run.at, run.length);
    nearby_tabled must = model_enter(&copy, given, given_length, run);
    CHECK(is.refusal == must.refusal && same_table(is.table, must.table));
    check_store(k);
    check_kept(k_given);
    check_kept(k_run);
    note(ENTER, is.refusal);
    if (is.refusal == 0)
        s->table = is.table;
    return is;
}

nearby_item try_nearest(const store *s, points probe, uint64_t reach)
{
    kept_store k = keep_store(s);
    kept k_probe = keep_points(probe);
    nearby_item is = nearby_nearest(LENT(s), probe.at, probe.length, reach);
    CHECK(same_item(is, model_nearest(s, probe, reach)));
    check_store(k);
    check_kept(k_probe);
    note(NEAREST, is.refusal);
    return is;
}

nearby_item try_farthest(const store *s, points probe)
{
    kept_store k = keep_store(s);
    kept k_probe = keep_points(probe);
    nearby_item is = nearby_farthest(LENT(s), probe.at, probe.length);
    CHECK(same_item(is, model_farthest(s, probe)));
    check_store(k);
    check_kept(k_probe);
    note(FARTHEST, is.refusal);
    return is;
}

nearby_filled try_page(const store *s, uint8_t order, points probe, uint64_t reach, nearby_start start, size_t size, room out)
{
    kept_store k = keep_store(s);
    kept k_probe = keep_points(probe), k_out = keep_room(out);
    nearby_filled is = nearby_page(LENT(s), order, probe.at, probe.length, reach, start, size, out.at, out.length);
    nearby_filled must = model_page(s, order, probe, reach, start, size, room_of(&k_out));
    CHECK(is.refusal == must.refusal && is.count == must.count && is.last == must.last);
    check_store(k);
    check_kept(k_probe);
    check_kept(k_out);
    note(PAGE, is.refusal);
    return is;
}

nearby_written try_answer(const store *s, text line, output out)
{
    kept_store k = keep_store(s);
    kept k_line = keep_text(line), k_out = keep_output(out);
    nearby_written is = nearby_answer(LENT(s), line.at, line.length, out.at, out.length);
    CHECK(same_written(is, model_answer(s, line, output_of(&k_out))));
    check_store(k);
    check_kept(k_line);
    check_kept(k_out);
    note(ANSWER, is.refusal);
    return is;
}

/* ---- Lists ---- */

nearby_listed try_open(uint8_t order, uint32_t table, uint8_t measure, size_t d, points probe, uint64_t reach)
{
    kept k = keep_points(probe);
    nearby_listed is = nearby_open_list(order, table, measure, d, probe.at, probe.length, reach);
    nearby_listed must = model_open(order, table, measure, d, probe, reach);
    CHECK(is.refusal == must.refusal && same_list(&is.list, &must.list));
    check_kept(k);
    note(OPEN, is.refusal);
    return is;
}

nearby_written try_write_ask(nearby_list list, room items, size_t size, output out)
{
    kept k_items = keep_room(items), k_out = keep_output(out);
    nearby_written is = nearby_write_ask(list, items.at, items.length, size, out.at, out.length);
    CHECK(same_written(is, model_write_ask(list, items, size, output_of(&k_out))));
    check_kept(k_items);
    check_kept(k_out);
    note(WRITE_ASK, is.refusal);
    return is;
}

nearby_listed try_take(nearby_list list, room items, text line)
{
    kept k_items = keep_room(items), k_line = keep_text(line);
    nearby_listed is = nearby_take(list, items.at, items.length, line.at, line.length);
    nearby_listed must = model_take(list, room_of(&k_items), line);
    CHECK(is.refusal == must.refusal && same_list(&is.list, &must.list));
    check_kept(k_items);
    check_kept(k_line);
    note(TAKE, is.refusal);
    return is;
}

/* ---- Bare lines ---- */

nearby_written try_ask_line(uint8_t order, uint32_t table, uint8_t measure, uint8_t d, points probe, nearby_scope scope,
                            uint8_t size, output out)
{
    kept k_probe = keep_points(probe), k_out = keep_output(out);
    nearby_written is = nearby_write_ask_line(order, table, measure, d, probe.at, probe.length, scope, size, out.at, out.length);
    CHECK(same_written(is, model_ask_line(order, table, measure, d, probe, scope, size, output_of(&k_out))));
    check_kept(k_probe);
    check_kept(k_out);
    note(ASK_LINE, is.refusal);
    return is;
}

nearby_written try_answer_line(uint8_t order, uint32_t table, uint8_t measure, uint8_t d, points probe, nearby_scope scope,
                               uint8_t last, uint8_t count, room items, output out)
{
    kept k_probe = keep_points(probe), k_items = keep_room(items), k_out = keep_output(out);
    nearby_written is = nearby_write_answer_line(order, table, measure, d, probe.at, probe.length, scope, last, count, items.at,
                                                 items.length, out.at, out.length);
    CHECK(same_written(is, model_answer_line(order, table, measure, d, probe, scope, last, count, items, output_of(&k_out))));
    check_kept(k_probe);
    check_kept(k_items);
    check_kept(k_out);
    note(ANSWER_LINE, is.refusal);
    return is;
}

nearby_written try_claim_line(uint32_t table, uint8_t measure, uint8_t d, uint32_t reference, points coordinates, output out)
{
    kept k_points = keep_points(coordinates), k_out = keep_output(out);
    nearby_written is = nearby_write_claim_line(table, measure, d, reference, coordinates.at, coordinates.length, out.at, out.length);
    CHECK(same_written(is, model_claim_line(table, measure, d, reference, coordinates, output_of(&k_out))));
    check_kept(k_points);
    check_kept(k_out);
    note(CLAIM_LINE, is.refusal);
    return is;
}

nearby_ask_read try_read_ask(text line)
{
    kept k = keep_text(line);
    nearby_ask_read is = nearby_read_ask_line(line.at, line.length), must = model_read_ask(line);
    const nearby_ask *a = &is.ask, *b = &must.ask;
    CHECK(is.refusal == must.refusal && a->table == b->table && a->order == b->order && a->measure == b->measure && a->d == b->d);
    CHECK(memcmp(a->probe, b->probe, sizeof a->probe) == 0 && same_scope(a->scope, b->scope) && a->size == b->size);
    check_kept(k);
    note(READ_ASK, is.refusal);
    return is;
}

nearby_answer_read try_read_answer(text line)
{
    kept k = keep_text(line);
    nearby_answer_read is = nearby_read_answer_line(line.at, line.length), must = model_read_answer(line);
    const nearby_answer_fields *a = &is.answer, *b = &must.answer;
    CHECK(is.refusal == must.refusal && a->table == b->table && a->order == b->order && a->measure == b->measure && a->d == b->d);
    CHECK(memcmp(a->probe, b->probe, sizeof a->probe) == 0 && same_scope(a->scope, b->scope));
    CHECK(a->last == b->last && a->count == b->count && memcmp(a->items, b->items, sizeof a->items) == 0);
    check_kept(k);
    note(READ_ANSWER, is.refusal);
    return is;
}

nearby_claim_read try_read_claim(text line)
{
    kept k = keep_text(line);
    nearby_claim_read is = nearby_read_claim_line(line.at, line.length), must = model_read_claim(line);
    const nearby_claim *a = &is.claim, *b = &must.claim;
    CHECK(is.refusal == must.refusal && a->table == b->table && a->measure == b->measure && a->d == b->d);
    CHECK(a->reference == b->reference && memcmp(a->coordinates, b->coordinates, sizeof a->coordinates) == 0);
    check_kept(k);
    note(READ_CLAIM, is.refusal);
    return is;
}

/* ---- Many at once ---- */

uint8_t try_many_nearest(const store *s, points probes, room reaches, room out)
{
    kept_store k = keep_store(s);
    kept k_probes = keep_points(probes), k_reaches = keep_room(reaches), k_out = keep_room(out);
    uint8_t is = nearby_many_nearest(LENT(s), probes.at, probes.length, reaches.at, reaches.length, out.at, out.length);
    CHECK(is == model_many_nearest(s, probes, reaches, room_of(&k_out)));
    check_store(k);
    check_kept(k_probes);
    check_kept(k_reaches);
    check_kept(k_out);
    note(MANY_NEAREST, is);
    return is;
}

uint8_t try_many_farthest(const store *s, points probes, size_t n, room out)
{
    kept_store k = keep_store(s);
    kept k_probes = keep_points(probes), k_out = keep_room(out);
    uint8_t is = nearby_many_farthest(LENT(s), probes.at, probes.length, n, out.at, out.length);
    CHECK(is == model_many_farthest(s, probes, n, room_of(&k_out)));
    check_store(k);
    check_kept(k_probes);
    check_kept(k_out);
    note(MANY_FARTHEST, is);
    return is;
}

uint8_t try_many_pages(const store *s, points probes, room reaches, room starts, size_t size, room outcomes, room items)
{
    kept_store k = keep_store(s);
    kept k_probes = keep_points(probes), k_reaches = keep_room(reaches), k_starts = keep_room(starts);
    kept k_outcomes = keep_room(outcomes), k_items = keep_room(items);
    uint8_t is = nearby_many_pages(LENT(s), probes.at, probes.length, reaches.at, reaches.length, starts.at, starts.length, size,
                                   outcomes.at, outcomes.length, items.at, items.length);
    CHECK(is == model_many_pages(s, probes, reaches, starts, size, room_of(&k_outcomes), room_of(&k_items)));
    check_store(k);
    check_kept(k_probes);
    check_kept(k_reaches);
    check_kept(k_starts);
    check_kept(k_outcomes);
    check_kept(k_items);
    note(MANY_PAGES, is);
    if (is == 0)
        note_rows(MANY_PAGES, outcomes.at, reaches.length, 3);
    return is;
}

nearby_answered try_many_answers(const store *s, text asks, room outcomes, output out)
{
    kept_store k = keep_store(s);
    kept k_asks = keep_text(asks), k_outcomes = keep_room(outcomes), k_out = keep_output(out);
    nearby_answered is = nearby_many_answers(LENT(s), asks.at, asks.length, outcomes.at, outcomes.length, out.at, out.length);
    nearby_answered must = model_many_answers(s, asks, room_of(&k_outcomes), output_of(&k_out));
    CHECK(is.refusal == must.refusal && is.lines == must.lines && is.used == must.used && is.written == must.written);
    check_store(k);
    check_kept(k_asks);
    check_kept(k_outcomes);
    check_kept(k_out);
    note(MANY_ANSWERS, is.refusal);
    note_rows(MANY_ANSWERS, outcomes.at, is.lines, 2);
    return is;
}
