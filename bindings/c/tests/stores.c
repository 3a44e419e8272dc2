#include "stores.h"

#include <stdlib.h>

static int32_t any_coordinate(seeded *from, style how)
{
    switch (how) {
    case TIED: return (int32_t)below(from, 5) - 2;
    case ANYWHERE: return (int32_t)(next_number(from) & 0xffffffff);
    case AT_THE_ENDS: return one_in(from, 2) ? INT32_MAX - (int32_t)below(from, 2) : INT32_MIN + (int32_t)below(from, 2);
    default: return 4;
    }
}

void put_coordinates(seeded *from, style how, int32_t *out, size_t length)
{
    for (size_t i = 0; i < length; i++)
        out[i] = any_coordinate(from, how);
}

store lend_store(seeded *from, size_t d, size_t capacity, size_t longer)
{
    store s = { .references_length = capacity + longer,
                .coordinates_length = capacity * d + longer,
                .nodes_length = capacity * NEARBY_NODE + longer };
    s.references = brink(s.references_length * sizeof(uint32_t));
    s.coordinates = brink(s.coordinates_length * sizeof(int32_t));
    s.nodes = brink(s.nodes_length * sizeof(uint64_t));
    for (size_t i = 0; i < s.references_length; i++)
        s.references[i] = (uint32_t)next_number(from);
    put_coordinates(from, ANYWHERE, s.coordinates, s.coordinates_length);
    for (size_t i = 0; i < s.nodes_length; i++)
        s.nodes[i] = next_number(from);
    return s;
}

void free_store(store *s)
{
    brink_free(s->references, s->references_length * sizeof(uint32_t));
    brink_free(s->coordinates, s->coordinates_length * sizeof(int32_t));
    brink_free(s->nodes, s->nodes_length * sizeof(uint64_t));
}

/* Each step can be undone, so two claims of a table never come to the same. */
uint32_t reference_of(const nearby_table *t, size_t claim)
{
    uint32_t x = t->number + (uint32_t)claim;
    x = (x ^ (x >> 16)) * 0x85ebca6bu;
    x = (x ^ (x >> 13)) * 0xc2b2ae35u;
    return x ^ (x >> 16);
}

bool enter_run(seeded *from, store *s, size_t n, style how)
{
    size_t d = s->table.d;
    uint32_t *given = malloc((n + 1) * sizeof(uint32_t));
    int32_t *run = malloc((n + 1) * d * sizeof(int32_t));
    for (size_t i = 0; i < n; i++)
        given[i] = reference_of(&s->table, s->table.count + i);
    put_coordinates(from, how, run, n * d);
    bool entered = CHECK(try_enter(s, given, n, (points){ run, n * d }).refusal == 0);
    free(given);
    free(run);
    return entered;
}

/* Long runs for large tables: each run tests the whole table. */
enum { FEW = 200 };

store full_store(seeded *from, uint8_t measure, size_t d, size_t capacity, size_t n, style how)
{
    store s = lend_store(from, d, capacity, below(from, 3));
    s.table = try_make((uint32_t)next_number(from), measure, d, capacity, &s).table;
    bool entered = true;
    while (entered && s.table.count < n) {
        size_t left = n - s.table.count;
        entered = enter_run(from, &s, left <= FEW ? below(from, left + 1) : s.table.count == 0 ? left / 2 : left, how);
    }
    CHECK(s.table.count == n);
    return s;
}

store marked_store(seeded *from, size_t capacity)
{
    store s = lend_store(from, 1, capacity, 0);
    s.table = try_make(7, NEARBY_CITY_BLOCK, 1, capacity, &s).table;
    uint32_t given[] = { 0x65, 0x66, 0x67, 0x68, 0x69 };
    int32_t run[] = { 2, 3, 9, 6, 5 };
    CHECK(try_enter(&s, given, 5, (points){ run, 5 }).refusal == 0 && s.table.count == 5);
    return s;
}

uint64_t any_reach(seeded *from, const store *s, const int32_t *probe)
{
    const nearby_table *t = &s->table;
    if (t->count == 0 || one_in(from, 4))
        return one_in(from, 2) ? UINT64_MAX : below(from, 3);
    const int32_t *claim = s->coordinates + below(from, t->count) * t->d;
    uint64_t apart = model_distance(t->measure, t->d, claim, probe);
    return apart + below(from, 3) - (apart > 0 ? 1 : 0);
}

uint8_t any_order(seeded *from)
{
    return one_in(from, 2) ? NEARBY_NEAR : one_in(from, 2) ? NEARBY_FAR : (uint8_t)(1 + below(from, UINT8_MAX));
}

void put_place(seeded *from, const store *s, const int32_t *probe, uint64_t *out)
{
    const nearby_table *t = &s->table;
    uint64_t claim = below(from, t->count + 1);
    out[0] = any_order(from);
    out[1] = below(from, 3);
    out[2] = one_in(from, 4) ? t->count + 1 : below(from, t->count + 1);
    out[3] = claim < t->count ? model_distance(t->measure, t->d, s->coordinates + claim * t->d, probe) : 0;
    out[4] = claim;
}
