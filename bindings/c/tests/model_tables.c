/* Tables: the measures, the tree, soundness, making, references in force and entering. */
#include "model.h"

#include <stdlib.h>
#include <string.h>

static uint64_t gap(int32_t a, int32_t b)
{
    return a > b ? (uint64_t)a - (uint64_t)b : (uint64_t)b - (uint64_t)a;
}

uint64_t model_distance(uint8_t measure, size_t d, const int32_t *a, const int32_t *b)
{
    uint64_t sum = 0, largest = 0, differing = 0;
    for (size_t i = 0; i < d; i++) {
        uint64_t g = gap(a[i], b[i]);
        sum += g;
        largest = g > largest ? g : largest;
        differing += g != 0;
    }
    return measure == NEARBY_CITY_BLOCK ? sum : measure == NEARBY_MAXIMUM ? largest : differing;
}

/* ---- Building the tree ---- */

typedef struct node {
    bool two;
    size_t claim[2];
    uint64_t far[2];
    struct node *below[2];
    size_t number;
} node;

typedef struct {
    uint8_t measure;
    size_t d;
    const int32_t *coordinates;
    node *nodes;
    size_t used;
} tree;

static uint64_t between(const tree *t, size_t a, size_t b)
{
    return model_distance(t->measure, t->d, t->coordinates + a * t->d, t->coordinates + b * t->d);
}

static node *fresh_node(tree *t, size_t claim)
{
    node *made = &t->nodes[t->used];
    *made = (node){ .claim = { claim, 0 }, .number = t->used };
    t->used++;
    return made;
}

static void enter_claim(tree *t, node **here, size_t claim)
{
    while (*here != NULL) {
        node *n = *here;
        if (!n->two) {
            n->two = true;
            n->claim[1] = claim;
            return;
        }
        uint64_t left = between(t, n->claim[0], claim), right = between(t, n->claim[1], claim);
        int side = right < left;
        uint64_t apart = side ? right : left;
        n->far[side] = apart > n->far[side] ? apart : n->far[side];
        here = &n->below[side];
    }
    *here = fresh_node(t, claim);
}

static void node_as_numbers(const node *n, uint64_t *out)
{
    out[0] = n->claim[0] + 1;
    out[1] = n->two ? n->claim[1] + 1 : 0;
    out[2] = n->far[0];
    out[3] = n->far[1];
    out[4] = n->below[0] ? n->below[0]->number + 1 : 0;
    out[5] = n->below[1] ? n->below[1]->number + 1 : 0;
}

size_t model_build(uint8_t measure, size_t d, const int32_t *coordinates, size_t n, uint64_t *nodes)
{
    tree t = { measure, d, coordinates, malloc((n + 1) * sizeof(node)), 0 };
    node *root = NULL;
    for (size_t claim = 0; claim < n; claim++)
        enter_claim(&t, &root, claim);
    for (size_t i = 0; i < t.used; i++)
        node_as_numbers(&t.nodes[i], nodes + i * NEARBY_NODE);
    free(t.nodes);
    return t.used;
}

/* ---- Soundness ---- */

static bool in_range(uint8_t measure, size_t d)
{
    return measure >= 1 && measure <= 3 && d >= 1 && d <= NEARBY_MOST_COORDINATES;
}

static bool memory_fits(const store *s)
{
    const nearby_table *t = &s->table;
    return in_range(t->measure, t->d) && t->capacity >= 1 && t->capacity <= NEARBY_MOST_CLAIMS
        && s->references_length >= t->capacity && s->coordinates_length >= t->capacity * t->d
        && s->nodes_length >= t->capacity * NEARBY_NODE;
}

static bool nodes_hold(const store *s)
{
    const nearby_table *t = &s->table;
    if (t->count > t->capacity)
        return false;
    uint64_t *fresh = calloc(t->count + 1, NEARBY_NODE * sizeof(uint64_t));
    size_t used = model_build(t->measure, t->d, s->coordinates, t->count, fresh);
    bool holds = used == t->used
        && (used == 0 || memcmp(fresh, s->nodes, used * NEARBY_NODE * sizeof(uint64_t)) == 0);
    free(fresh);
    return holds;
}

uint8_t model_test(const store *s)
{
    return !memory_fits(s) ? 1 : !nodes_hold(s) ? 2 : 0;
}

nearby_tabled model_make(uint32_t number, uint8_t measure, size_t d, size_t capacity, const store *lent)
{
    store s = *lent;
    s.table = (nearby_table){ number, measure, d, capacity, 0, 0 };
    return memory_fits(&s) ? (nearby_tabled){ 0, s.table } : (nearby_tabled){ .refusal = 1 };
}

/* ---- References in force ---- */

static int rising(const void *a, const void *b)
{
    uint32_t x = *(const uint32_t *)a, y = *(const uint32_t *)b;
    return (x > y) - (x < y);
}

/* Whether some reference stands twice: in a sorted copy it is its own neighbour. */
static bool stands_twice(const uint32_t *given, size_t n)
{
    bool twice = false;
    uint32_t *sorted = malloc((n + 1) * sizeof(uint32_t));
    for (size_t i = 0; i < n; i++)
        sorted[i] = given[i];
    qsort(sorted, n, sizeof(uint32_t), rising);
    for (size_t i = 1; i < n; i++)
        twice |= sorted[i - 1] == sorted[i];
    free(sorted);
    return twice;
}

/* Whether some claim of the table has one of these references. */
static bool in_force(const store *s, const uint32_t *given, size_t n)
{
    for (size_t claim = 0; claim < s->table.count; claim++)
        for (size_t i = 0; i < n; i++)
            if (s->references[claim] == given[i])
                return true;
    return false;
}

/* ---- Entering ---- */

static uint8_t enter_refusal(const store *s, const uint32_t *given, size_t given_length, points run)
{
    uint8_t refusal = model_test(s);
    if (refusal != 0)
        return refusal;
    if (run.length % s->table.d != 0 || run.length / s->table.d != given_length)
        return 5;
    if (stands_twice(given, given_length) || in_force(s, given, given_length))
        return 17;
    return given_length > s->table.capacity - s->table.count ? 3 : 0;
}

nearby_tabled model_enter(store *s, const uint32_t *given, size_t given_length, points run)
{
    uint8_t refusal = enter_refusal(s, given, given_length, run);
    if (refusal != 0)
        return (nearby_tabled){ .refusal = refusal };
    nearby_table *t = &s->table;
    for (size_t i = 0; i < given_length; i++)
        s->references[t->count + i] = given[i];
    for (size_t i = 0; i < run.length; i++)
        s->coordinates[t->count * t->d + i] = run.at[i];
    t->count += given_length;
    t->used = model_build(t->measure, t->d, s->coordinates, t->count, s->nodes);
    return (nearby_tabled){ 0, *t };
}
