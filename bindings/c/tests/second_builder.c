#include "second_builder.h"

#include "model.h"

#include <stdlib.h>

/* A claim, with its node where it is a node's left one: a node goes by its left claim. */
typedef struct {
    size_t waits_at;      /* the node at which the claim waits */
    bool leads;           /* whether it is a node's left claim; what follows is that node's */
    size_t right;         /* the right claim plus one, or 0 */
    uint64_t far[2];
    size_t below[2];      /* the nodes below plus one, or 0 */
    size_t number;        /* the node's number: so many nodes have a smaller left claim */
} waiting;

typedef struct {
    uint8_t measure;
    size_t d;
    const int32_t *coordinates;
    waiting *claims;
} queue;

static uint64_t apart(const queue *q, size_t a, size_t b)
{
    return model_distance(q->measure, q->d, q->coordinates + a * q->d, q->coordinates + b * q->d);
}

/* The first claim that comes to a side leads a node there; the others wait at that node. */
static void go_below(queue *q, waiting *node, int side, size_t claim)
{
    if (node->below[side] == 0) {
        node->below[side] = claim + 1;
        q->claims[claim].leads = true;
    } else {
        q->claims[claim].waits_at = node->below[side] - 1;
    }
}

/* The first claim that waits at a node is its right one; the others go to the nearer side, and to the left one of two as near. */
static void settle(queue *q, size_t at, size_t claim)
{
    waiting *node = &q->claims[at];
    if (node->right == 0) {
        node->right = claim + 1;
        return;
    }
    uint64_t left = apart(q, at, claim), right = apart(q, node->right - 1, claim);
    int side = right < left;
    uint64_t nearer = side ? right : left;
    if (node->far[side] < nearer)
        node->far[side] = nearer;
    go_below(q, node, side, claim);
}

static size_t number_nodes(waiting *claims, size_t n)
{
    size_t nodes = 0;
    for (size_t i = 0; i < n; i++) {
        claims[i].number = nodes;
        nodes += claims[i].leads;
    }
    return nodes;
}

static uint64_t node_below(const waiting *claims, size_t below)
{
    return below == 0 ? 0 : claims[below - 1].number + 1;
}

static void put_node(const waiting *claims, size_t at, uint64_t *nodes)
{
    const waiting *node = &claims[at];
    uint64_t *out = nodes + node->number * NEARBY_NODE;
    out[0] = at + 1;
    out[1] = node->right;
    out[2] = node->far[0];
    out[3] = node->far[1];
    out[4] = node_below(claims, node->below[0]);
    out[5] = node_below(claims, node->below[1]);
}

size_t second_build(uint8_t measure, size_t d, const int32_t *coordinates, size_t n, uint64_t *nodes)
{
    /* All claims wait at claim 0, which leads the root. */
    queue q = { measure, d, coordinates, calloc(n + 1, sizeof(waiting)) };
    q.claims[0].leads = true;
    for (size_t at = 0; at < n; at++)
        for (size_t claim = at + 1; q.claims[at].leads && claim < n; claim++)
            if (q.claims[claim].waits_at == at)
                settle(&q, at, claim);
    size_t used = number_nodes(q.claims, n);
    for (size_t at = 0; at < n; at++)
        if (q.claims[at].leads)
            put_node(q.claims, at, nodes);
    free(q.claims);
    return used;
}
