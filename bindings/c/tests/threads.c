/* Several threads on one table, and the stack that a call needs. */
#define _DEFAULT_SOURCE
#include "stores.h"
#include "tests.h"

#include <pthread.h>
#include <stdlib.h>
#include <string.h>

enum { THREADS = 4, ASKED = 200 };

/* Work for one thread: its own questions to a table that all share, and how many answers were wrong. */
typedef struct {
    const store *s;
    uint64_t number;
    size_t wrong;
} work;

#define LENT(s) \
    (s)->table, (s)->references, (s)->references_length, (s)->coordinates, (s)->coordinates_length, (s)->nodes, (s)->nodes_length

static void *ask_away(void *given)
{
    work *w = given;
    seeded from = seed(w->number);
    size_t d = w->s->table.d;
    for (int i = 0; i < ASKED; i++) {
        int32_t probe[8];
        put_coordinates(&from, TIED, probe, d);
        uint64_t reach = any_reach(&from, w->s, probe), is[48] = { 0 }, must[48] = { 0 };
        uint8_t order = any_order(&from);
        nearby_filled page = nearby_page(LENT(w->s), order, probe, d, reach, (nearby_start){ 0 }, 16, is, 48);
        nearby_filled told = model_page(w->s, order, (points){ probe, d }, reach, (nearby_start){ 0 }, 16, (room){ must, 48 });
        w->wrong += page.count != told.count || page.last != told.last || memcmp(is, must, sizeof is) != 0;
    }
    return NULL;
}

static void threads_share_a_table(void)
{
    seeded from = seed(61);
    store s = full_store(&from, 1, 3, 300, 300, TIED);
    pthread_t threads[THREADS];
    work works[THREADS];
    for (size_t i = 0; i < THREADS; i++) {
        works[i] = (work){ &s, 62 + i, 0 };
        CHECK(pthread_create(&threads[i], NULL, ask_away, &works[i]) == 0);
    }
    for (size_t i = 0; i < THREADS; i++) {
        pthread_join(threads[i], NULL);
        CHECK(works[i].wrong == 0);
    }
    free_store(&s);
}

/* Claims in a line make the deepest tree that there is: each is nearer to the one before it than to all others. Asked near from the line's
 * end, or far from its beginning, a walk goes down to the last. */
enum { DEEPEST = NEARBY_MOST_CLAIMS };

static const int32_t beginning[] = { 0 }, end[] = { DEEPEST };

static store line_store(seeded *from)
{
    store s = full_store(from, 1, 1, DEEPEST, 0, TIED);
    uint32_t *references = malloc(DEEPEST * sizeof *references);
    int32_t *coordinates = malloc(DEEPEST * sizeof *coordinates);
    for (size_t k = 0; k < DEEPEST; k++) {
        references[k] = (uint32_t)k;
        coordinates[k] = (int32_t)k;
    }
    s.table = nearby_enter(LENT(&s), references, DEEPEST, coordinates, DEEPEST).table;
    free(references);
    free(coordinates);
    return s;
}

/* Pages and asks of an order there. */
static void ask_the_deepest_in(work *w, uint8_t order)
{
    const int32_t *probe = order == NEARBY_FAR ? beginning : end;
    const uint64_t reach[] = { UINT64_MAX }, start[NEARBY_PLACE] = { order };
    uint64_t items[48], outcomes[3];
    uint8_t ask[NEARBY_ASK_LINE], out[NEARBY_ANSWER_LINE];
    nearby_scope scope = { .reach = UINT64_MAX };
    size_t length = nearby_write_ask_line(order, w->s->table.number, 1, 1, probe, 1, scope, 16, ask, sizeof ask).length;
    w->wrong += nearby_page(LENT(w->s), order, probe, 1, UINT64_MAX, (nearby_start){ 0 }, 16, items, 48).count != 16;
    w->wrong += items[0] != DEEPEST - 1;
    w->wrong += nearby_answer(LENT(w->s), ask, length, out, sizeof out).refusal != 0;
    w->wrong += nearby_many_pages(LENT(w->s), probe, 1, reach, 1, start, NEARBY_PLACE, 16, outcomes, 3, items, 48) != 0;
    w->wrong += nearby_many_answers(LENT(w->s), ask, length, outcomes, 3, out, sizeof out).lines != 1;
}

/* Every question there. */
static void *ask_the_deepest(void *given)
{
    work *w = given;
    const uint64_t reach[] = { UINT64_MAX };
    uint64_t row[4];
    w->wrong += nearby_nearest(LENT(w->s), end, 1, UINT64_MAX).distance != 1;
    w->wrong += nearby_farthest(LENT(w->s), beginning, 1).distance != DEEPEST - 1;
    w->wrong += nearby_many_nearest(LENT(w->s), end, 1, reach, 1, row, 4) != 0;
    w->wrong += nearby_many_farthest(LENT(w->s), beginning, 1, 1, row, 4) != 0;
    ask_the_deepest_in(w, NEARBY_NEAR);
    ask_the_deepest_in(w, NEARBY_FAR);
    return NULL;
}

/* The first byte of a stack that was touched. Stacks grow down. */
static size_t untouched(const unsigned char *stack)
{
    size_t i = 0;
    while (i < NEARBY_STACK && stack[i] == 0xa5)
        i++;
    return i;
}

/* The last 64 KiB of the promised stack stay untouched, so there is room for the caller's own. Over 128 KiB are not: the soundness test has
 * 192 of them, which it gives back before the walk goes down, and the walk takes some 160. */
static void deepest_tree_on_the_promised_stack(void)
{
    seeded from = seed(67);
    store s = line_store(&from);
    CHECK(s.table.used == DEEPEST / 2);
    unsigned char *stack = aligned_alloc(65536, NEARBY_STACK);
    memset(stack, 0xa5, NEARBY_STACK);
    pthread_attr_t attributes;
    pthread_t thread;
    work w = { &s, 0, 0 };
    pthread_attr_init(&attributes);
    CHECK(pthread_attr_setstack(&attributes, stack, NEARBY_STACK) == 0);
    CHECK(pthread_create(&thread, &attributes, ask_the_deepest, &w) == 0);
    pthread_join(thread, NULL);
    pthread_attr_destroy(&attributes);
    CHECK(w.wrong == 0);
    CHECK(untouched(stack) >= 65536);
    CHECK(untouched(stack) < NEARBY_STACK - 131072);
    free(stack);
    free_store(&s);
}

void thread_tests(void)
{
    run_test("threads: several ask one table", threads_share_a_table);
    run_test("threads: the deepest tree on the promised stack", deepest_tree_on_the_promised_stack);
}
