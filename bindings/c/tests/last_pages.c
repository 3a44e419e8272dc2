/*
 * When a page is the last: just where no claim follows it, be it full or not. Lists of every length are walked by pages of every size,
 * beside a sort of all claims; lines and rows of full pages and of the empty ones behind them were worked by hand.
 */
#include "line_fields.h"
#include "stores.h"
#include "tablets.h"
#include "tests.h"

#include <stdlib.h>
#include <string.h>

/* ---- Walks ---- */

/* The longest list, claims that are entered behind its first page, and numbers behind a page's room: more than an item has. */
enum { LONGEST = 48, LATER = 9, GUARDS = 2 * NEARBY_ITEM };

/* A list to walk and all that it has, in order. Its first page is of a table with as many claims as the snapshot, the others are of one
 * with LATER claims more. */
typedef struct {
    store early, late;
    uint8_t order;
    points probe;
    uint64_t reach;
    uint64_t all[LONGEST * NEARBY_ITEM];
    size_t within;
} walk;

/* A page in a room of just its size, with some of the guards behind it lent too: all of them stay. */
static nearby_filled ask_page(seeded *from, const walk *w, nearby_start at, size_t size, size_t lent, uint64_t *items)
{
    size_t length = size * NEARBY_ITEM;
    room guarded = noisy_room(from, length + GUARDS);
    uint64_t guards[GUARDS];
    memcpy(guards, guarded.at + length, sizeof guards);
    nearby_filled page = try_page(at.from == 0 ? &w->early : &w->late, w->order, w->probe, w->reach, at, size,
                                  (room){ guarded.at, length + lent });
    CHECK(memcmp(guards, guarded.at + length, sizeof guards) == 0);
    memcpy(items, guarded.at, length * sizeof(uint64_t));
    free_room(guarded);
    return page;
}

/* The page behind so many claims of the list has those that come next, and is the last just where none comes behind them. */
static nearby_filled check_page(seeded *from, const walk *w, size_t seen, size_t size)
{
    uint64_t items[NEARBY_MOST_PAGE * NEARBY_ITEM];
    const uint64_t *next = w->all + seen * NEARBY_ITEM;
    nearby_start at = { 0 };
    if (seen > 0)
        at = (nearby_start){ 1, w->early.table.count, next[-1], next[-3] };
    nearby_filled page = ask_page(from, w, at, size, 0, items), same = ask_page(from, w, at, size, GUARDS, items);
    size_t left = w->within - seen, count = left < size ? left : size;
    CHECK(page.refusal == 0 && page.count == count && page.last == (seen + count == w->within));
    CHECK(same.refusal == 0 && same.count == count && same.last == page.last);
    CHECK(memcmp(items, next, count * NEARBY_ITEM * sizeof(uint64_t)) == 0);
    return page;
}

/* Goes by `last` alone: the pages are as few as can be, and only one of a list without claims is empty. One that is asked for behind
 * the last is empty, and the last too. Gives whether the last was full. */
static bool walk_to_the_last(seeded *from, const walk *w, size_t size)
{
    size_t fewest = w->within == 0 ? 1 : (w->within + size - 1) / size, pages = 0, seen = 0;
    nearby_filled page = { 0 };
    while (page.last == 0 && pages < fewest) {
        page = check_page(from, w, seen, size);
        CHECK(page.count > 0 || w->within == 0);
        pages++;
        seen = w->within - seen < size ? w->within : seen + size;
    }
    CHECK(page.last == 1 && pages == fewest && seen == w->within);
    if (seen > 0)
        CHECK(check_page(from, w, seen, size).count == 0);
    return page.count == size;
}

/* Walks in both orders, by pages of every size; gives how many ended with a full page. */
static size_t walk_within(seeded *from, walk *w, uint64_t reach)
{
    size_t full = 0;
    w->reach = reach;
    for (w->order = NEARBY_NEAR; w->order <= NEARBY_FAR; w->order++) {
        w->within = model_listed(&w->early, w->order, w->probe.at, reach, w->early.table.count, w->all);
        for (size_t size = 1; size <= NEARBY_MOST_PAGE; size++)
            full += walk_to_the_last(from, w, size);
    }
    return full;
}

/* The claims of a table in another, and LATER more. */
static store grown(seeded *from, const store *s)
{
    const nearby_table *t = &s->table;
    store late = lend_store(from, t->d, t->count + LATER, 0);
    late.table = try_make(t->number, t->measure, t->d, t->count + LATER, &late).table;
    CHECK(try_enter(&late, s->references, t->count, (points){ s->coordinates, t->count * t->d }).refusal == 0);
    enter_run(from, &late, LATER, TIED);
    return late;
}

/* All n claims, those up to the one in the middle with all that are as far, and those nearer than it. */
static size_t walk_table(seeded *from, size_t n)
{
    int32_t probe[NEARBY_MOST_COORDINATES];
    uint64_t all[LONGEST * NEARBY_ITEM];
    size_t d = 1 + n % NEARBY_MOST_COORDINATES;
    walk w = { .early = full_store(from, (uint8_t)(1 + n % 3), d, n + 1, n, TIED), .probe = { probe, d } };
    w.late = grown(from, &w.early);
    put_coordinates(from, TIED, probe, d);
    size_t full = walk_within(from, &w, UINT64_MAX);
    if (n > 0) {
        model_listed(&w.early, NEARBY_NEAR, probe, UINT64_MAX, n, all);
        uint64_t middle = all[n / 2 * NEARBY_ITEM + 2];
        walk_within(from, &w, middle);
        walk_within(from, &w, middle > 0 ? middle - 1 : 0);
    }
    free_store(&w.early);
    free_store(&w.late);
    return full;
}

/* Where all claims are within reach, 48, 24, 16, 12, 9, 8, 6, 6, 5, 4, 4, 4, 3, 3, 3 and 3 of the tables with 1 to 48 claims fill pages
 * of 1 to 16: 158 walks of each order end with a full page. */
static void walks(void)
{
    seeded from = seed(101);
    size_t full = 0;
    for (size_t n = 0; n <= LONGEST; n++)
        full += walk_table(&from, n);
    CHECK(full == 2 * 158);
}

/* ---- The end of a large table ---- */

/* Pages of 16 where so many claims are left. */
static void check_end(const store *s, uint8_t order, points probe)
{
    const size_t left[] = { 17, 16, 15, 1, 0 };
    const size_t n = s->table.count;
    uint64_t *all = malloc(n * NEARBY_ITEM * sizeof(uint64_t)), items[NEARBY_MOST_PAGE * NEARBY_ITEM];
    CHECK(model_listed(s, order, probe.at, UINT64_MAX, n, all) == n);
    for (size_t i = 0; i < LENGTH(left); i++) {
        const uint64_t *mark = all + (n - left[i] - 1) * NEARBY_ITEM;
        nearby_filled page = try_page(s, order, probe, UINT64_MAX, (nearby_start){ 1, n, mark[2], mark[0] }, NEARBY_MOST_PAGE,
                                      (room){ items, LENGTH(items) });
        CHECK(page.count == (left[i] < 16 ? left[i] : 16) && page.last == (left[i] <= 16));
    }
    free(all);
}

static void ends_of_large_tables(void)
{
    seeded from = seed(102);
    for (style how = 0; how < STYLES; how++) {
        int32_t probe[3];
        store s = full_store(&from, (uint8_t)(1 + how % 3), 3, NEARBY_MOST_CLAIMS, NEARBY_MOST_CLAIMS, how);
        put_coordinates(&from, how, probe, 3);
        check_end(&s, NEARBY_NEAR, (points){ probe, 3 });
        check_end(&s, NEARBY_FAR, (points){ probe, 3 });
        free_store(&s);
    }
}

/* ---- The examples' claims, by hand ---- */

/* Asks for all five claims, and for what comes behind them, with their answers: near and far. */
static const struct {
    const char *ask, *answer;
} lines[] = {
    { "01" "00000007" "01" "01" "00000004" "0000000000000005" "00" "0000" "0000000000000000" "0000" "05\n",
      "02" "00000007" "01" "01" "00000004" "0000000000000005" "00" "0005" "0000000000000000" "0000" "01" "05"
      "0001" "00000066" "0000000000000001" "0004" "00000069" "0000000000000001" "0000" "00000065" "0000000000000002"
      "0003" "00000068" "0000000000000002" "0002" "00000067" "0000000000000005\n" },
    { "01" "00000007" "01" "01" "00000004" "0000000000000005" "01" "0005" "0000000000000005" "0002" "05\n",
      "02" "00000007" "01" "01" "00000004" "0000000000000005" "01" "0005" "0000000000000005" "0002" "01" "00\n" },
    { "04" "00000007" "01" "01" "00000004" "0000000000000005" "00" "0000" "0000000000000000" "0000" "05\n",
      "05" "00000007" "01" "01" "00000004" "0000000000000005" "00" "0005" "0000000000000000" "0000" "01" "05"
      "0002" "00000067" "0000000000000005" "0000" "00000065" "0000000000000002" "0003" "00000068" "0000000000000002"
      "0001" "00000066" "0000000000000001" "0004" "00000069" "0000000000000001\n" },
    { "04" "00000007" "01" "01" "00000004" "0000000000000005" "01" "0005" "0000000000000001" "0004" "05\n",
      "05" "00000007" "01" "01" "00000004" "0000000000000005" "01" "0005" "0000000000000001" "0004" "01" "00\n" },
};

/* Each ask alone, and all of them in one buffer. */
static void lines_by_hand(void)
{
    seeded from = seed(103);
    store s = marked_store(&from, 8);
    uint8_t one[DOTS], asks[LENGTH(lines) * NEARBY_ASK_LINE], out[LENGTH(lines) * NEARBY_ANSWER_LINE];
    uint64_t outcomes[2 * LENGTH(lines)];
    size_t length = 0, written = 0;
    for (size_t i = 0; i < LENGTH(lines); i++) {
        text ask = text_of(lines[i].ask);
        CHECK(wrote(one, try_answer(&s, ask, dotted(one, DOTS)), text_of(lines[i].answer)));
        memcpy(asks + length, ask.at, ask.length);
        length += ask.length;
    }
    try_many_answers(&s, (text){ asks, length }, (room){ outcomes, LENGTH(outcomes) }, (output){ out, sizeof out });
    for (size_t i = 0; i < LENGTH(lines); i++) {
        text answer = text_of(lines[i].answer);
        CHECK(outcomes[2 * i] == 0 && outcomes[2 * i + 1] == answer.length);
        CHECK(memcmp(out + written, answer.at, answer.length) == 0);
        written += answer.length;
    }
    free_store(&s);
}

/* Pages of 5 in one call, near and then far: a full one that is the last, an empty one, and a full one that is not the last. A sixth
 * claim is at the probe, before all others in near order and behind them in far order; the empty pages' snapshot is without it. */
static void rows_by_hand(void)
{
    seeded from = seed(104);
    store s = marked_store(&from, 8);
    const int32_t probes[] = { 4, 4, 4, 4, 4, 4 };
    const uint32_t sixth[] = { 106 };
    uint64_t reaches[] = { 5, 5, 5, 5, 5, 5 }, outcomes[18], items[6 * 5 * NEARBY_ITEM];
    uint64_t places[] = { NEARBY_NEAR, 1, 6, 0, 5, NEARBY_NEAR, 1, 5, 5, 2, NEARBY_NEAR, 0, 0, 0, 0,
                          NEARBY_FAR, 1, 6, 5, 2, NEARBY_FAR, 1, 5, 1, 4, NEARBY_FAR, 0, 0, 0, 0 };
    const uint64_t told[] = { 0, 5, 1, 0, 0, 1, 0, 5, 0, 0, 5, 1, 0, 0, 1, 0, 5, 0 };
    CHECK(try_enter(&s, sixth, 1, (points){ probes, 1 }).refusal == 0);
    CHECK(try_many_pages(&s, (points){ probes, 6 }, (room){ reaches, 6 }, (room){ places, LENGTH(places) }, 5, (room){ outcomes, 18 },
                         (room){ items, LENGTH(items) }) == 0);
    CHECK(memcmp(outcomes, told, sizeof told) == 0);
    free_store(&s);
}

void last_page_tests(void)
{
    run_test("last pages: walks by pages of every size", walks);
    run_test("last pages: the ends of large tables", ends_of_large_tables);
    run_test("last pages: lines by hand", lines_by_hand);
    run_test("last pages: rows by hand", rows_by_hand);
}
