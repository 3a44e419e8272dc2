/* Nearest, farthest and pages beside a plain sort. */
#include "stores.h"
#include "tests.h"

#include <stdlib.h>
#include <string.h>

/* A probe near a table's claims, or anywhere. */
static void any_probe(seeded *from, const store *s, style how, int32_t *probe)
{
    const nearby_table *t = &s->table;
    put_coordinates(from, one_in(from, 4) ? ANYWHERE : how, probe, t->d);
    if (t->count > 0 && one_in(from, 4))
        memcpy(probe, s->coordinates + below(from, t->count) * t->d, t->d * sizeof(int32_t));
}

typedef void asked(seeded *from, const store *s, const int32_t *probe);

/* A question asked of generated tables of every measure, d and style, several times each. */
static void ask_tables(uint64_t number, const size_t *counts, size_t length, int times, asked *question)
{
    seeded from = seed(number);
    int32_t probe[8];
    for (uint8_t measure = 1; measure <= 3; measure++)
        for (size_t d = 1; d <= 8; d++)
            for (style how = 0; how < STYLES; how++)
                for (size_t i = 0; i < length; i++) {
                    store s = full_store(&from, measure, d, counts[i] + 1, counts[i], how);
                    for (int k = 0; k < times; k++) {
                        any_probe(&from, &s, how, probe);
                        question(&from, &s, probe);
                    }
                    free_store(&s);
                }
}

static void ask_ends(seeded *from, const store *s, const int32_t *probe)
{
    points p = { probe, s->table.d };
    nearby_item first = try_nearest(s, p, UINT64_MAX);
    CHECK(first.found == (s->table.count > 0));
    try_nearest(s, p, any_reach(from, s, probe));
    CHECK(try_farthest(s, p).found == (s->table.count > 0));
    if (first.found == 0)
        return;
    CHECK(try_nearest(s, p, first.distance).number == first.number);
    if (first.distance > 0)
        CHECK(try_nearest(s, p, first.distance - 1).found == 0);
}

static void nearest_and_farthest(void)
{
    const size_t counts[] = { 0, 1, 2, 5, 33, 200 };
    ask_tables(11, counts, LENGTH(counts), 8, ask_ends);
}

static nearby_start after(uint64_t snapshot, const uint64_t *item)
{
    return (nearby_start){ 1, snapshot, item[2], item[0] };
}

/* All pages of one order and size from the start on; together they are the sorted claims, none twice, and just the page with which all
 * are seen is the last. */
static void page_through(const store *s, uint8_t order, const int32_t *probe, uint64_t reach, size_t size)
{
    size_t n = s->table.count, seen = 0;
    uint64_t *all = malloc((n + 1) * NEARBY_ITEM * sizeof(uint64_t)), *items = brink(size * NEARBY_ITEM * sizeof(uint64_t));
    size_t within = model_listed(s, order, probe, reach, n, all);
    nearby_start at = { 0 };
    nearby_filled page = { 0 };
    for (size_t turns = 0; turns <= within && !page.last; turns++) {
        page = try_page(s, order, (points){ probe, s->table.d }, reach, at, size, (room){ items, size * NEARBY_ITEM });
        if (!CHECK(page.refusal == 0 && seen + page.count <= within))
            break;
        CHECK(memcmp(items, all + seen * NEARBY_ITEM, page.count * NEARBY_ITEM * sizeof(uint64_t)) == 0);
        seen += page.count;
        CHECK(page.last == (seen == within));
        if (page.count > 0)
            at = after(n, items + (page.count - 1) * NEARBY_ITEM);
    }
    CHECK(page.last == 1 && seen == within);
    free(all);
    brink_free(items, size * NEARBY_ITEM * sizeof(uint64_t));
}

/* In one order within a reach, and in the other without one. */
static void ask_all_pages(seeded *from, const store *s, const int32_t *probe)
{
    uint8_t order = any_order(from);
    page_through(s, order, probe, any_reach(from, s, probe), 1 + below(from, NEARBY_MOST_PAGE));
    page_through(s, order == NEARBY_NEAR, probe, UINT64_MAX, 1 + below(from, NEARBY_MOST_PAGE));
}

static void pages_to_the_end(void)
{
    const size_t counts[] = { 0, 1, 2, 16, 17, 60 };
    ask_tables(12, counts, LENGTH(counts), 1, ask_all_pages);
}

/* The page after every claim's own mark in a snapshot, and marks that are none. */
static void ask_after_marks(seeded *from, const store *s, const int32_t *probe)
{
    uint64_t items[NEARBY_MOST_PAGE * NEARBY_ITEM] = { 0 };
    const nearby_table *t = &s->table;
    points p = { probe, t->d };
    uint64_t reach = any_reach(from, s, probe), snapshot = below(from, t->count + 2);
    for (uint64_t claim = 0; claim < t->count + 1; claim++) {
        uint64_t apart = claim < t->count ? model_distance(t->measure, t->d, s->coordinates + claim * t->d, probe) : 0;
        nearby_start start = { (uint8_t)(1 + 254 * below(from, 2)), snapshot, apart, claim };
        uint8_t order = any_order(from);
        size_t size = 1 + below(from, NEARBY_MOST_PAGE);
        nearby_filled page = try_page(s, order, p, reach, start, size, (room){ items, size * NEARBY_ITEM });
        bool holds = snapshot <= t->count && claim < snapshot && apart <= reach;
        CHECK(page.refusal == (snapshot > t->count ? 7 : holds ? 0 : 8));
        start.distance += one_in(from, 2) ? 1 : UINT64_MAX;
        CHECK(try_page(s, order, p, reach, start, size, (room){ items, 48 }).refusal == (snapshot > t->count ? 7 : 8));
    }
}

static void pages_after_every_mark(void)
{
    const size_t counts[] = { 0, 1, 3, 12, 30 };
    ask_tables(13, counts, LENGTH(counts), 3, ask_after_marks);
}

static void pages_in_every_snapshot(void)
{
    seeded from = seed(14);
    uint64_t items[NEARBY_MOST_PAGE * NEARBY_ITEM];
    for (int round = 0; round < 12; round++) {
        store s = full_store(&from, (uint8_t)(1 + round % 3), 2, 20, 18, (style)(round % STYLES));
        int32_t probe[2];
        any_probe(&from, &s, TIED, probe);
        for (uint64_t snapshot = 0; snapshot <= 18; snapshot++)
            for (uint64_t claim = 0; claim < snapshot; claim++) {
                uint64_t apart = model_distance(s.table.measure, 2, s.coordinates + claim * 2, probe);
                nearby_start start = { 1, snapshot, apart, claim };
                for (uint8_t order = NEARBY_NEAR; order <= NEARBY_FAR; order++)
                    CHECK(try_page(&s, order, (points){ probe, 2 }, UINT64_MAX, start, 16, (room){ items, 48 }).refusal == 0);
            }
        free_store(&s);
    }
}

/* The first pages of a table that is too large to page through. */
static void first_pages(const store *s, uint8_t order, const int32_t *probe)
{
    uint64_t items[NEARBY_MOST_PAGE * NEARBY_ITEM];
    points p = { probe, s->table.d };
    nearby_start at = { 0 };
    for (int i = 0; i < 3; i++) {
        nearby_filled page = try_page(s, order, p, UINT64_MAX, at, NEARBY_MOST_PAGE, (room){ items, LENGTH(items) });
        CHECK(page.count == NEARBY_MOST_PAGE && page.last == 0);
        at = after(s->table.count - (uint64_t)i, items + (NEARBY_MOST_PAGE - 1) * NEARBY_ITEM);
        if (at.number >= at.snapshot)
            break;
    }
}

/* Each measure and each style has tables of either order. */
static void questions_on_large_tables(void)
{
    seeded from = seed(15);
    const size_t counts[] = { 500, 4095, 4096 };
    for (uint8_t measure = 1; measure <= 3; measure++)
        for (style how = 0; how < STYLES; how++) {
            size_t n = counts[(measure + how) % LENGTH(counts)];
            uint8_t order = (measure + how) % 2 == 0 ? NEARBY_NEAR : NEARBY_FAR;
            store s = full_store(&from, measure, 1 + below(&from, 8), n, n, how);
            int32_t probe[8];
            any_probe(&from, &s, how, probe);
            ask_ends(&from, &s, probe);
            first_pages(&s, order, probe);
            if (n <= 500) {
                page_through(&s, NEARBY_NEAR, probe, UINT64_MAX, NEARBY_MOST_PAGE);
                page_through(&s, NEARBY_FAR, probe, UINT64_MAX, NEARBY_MOST_PAGE);
            }
            free_store(&s);
        }
}

/* A mark of 0 and 0 holds back claim 0; the start holds back none. */
static void start_is_no_mark(void)
{
    seeded from = seed(17);
    store s = full_store(&from, 1, 3, 4, 4, ALIKE);
    const int32_t place[] = { 4, 4, 4 };
    const points here = { place, 3 };
    const nearby_start start = { 0, 9, 9, 9 }, mark = { 1, 4, 0, 0 };
    uint64_t items[12];
    for (uint8_t order = NEARBY_NEAR; order <= NEARBY_FAR; order++) {
        CHECK(try_page(&s, order, here, 0, start, 4, (room){ items, 12 }).count == 4 && items[0] == 0);
        CHECK(try_page(&s, order, here, 0, mark, 4, (room){ items, 12 }).count == 3 && items[0] == 1);
    }
    free_store(&s);
}

/* Claim 0 lies at the probe, so its mark is 0 and 0 here, too: in far order nothing comes after it, in near order all others do. */
static void mark_at_the_far_end(void)
{
    seeded from = seed(19);
    store s = lend_store(&from, 1, 3, 0);
    s.table = try_make(7, NEARBY_CITY_BLOCK, 1, 3, &s).table;
    const uint32_t given[] = { 101, 102, 103 };
    const int32_t run[] = { 4, 5, 2 };
    const points here = { run, 1 };
    const nearby_start start = { 0 }, mark = { 1, 3, 0, 0 };
    uint64_t items[12];
    CHECK(try_enter(&s, given, 3, (points){ run, 3 }).refusal == 0);
    CHECK(try_page(&s, NEARBY_FAR, here, 9, start, 4, (room){ items, 12 }).count == 3 && items[0] == 2 && items[6] == 0);
    CHECK(try_page(&s, NEARBY_FAR, here, 9, mark, 4, (room){ items, 12 }).count == 0);
    CHECK(try_page(&s, NEARBY_NEAR, here, 9, mark, 4, (room){ items, 12 }).count == 2 && items[0] == 1 && items[3] == 2);
    free_store(&s);
}

static void probes_and_sizes_amiss(void)
{
    seeded from = seed(18);
    const size_t sizes[] = { 0, 1, 16, 17, 255, 256, 257, SIZE_MAX / 3 + 1, SIZE_MAX };
    int32_t probe[10] = { 0 };
    uint64_t items[60] = { 0 };
    for (size_t d = 1; d <= 8; d++) {
        store s = full_store(&from, 3, d, 30, 20, TIED);
        for (size_t length = 0; length <= 10; length++) {
            points p = { probe, length };
            CHECK((try_nearest(&s, p, 3).refusal == 5) == (length != d));
            CHECK((try_farthest(&s, p).refusal == 5) == (length != d));
            for (size_t i = 0; i < LENGTH(sizes); i++)
                try_page(&s, any_order(&from), p, 3, (nearby_start){ 0 }, sizes[i], (room){ items, 60 });
        }
        for (size_t size = 1; size <= 16; size++)
            for (size_t length = 0; length <= 60; length++)
                try_page(&s, any_order(&from), (points){ probe, d }, UINT64_MAX, (nearby_start){ 0 }, size, (room){ items, length });
        free_store(&s);
    }
}

void question_tests(void)
{
    run_test("questions: nearest and farthest beside a sort", nearest_and_farthest);
    run_test("questions: pages to the end beside a sort", pages_to_the_end);
    run_test("questions: pages after every mark", pages_after_every_mark);
    run_test("questions: pages in every snapshot", pages_in_every_snapshot);
    run_test("questions: large tables", questions_on_large_tables);
    run_test("questions: the start is no mark", start_is_no_mark);
    run_test("questions: a mark at the far end", mark_at_the_far_end);
    run_test("questions: probes and page sizes amiss", probes_and_sizes_amiss);
}
