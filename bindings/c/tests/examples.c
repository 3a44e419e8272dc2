/*
 * Examples that were worked by hand: distances, and examples a to j of crates/paper/specs/Examples.antt, with those on pages in far order
 * too. These have claims at 2, 3, 9, 6 and 5 of one coordinate, measure 1 and probe 4; the reach is 5 where none is named.
 */
#include "stores.h"
#include "tests.h"

#include <string.h>

/* ---- Distances ---- */

#define LOW INT32_MIN
#define HIGH INT32_MAX

/* Two points of d coordinates, and how far they are apart by measure 1, 2 and 3. */
static const struct {
    size_t d;
    int32_t a[8], b[8];
    uint64_t apart[3];
} distances[] = {
    /* two in which the measures differ, and the probe of examples a to j beside two of their claims */
    { 3, { 1, 2, 3 }, { 4, 4, 4 }, { 6, 3, 3 } },
    { 3, { 1, 2, 3 }, { 1, 3, 2 }, { 2, 1, 2 } },
    { 1, { 4 }, { 9 }, { 5, 5, 1 } },
    { 1, { 4 }, { 2 }, { 2, 2, 1 } },
    /* the ends of the range, where a difference has no room in 32 bits; the first is example i, and at d = 8 they are the greatest
     * distances that there are */
    { 1, { LOW }, { HIGH }, { 4294967295, 4294967295, 1 } },
    { 1, { HIGH }, { LOW }, { 4294967295, 4294967295, 1 } },
    { 1, { LOW }, { 0 }, { 2147483648, 2147483648, 1 } },
    { 8, { LOW, LOW, LOW, LOW, LOW, LOW, LOW, LOW }, { HIGH, HIGH, HIGH, HIGH, HIGH, HIGH, HIGH, HIGH },
      { 34359738360, 4294967295, 8 } },
    /* signs, equal points, and a largest difference that is not the last */
    { 1, { 0 }, { 0 }, { 0, 0, 0 } },
    { 2, { -7, 7 }, { 7, -7 }, { 28, 14, 2 } },
    { 2, { -3, -5 }, { -8, -1 }, { 9, 5, 2 } },
    { 4, { 100, 1, 1, 1 }, { 0, 0, 0, 0 }, { 103, 100, 4 } },
    { 8, { 5, 5, 5, 5, 5, 5, 5, 5 }, { 5, 5, 5, 5, 5, 5, 5, 5 }, { 0, 0, 0 } },
};

/* The one claim of a table is its whole page within a distance, in either order, and the page within one less has none. */
static void check_page_of_one(const store *s, uint8_t order, points probe, uint64_t apart)
{
    uint64_t items[2 * NEARBY_ITEM];
    room out = { items, LENGTH(items) };
    nearby_filled page = try_page(s, order, probe, apart, (nearby_start){ 0 }, 2, out);
    CHECK(page.count == 1 && page.last == 1 && items[0] == 0 && items[1] == 101 && items[2] == apart);
    if (apart > 0)
        CHECK(try_page(s, order, probe, apart - 1, (nearby_start){ 0 }, 2, out).count == 0);
}

/* The distance shows in a table of one claim: in its nearest, its farthest and its pages, and in the reach that just includes it. */
static void check_distance(uint8_t measure, points claim, points probe, uint64_t apart)
{
    seeded from = seed(81);
    const uint32_t given[] = { 101 };
    store s = lend_store(&from, claim.length, 1, 0);
    s.table = try_make(7, measure, claim.length, 1, &s).table;
    CHECK(try_enter(&s, given, 1, claim).refusal == 0);
    nearby_item nearest = try_nearest(&s, probe, apart), farthest = try_farthest(&s, probe);
    CHECK(nearest.found == 1 && nearest.number == 0 && nearest.reference == 101 && nearest.distance == apart);
    CHECK(farthest.found == 1 && farthest.number == 0 && farthest.reference == 101 && farthest.distance == apart);
    if (apart > 0)
        CHECK(try_nearest(&s, probe, apart - 1).found == 0);
    check_page_of_one(&s, NEARBY_NEAR, probe, apart);
    check_page_of_one(&s, NEARBY_FAR, probe, apart);
    free_store(&s);
}

static void distances_by_hand(void)
{
    CHECK(LENGTH(distances) == 13);
    for (size_t i = 0; i < LENGTH(distances); i++)
        for (uint8_t measure = 1; measure <= 3; measure++) {
            points a = { distances[i].a, distances[i].d }, b = { distances[i].b, distances[i].d };
            check_distance(measure, a, b, distances[i].apart[measure - 1]);
            check_distance(measure, b, a, distances[i].apart[measure - 1]);
        }
}

/* ---- The tree ---- */

/* a: [3.5] to [3.10] three nodes, one below the other on the right, with far distances 6 and 1. */
static void example_a(void)
{
    seeded from = seed(82);
    store s = marked_store(&from, 8);
    const uint64_t nodes[] = { 1, 2, 0, 6, 0, 2, 3, 4, 0, 1, 0, 3, 5, 0, 0, 0, 0, 0 };
    CHECK(s.table.used == 3 && memcmp(s.nodes, nodes, sizeof nodes) == 0);
    free_store(&s);
}

/* [3.8] The left of two as near: a claim at 1 beside 0 and 2. */
static void ties_go_left(void)
{
    seeded from = seed(83);
    store s = lend_store(&from, 1, 3, 0);
    s.table = try_make(7, NEARBY_CITY_BLOCK, 1, 3, &s).table;
    const uint32_t given[] = { 101, 102, 103 };
    const int32_t run[] = { 0, 2, 1 };
    const uint64_t nodes[] = { 1, 2, 1, 0, 2, 0, 3, 0, 0, 0, 0, 0 };
    CHECK(try_enter(&s, given, 3, (points){ run, 3 }).refusal == 0);
    CHECK(s.table.used == 2 && memcmp(s.nodes, nodes, sizeof nodes) == 0);
    free_store(&s);
}

/* ---- Questions ---- */

static const int32_t four[] = { 4 };
static const points probe = { four, 1 };

/* How far the claims are from the probe, by their numbers; their references are 101 and on. The sixth, at 4, is entered by some. */
static const uint64_t from_probe[] = { 2, 1, 5, 2, 1, 0 };

static bool found(nearby_item item, uint64_t number)
{
    return item.refusal == 0 && item.found == 1 && item.number == number && item.reference == 101 + number
        && item.distance == from_probe[number];
}

/* c: [4.1] [4.2] the nearest of a pair, and the farthest. d: [2.4] no claim is at the probe; one at the reach itself is found. */
static void examples_c_and_d(void)
{
    seeded from = seed(84);
    store s = marked_store(&from, 8);
    CHECK(found(try_nearest(&s, probe, 5), 1) && found(try_farthest(&s, probe), 2));
    nearby_item within_0 = try_nearest(&s, probe, 0);
    CHECK(within_0.refusal == 0 && within_0.found == 0 && found(try_nearest(&s, probe, 1), 1));
    free_store(&s);
}

/* A page: its claims by number, and whether it is the last. */
typedef struct {
    size_t count;
    uint64_t numbers[6];
    uint8_t last;
} expected;

/* What pages are asked for: the first from a start on, those behind it of the first five claims. */
typedef struct {
    uint8_t order;
    uint64_t reach;
    nearby_start start;
    size_t size;
} asked;

/* Asks for pages, each from the last item of the one before, and compares each. */
static void check_pages(const store *s, asked a, const expected *pages, size_t length)
{
    nearby_start start = a.start;
    for (size_t i = 0; i < length; i++) {
        uint64_t items[NEARBY_MOST_PAGE * NEARBY_ITEM];
        nearby_filled page = try_page(s, a.order, probe, a.reach, start, a.size, (room){ items, LENGTH(items) });
        CHECK(page.refusal == 0 && page.count == pages[i].count && page.last == pages[i].last);
        for (size_t k = 0; k < page.count && k < pages[i].count; k++) {
            const uint64_t *item = items + k * NEARBY_ITEM;
            CHECK(found((nearby_item){ 0, 1, item[0], item[1], item[2] }, pages[i].numbers[k]));
            start = (nearby_start){ 1, 5, item[2], item[0] };
        }
    }
}

/* b: [2.5] all five in near order. e: [4.6] in pages of 2. In pages of 1 and of 3 marks stand between claims as far. */
static void examples_b_and_e(void)
{
    seeded from = seed(85);
    store s = marked_store(&from, 8);
    const expected by_1[] = { { 1, { 1 }, 0 }, { 1, { 4 }, 0 }, { 1, { 0 }, 0 }, { 1, { 3 }, 0 }, { 1, { 2 }, 1 } };
    const expected by_2[] = { { 2, { 1, 4 }, 0 }, { 2, { 0, 3 }, 0 }, { 1, { 2 }, 1 } };
    const expected by_3[] = { { 3, { 1, 4, 0 }, 0 }, { 2, { 3, 2 }, 1 } };
    check_pages(&s, (asked){ NEARBY_NEAR, 5, { 0 }, 1 }, by_1, LENGTH(by_1));
    check_pages(&s, (asked){ NEARBY_NEAR, 5, { 0 }, 2 }, by_2, LENGTH(by_2));
    check_pages(&s, (asked){ NEARBY_NEAR, 5, { 0 }, 3 }, by_3, LENGTH(by_3));
    free_store(&s);
}

/* b and e in far order: the farthest first, and of two as far the smaller number. */
static void far_b_and_e(void)
{
    seeded from = seed(89);
    store s = marked_store(&from, 8);
    const expected by_1[] = { { 1, { 2 }, 0 }, { 1, { 0 }, 0 }, { 1, { 3 }, 0 }, { 1, { 1 }, 0 }, { 1, { 4 }, 1 } };
    const expected by_2[] = { { 2, { 2, 0 }, 0 }, { 2, { 3, 1 }, 0 }, { 1, { 4 }, 1 } };
    const expected by_3[] = { { 3, { 2, 0, 3 }, 0 }, { 2, { 1, 4 }, 1 } };
    check_pages(&s, (asked){ NEARBY_FAR, 5, { 0 }, 1 }, by_1, LENGTH(by_1));
    check_pages(&s, (asked){ NEARBY_FAR, 5, { 0 }, 2 }, by_2, LENGTH(by_2));
    check_pages(&s, (asked){ NEARBY_FAR, 5, { 0 }, 3 }, by_3, LENGTH(by_3));
    free_store(&s);
}

/* [2.4] The reach bounds far order from above, too: within 4 and within 2 the farthest claim is not seen, within 1 only a pair is,
 * and within 0 none. */
static void far_within_reach(void)
{
    seeded from = seed(80);
    store s = marked_store(&from, 8);
    const expected of_four[] = { { 2, { 0, 3 }, 0 }, { 2, { 1, 4 }, 1 } };
    const expected of_two[] = { { 2, { 1, 4 }, 1 } };
    const expected of_none[] = { { 0, { 0 }, 1 } };
    check_pages(&s, (asked){ NEARBY_FAR, 4, { 0 }, 2 }, of_four, LENGTH(of_four));
    check_pages(&s, (asked){ NEARBY_FAR, 2, { 0 }, 2 }, of_four, LENGTH(of_four));
    check_pages(&s, (asked){ NEARBY_FAR, 1, { 0 }, 2 }, of_two, LENGTH(of_two));
    check_pages(&s, (asked){ NEARBY_FAR, 0, { 0 }, 2 }, of_none, LENGTH(of_none));
    free_store(&s);
}

/* f: [4.5] what is entered after the first page is on none of the others. In far order, too, where a claim at the probe itself would
 * come behind all others. A new list has it: in near order first, in far order last. */
static void example_f(void)
{
    seeded from = seed(86);
    store s = marked_store(&from, 8);
    const uint32_t given[] = { 106 };
    const expected near_rest[] = { { 2, { 0, 3 }, 0 }, { 1, { 2 }, 1 } }, far_rest[] = { { 2, { 3, 1 }, 0 }, { 1, { 4 }, 1 } };
    const expected near_anew[] = { { 6, { 5, 1, 4, 0, 3, 2 }, 1 } }, far_anew[] = { { 6, { 2, 0, 3, 1, 4, 5 }, 1 } };
    CHECK(try_enter(&s, given, 1, probe).refusal == 0);
    check_pages(&s, (asked){ NEARBY_NEAR, 5, { 1, 5, 1, 4 }, 2 }, near_rest, LENGTH(near_rest));
    check_pages(&s, (asked){ NEARBY_FAR, 5, { 1, 5, 2, 0 }, 2 }, far_rest, LENGTH(far_rest));
    check_pages(&s, (asked){ NEARBY_NEAR, 5, { 0 }, 6 }, near_anew, LENGTH(near_anew));
    check_pages(&s, (asked){ NEARBY_FAR, 5, { 0 }, 6 }, far_anew, LENGTH(far_anew));
    free_store(&s);
}

/* g: [8.8] claim 4 is not at distance 2. h: [8.7] the sixth claim is not there. Claim 2 is no mark within 4. */
static void examples_g_and_h(void)
{
    seeded from = seed(87);
    store s = marked_store(&from, 8);
    uint64_t items[2 * NEARBY_ITEM] = { 0 };
    room out = { items, LENGTH(items) };
    for (uint8_t order = NEARBY_NEAR; order <= NEARBY_FAR; order++) {
        CHECK(try_page(&s, order, probe, 5, (nearby_start){ 1, 5, 2, 4 }, 2, out).refusal == 8);
        CHECK(try_page(&s, order, probe, 5, (nearby_start){ 1, 6, 1, 1 }, 2, out).refusal == 7);
        CHECK(try_page(&s, order, probe, 4, (nearby_start){ 1, 5, 5, 2 }, 2, out).refusal == 8);
    }
    free_store(&s);
}

/* j: [4.7] a page of just all that are left is the last, and so is the empty one behind it. One of 4 leaves a claim behind it. */
static void example_j(void)
{
    seeded from = seed(88);
    store s = marked_store(&from, 8);
    const expected near_by_5[] = { { 5, { 1, 4, 0, 3, 2 }, 1 }, { 0, { 0 }, 1 } };
    const expected far_by_5[] = { { 5, { 2, 0, 3, 1, 4 }, 1 }, { 0, { 0 }, 1 } };
    const expected near_by_4[] = { { 4, { 1, 4, 0, 3 }, 0 }, { 1, { 2 }, 1 } };
    const expected far_by_4[] = { { 4, { 2, 0, 3, 1 }, 0 }, { 1, { 4 }, 1 } };
    check_pages(&s, (asked){ NEARBY_NEAR, 5, { 0 }, 5 }, near_by_5, LENGTH(near_by_5));
    check_pages(&s, (asked){ NEARBY_FAR, 5, { 0 }, 5 }, far_by_5, LENGTH(far_by_5));
    check_pages(&s, (asked){ NEARBY_NEAR, 5, { 0 }, 4 }, near_by_4, LENGTH(near_by_4));
    check_pages(&s, (asked){ NEARBY_FAR, 5, { 0 }, 4 }, far_by_4, LENGTH(far_by_4));
    free_store(&s);
}

void example_tests(void)
{
    run_test("examples: 39 distances by hand, i among them", distances_by_hand);
    run_test("examples: a, the tree of five claims", example_a);
    run_test("examples: a claim as near to both goes left", ties_go_left);
    run_test("examples: b and e, pages of 1, 2 and 3", examples_b_and_e);
    run_test("examples: b and e in far order", far_b_and_e);
    run_test("examples: far order within a reach", far_within_reach);
    run_test("examples: c and d, nearest and farthest", examples_c_and_d);
    run_test("examples: f, a claim entered between pages", example_f);
    run_test("examples: g and h, places refused", examples_g_and_h);
    run_test("examples: j, full pages that are last or not", example_j);
}
