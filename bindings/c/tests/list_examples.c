/*
 * The list of the examples, read from its near end and from its far end: each line as it was worked by hand from the rules, with no part
 * of the library or the model in it; and the two lists beside each other, of which neither takes the other's lines.
 */
#include "stores.h"
#include "tablets.h"
#include "tests.h"

#include <string.h>

static const int32_t four[] = { 4 };

/* The list of the examples in an order, with room for just its items. */
static tablet open_examples(uint8_t order)
{
    return open_tablet(order, 7, NEARBY_CITY_BLOCK, (points){ four, 1 }, 5, 5 * NEARBY_ITEM);
}

/* ---- Page by page ---- */

/* An ask, its answer, and what the list has then. */
typedef struct {
    const char *ask, *answer;
    size_t count;
    uint8_t complete;
} exchange;

static bool is_line(const uint8_t *line, size_t length, const char *told)
{
    return length == strlen(told) && memcmp(line, told, length) == 0;
}

/* [4.5] In pages of 2. After each page a new claim is entered at 4; the list never gets it. */
static void read_examples(uint8_t order, const exchange *pages, size_t length, const uint64_t *in_order)
{
    uint8_t line[NEARBY_ANSWER_LINE];
    output out = { line, sizeof line };
    seeded from = seed(31);
    store s = marked_store(&from, 8);
    tablet t = open_examples(order);
    for (size_t i = 0; i < length; i++) {
        CHECK(is_line(line, try_write_ask(t.list, t.items, 2, out).length, pages[i].ask));
        size_t answered = fetch_answer(&t, &s, 2, out);
        CHECK(is_line(line, answered, pages[i].answer));
        t.list = try_take(t.list, t.items, (text){ line, answered }).list;
        CHECK(t.list.snapshot == 5 && t.list.count == pages[i].count && t.list.complete == pages[i].complete);
        CHECK(memcmp(t.items.at, in_order, pages[i].count * NEARBY_ITEM * sizeof(uint64_t)) == 0);
        const uint32_t reference = 0x6a + (uint32_t)i;
        CHECK(try_enter(&s, &reference, 1, (points){ four, 1 }).refusal == 0);
    }
    free_room(t.items);
    free_store(&s);
}

static void from_the_near_end(void)
{
    const exchange pages[] = {
        { "01" "00000007" "01" "01" "00000004" "0000000000000005" "00" "0000" "0000000000000000" "0000" "02\n",
          "02" "00000007" "01" "01" "00000004" "0000000000000005" "00" "0005" "0000000000000000" "0000" "00" "02"
          "0001" "00000066" "0000000000000001" "0004" "00000069" "0000000000000001\n", 2, 0 },
        { "01" "00000007" "01" "01" "00000004" "0000000000000005" "01" "0005" "0000000000000001" "0004" "02\n",
          "02" "00000007" "01" "01" "00000004" "0000000000000005" "01" "0005" "0000000000000001" "0004" "00" "02"
          "0000" "00000065" "0000000000000002" "0003" "00000068" "0000000000000002\n", 4, 0 },
        { "01" "00000007" "01" "01" "00000004" "0000000000000005" "01" "0005" "0000000000000002" "0003" "02\n",
          "02" "00000007" "01" "01" "00000004" "0000000000000005" "01" "0005" "0000000000000002" "0003" "01" "01"
          "0002" "00000067" "0000000000000005\n", 5, 1 },
    };
    const uint64_t in_order[] = { 1, 0x66, 1, 4, 0x69, 1, 0, 0x65, 2, 3, 0x68, 2, 2, 0x67, 5 };
    read_examples(NEARBY_NEAR, pages, LENGTH(pages), in_order);
}

static void from_the_far_end(void)
{
    const exchange pages[] = {
        { "04" "00000007" "01" "01" "00000004" "0000000000000005" "00" "0000" "0000000000000000" "0000" "02\n",
          "05" "00000007" "01" "01" "00000004" "0000000000000005" "00" "0005" "0000000000000000" "0000" "00" "02"
          "0002" "00000067" "0000000000000005" "0000" "00000065" "0000000000000002\n", 2, 0 },
        { "04" "00000007" "01" "01" "00000004" "0000000000000005" "01" "0005" "0000000000000002" "0000" "02\n",
          "05" "00000007" "01" "01" "00000004" "0000000000000005" "01" "0005" "0000000000000002" "0000" "00" "02"
          "0003" "00000068" "0000000000000002" "0001" "00000066" "0000000000000001\n", 4, 0 },
        { "04" "00000007" "01" "01" "00000004" "0000000000000005" "01" "0005" "0000000000000001" "0001" "02\n",
          "05" "00000007" "01" "01" "00000004" "0000000000000005" "01" "0005" "0000000000000001" "0001" "01" "01"
          "0004" "00000069" "0000000000000001\n", 5, 1 },
    };
    const uint64_t in_order[] = { 2, 0x67, 5, 0, 0x65, 2, 3, 0x68, 2, 1, 0x66, 1, 4, 0x69, 1 };
    read_examples(NEARBY_FAR, pages, LENGTH(pages), in_order);
}

/* ---- Both at once ---- */

/* A list, and the answer that was written for it last. */
typedef struct {
    tablet t;
    uint8_t line[NEARBY_ANSWER_LINE];
    size_t length;
} reader;

static void ask_for_three(reader *r, const store *s)
{
    r->length = fetch_answer(&r->t, s, 3, (output){ r->line, sizeof r->line });
}

static nearby_listed take_from(const reader *r, const reader *other)
{
    return try_take(r->t.list, r->t.items, (text){ other->line, other->length });
}

/* [8.10] In pages of 3. Each list refuses what was written for the other with 10, before its first page, on the way, and when it is
 * complete, where its own line gives 16. */
static void neither_takes_the_others(void)
{
    seeded from = seed(37);
    store s = marked_store(&from, 8);
    reader near = { .t = open_examples(NEARBY_NEAR) }, far = { .t = open_examples(NEARBY_FAR) };
    for (size_t page = 1; page <= 2; page++) {
        ask_for_three(&near, &s);
        ask_for_three(&far, &s);
        CHECK(take_from(&near, &far).refusal == 10 && take_from(&far, &near).refusal == 10);
        near.t.list = take_from(&near, &near).list;
        far.t.list = take_from(&far, &far).list;
        CHECK(near.t.list.count == (page == 1 ? 3 : 5) && near.t.list.complete == (page == 2));
        CHECK(far.t.list.count == (page == 1 ? 3 : 5) && far.t.list.complete == (page == 2));
    }
    CHECK(take_from(&near, &far).refusal == 10 && take_from(&far, &near).refusal == 10);
    CHECK(take_from(&near, &near).refusal == 16 && take_from(&far, &far).refusal == 16);
    free_room(near.t.items);
    free_room(far.t.items);
    free_store(&s);
}

void list_example_tests(void)
{
    run_test("list examples: page by page from the near end", from_the_near_end);
    run_test("list examples: page by page from the far end", from_the_far_end);
    run_test("list examples: neither takes the other's lines", neither_takes_the_others);
}
