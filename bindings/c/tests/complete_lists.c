/* With which answer a list is complete: the one that brings its last claim, or an empty one behind it where that did not say so. */
#include "line_fields.h"
#include "stores.h"
#include "tablets.h"
#include "tests.h"

#include <stdlib.h>
#include <string.h>

/* Whether a list has just these items. */
static bool has_items(const tablet *t, const uint64_t *items, size_t count)
{
    return t->list.count == count && memcmp(t->items.at, items, count * NEARBY_ITEM * sizeof(uint64_t)) == 0;
}

static uint8_t take_answer(tablet *t, text line)
{
    nearby_listed taken = try_take(t->list, t->items, line);
    t->list = taken.list;
    return taken.refusal;
}

/* ---- Answers of 16 ---- */

/* Claims of a table, all within reach, and how many answers complete their list: flagged as the office flags them, and where only one
 * that is not full is flagged as the last, by the former rule [7.15]. */
static const struct {
    size_t claims, answers[2];
} loads[] = { { 0, { 1, 1 } },  { 1, { 1, 1 } },  { 15, { 1, 1 } }, { 16, { 1, 2 } }, { 17, { 2, 2 } },
              { 31, { 2, 2 } }, { 32, { 2, 3 } }, { 33, { 3, 3 } }, { 48, { 3, 4 } } };

/* The answer in a room, flagged as the last just where it is not full; gives its length. */
static size_t flag_if_not_full(output out, size_t length)
{
    nearby_answer_fields a = model_read_answer((text){ out.at, length }).answer;
    a.last = a.count < NEARBY_MOST_PAGE;
    return write_answer_fields(a, out).length;
}

/* Loads a list to its last answer, in a room for just its claims, while the table grows. Then it asks and takes no more. */
static void load_list(seeded *from, uint8_t order, size_t claims, size_t answers, bool only_if_not_full)
{
    const int32_t probe[] = { 0, 1 };
    uint8_t out[NEARBY_ANSWER_LINE];
    store s = full_store(from, NEARBY_CITY_BLOCK, 2, claims + answers, claims, TIED);
    tablet t = open_tablet(order, s.table.number, NEARBY_CITY_BLOCK, (points){ probe, 2 }, UINT64_MAX, claims * NEARBY_ITEM);
    uint64_t *all = malloc((claims + 1) * NEARBY_ITEM * sizeof(uint64_t));
    CHECK(model_listed(&s, order, probe, UINT64_MAX, claims, all) == claims);
    text line = { out, 0 };
    for (size_t i = 1; i <= answers; i++) {
        line.length = fetch_answer(&t, &s, NEARBY_MOST_PAGE, (output){ out, sizeof out });
        if (only_if_not_full)
            line.length = flag_if_not_full((output){ out, sizeof out }, line.length);
        CHECK(take_answer(&t, line) == 0 && t.list.complete == (i == answers));
        enter_run(from, &s, 1, TIED);
    }
    CHECK(has_items(&t, all, claims));
    CHECK(try_take(t.list, t.items, line).refusal == 16);
    CHECK(try_write_ask(t.list, t.items, NEARBY_MOST_PAGE, (output){ out, sizeof out }).refusal == 16);
    free(all);
    free_room(t.items);
    free_store(&s);
}

static void load_lists(bool only_if_not_full)
{
    seeded from = seed(105);
    for (size_t i = 0; i < LENGTH(loads); i++)
        for (uint8_t order = NEARBY_NEAR; order <= NEARBY_FAR; order++)
            load_list(&from, order, loads[i].claims, loads[i].answers[only_if_not_full], only_if_not_full);
}

static void flagged_as_they_are(void) { load_lists(false); }
static void flagged_if_not_full(void) { load_lists(true); }

/* ---- All claims, and no word that they are all ---- */

/* [7.15] An answer with all five claims of the examples holds although it is not flagged as the last, so it is taken. The list has
 * them all and is not complete; what it asks then is answered by an empty last page, which completes it. */
static void take_unflagged(uint8_t order, uint64_t *all, const char *ask, const char *answer)
{
    const int32_t four[] = { 4 };
    const points probe = { four, 1 };
    const nearby_scope scope = { .reach = 5, .snapshot = 5 };
    uint8_t out[DOTS];
    seeded from = seed(106);
    store s = marked_store(&from, 8);
    tablet t = open_tablet(order, 7, NEARBY_CITY_BLOCK, probe, 5, 5 * NEARBY_ITEM);
    nearby_written page = try_answer_line(order, 7, NEARBY_CITY_BLOCK, 1, probe, scope, 0, 5, (room){ all, 5 * NEARBY_ITEM },
                                          dotted(out, DOTS));
    CHECK(take_answer(&t, (text){ out, page.length }) == 0);
    CHECK(has_items(&t, all, 5) && t.list.snapshot == 5 && t.list.complete == 0);
    CHECK(wrote(out, try_write_ask(t.list, t.items, 5, dotted(out, DOTS)), text_of(ask)));
    CHECK(wrote(out, try_answer(&s, text_of(ask), dotted(out, DOTS)), text_of(answer)));
    CHECK(take_answer(&t, text_of(answer)) == 0);
    CHECK(has_items(&t, all, 5) && t.list.snapshot == 5 && t.list.complete == 1);
    CHECK(try_write_ask(t.list, t.items, 5, (output){ out, sizeof out }).refusal == 16);
    free_room(t.items);
    free_store(&s);
}

static void all_without_the_flag(void)
{
    uint64_t near[] = { 1, 0x66, 1, 4, 0x69, 1, 0, 0x65, 2, 3, 0x68, 2, 2, 0x67, 5 };
    uint64_t far[] = { 2, 0x67, 5, 0, 0x65, 2, 3, 0x68, 2, 1, 0x66, 1, 4, 0x69, 1 };
    take_unflagged(NEARBY_NEAR, near,
                   "01" "00000007" "01" "01" "00000004" "0000000000000005" "01" "0005" "0000000000000005" "0002" "05\n",
                   "02" "00000007" "01" "01" "00000004" "0000000000000005" "01" "0005" "0000000000000005" "0002" "01" "00\n");
    take_unflagged(NEARBY_FAR, far,
                   "04" "00000007" "01" "01" "00000004" "0000000000000005" "01" "0005" "0000000000000001" "0004" "05\n",
                   "05" "00000007" "01" "01" "00000004" "0000000000000005" "01" "0005" "0000000000000001" "0004" "01" "00\n");
}

void complete_list_tests(void)
{
    run_test("complete lists: with the answer that brings the last claim", flagged_as_they_are);
    run_test("complete lists: where only an answer that is not full is flagged", flagged_if_not_full);
    run_test("complete lists: all claims without the flag, then an empty page", all_without_the_flag);
}
