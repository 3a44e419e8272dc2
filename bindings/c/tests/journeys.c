/*
 * Generated journeys: an office that enters claims between any two lines, tablets with lists of both orders, and a link that loses,
 * repeats, delays, reorders and damages their lines. After every step each list stands beside a sort of the claims. In the end each list
 * goes on over a link that loses nothing, until it is complete.
 */
#include "journey_counts.h"
#include "journey_link.h"
#include "stores.h"
#include "tablets.h"
#include "tests.h"

#include <string.h>

/* 15 journeys for each measure, d and style. */
enum { ROUNDS = 15 * 3 * NEARBY_MOST_COORDINATES * STYLES, STEPS = 240, TABLETS = 3, LARGEST_CAPACITY = 120, LONGEST_RUN = 10 };

/* A list, the order, probe and reach that were drawn for it, and whether it names the office's table. */
typedef struct {
    tablet t;
    uint8_t order;
    int32_t probe[NEARBY_MOST_COORDINATES];
    uint64_t reach;
    bool ours;
} drawn_list;

/* The office with the memory of its table, the claims as they were handed over to it, how many references were made up so far, the
 * lists, and the link, which keeps its lines from one journey to the next: some come late from another table. */
typedef struct {
    seeded *from;
    style how;
    store office, handed_over;
    size_t made_up;
    drawn_list lists[TABLETS];
    wire *link;
} journey;

/* ---- The office ---- */

/* Mostly one that was never handed over. Some are of few, so that now and then a claim is handed over twice. */
static uint32_t any_reference(journey *j)
{
    if (one_in(j->from, 16))
        return one_in(j->from, 3) ? UINT32_MAX : (uint32_t)below(j->from, 5);
    return reference_of(&j->office.table, j->made_up++);
}

/* Whether some reference of a run stands in it twice, or is that of a claim that was entered. */
static bool some_repeat(const store *s, const uint32_t *given, size_t n)
{
    for (size_t i = 0; i < n; i++) {
        for (size_t k = 0; k < i; k++)
            if (given[k] == given[i])
                return true;
        for (size_t claim = 0; claim < s->table.count; claim++)
            if (s->references[claim] == given[i])
                return true;
    }
    return false;
}

static void keep_run(store *s, const uint32_t *given, size_t n, const int32_t *run)
{
    size_t d = s->table.d, count = s->table.count;
    memcpy(s->references + count, given, n * sizeof *given);
    memcpy(s->coordinates + count * d, run, n * d * sizeof *run);
    s->table.count += n;
}

/* A run, perhaps of no claims, perhaps of more than there is room for, perhaps with a reference that is no longer new; rarely it has a
 * coordinate too many. */
static void enter_some(journey *j)
{
    uint32_t given[LONGEST_RUN];
    int32_t run[LONGEST_RUN * NEARBY_MOST_COORDINATES + 1];
    const nearby_table *t = &j->office.table;
    size_t n = below(j->from, LONGEST_RUN + 1), too_many = one_in(j->from, 10), left = t->capacity - t->count;
    for (size_t i = 0; i < n; i++)
        given[i] = any_reference(j);
    put_coordinates(j->from, one_in(j->from, 8) ? (style)below(j->from, STYLES) : j->how, run, n * t->d + too_many);
    uint8_t refusal = try_enter(&j->office, given, n, (points){ run, n * t->d + too_many }).refusal;
    CHECK(refusal == (too_many ? 5 : some_repeat(&j->handed_over, given, n) ? 17 : n > left ? 3 : 0));
    count_call(ENTER, refusal);
    if (refusal == 0) {
        count_event(RUNS, 1);
        keep_run(&j->handed_over, given, n, run);
        CHECK(t->count == j->handed_over.table.count);
        count_event(CLAIMS, n);
    }
}

/* A page of just all that are left. */
static bool full_and_last(text ask, text answer)
{
    nearby_answer_fields page = model_read_answer(answer).answer;
    return page.last == 1 && page.count == model_read_ask(ask).ask.size;
}

static nearby_written answer_line(journey *j, text ask, output out)
{
    nearby_written answer = try_answer(&j->office, ask, out);
    uint8_t order = answer.refusal == 0 && out.at[1] == '5';
    count_line(ANSWER, answer, order, ANSWERS);
    count_in(order, FULL_AND_LAST, answer.refusal == 0 && full_and_last(ask, (text){ out.at, answer.length }));
    return answer;
}

/* ---- The tablets ---- */

/* Opens a list: sometimes with the probe and reach of another list, whose answers it may then take where it has its order, too, and
 * sometimes of another table. */
static drawn_list open_some(journey *j, const drawn_list *like)
{
    const nearby_table *t = &j->office.table;
    uint32_t number = t->number;
    uint8_t measure = t->measure;
    size_t d = t->d;
    drawn_list l = { .reach = UINT64_MAX };
    put_coordinates(j->from, j->how, l.probe, NEARBY_MOST_COORDINATES);
    if (one_in(j->from, 2))
        l.reach = any_reach(j->from, &j->office, l.probe);
    if (like != NULL)
        l = *like;
    l.order = one_in(j->from, 2) ? NEARBY_NEAR : NEARBY_FAR;
    switch (below(j->from, 16)) {
    case 0: number++; break;
    case 1: measure = (uint8_t)(measure % 3 + 1); break;
    case 2: d = d % NEARBY_MOST_COORDINATES + 1; break;
    default: break;
    }
    l.ours = number == t->number && measure == t->measure && d == t->d;
    l.t = open_tablet(l.order, number, measure, (points){ l.probe, d }, l.reach, below(j->from, 9));
    count_in(l.order, OPENED, 1);
    count_event(LIKE_ANOTHER, like != NULL);
    count_event(OF_OTHER_TABLES, !l.ours);
    return l;
}

static void close_list(const drawn_list *l)
{
    if (l->t.list.complete) {
        count_in(l->order, COMPLETED, 1);
        count_in(l->order, ITEMS, l->t.list.count);
        count_in(l->order, SNAPSHOTS, l->t.list.snapshot);
    }
    free_room(l->t.items);
}

static nearby_written write_ask(const drawn_list *l, size_t size, output out)
{
    nearby_written ask = try_write_ask(l->t.list, l->t.items, size, out);
    count_line(WRITE_ASK, ask, l->order, ASKS);
    return ask;
}

/* Takes a line; where the room is too small, the items move to a longer one and the line is taken again. */
static uint8_t take_line(journey *j, drawn_list *l, text line)
{
    nearby_listed taken = try_take(l->t.list, l->t.items, line);
    count_call(TAKE, taken.refusal);
    count_in(l->order, TAKEN, taken.refusal == 0);
    if (taken.refusal == 15) {
        lengthen_room(&l->t, 1 + below(j->from, NEARBY_MOST_PAGE));
        return take_line(j, l, line);
    }
    l->t.list = taken.list;
    return taken.refusal;
}

/* The list is the first so many, in its order, of the claims within reach that the table held at the count that the list names; once
 * started it is complete just when it has them all. One of another table never starts. */
static void compare_list(const journey *j, const drawn_list *l)
{
    const nearby_list *is = &l->t.list;
    uint64_t all[LARGEST_CAPACITY * NEARBY_ITEM];
    count_in(l->order, COMPARISONS, 1);
    if (is->order != l->order || is->snapshot > j->handed_over.table.count || (is->started && !l->ours)) {
        count_event(DIFFERENCES, 1);
        return;
    }
    size_t within = model_listed(&j->handed_over, l->order, l->probe, l->reach, is->snapshot, all);
    bool first = is->count <= within && memcmp(all, l->t.items.at, is->count * NEARBY_ITEM * sizeof(uint64_t)) == 0;
    count_event(DIFFERENCES, !first);
    if (first && is->complete)
        count_event(MISSED, within - is->count);
    if (first && is->started && !is->complete)
        count_event(OVERDUE, is->count == within);
}

/* ---- One step ---- */

/* A list writes its present ask, for a page of any size from 0 to 17; a complete one mostly makes place for a new list. */
static void ask_some(journey *j, drawn_list *l)
{
    uint8_t out[NEARBY_ASK_LINE];
    if (l->t.list.complete && !one_in(j->from, 4)) {
        drawn_list fresh = open_some(j, one_in(j->from, 3) ? &j->lists[below(j->from, TABLETS)] : NULL);
        close_list(l);
        *l = fresh;
        return;
    }
    size_t size = below(j->from, NEARBY_MOST_PAGE + 2);
    nearby_written ask = write_ask(l, size, (output){ out, sizeof out });
    CHECK(ask.refusal == (l->t.list.complete ? 16 : size < 1 || size > NEARBY_MOST_PAGE ? 6 : 0));
    if (ask.refusal == 0)
        send_line(j->from, j->link, out, ask.length);
}

/* A damaged line is seen to be damaged, and where it does not belong a line is of the wrong kind. Otherwise an ask may be of another
 * table, and an answer may be late, repeated or another list's. */
static bool may_be_given(uint8_t refusal, const heard_line *heard, bool wrong_kind)
{
    if (heard->damage != 0 || wrong_kind)
        return refusal == (heard->damage != 0 ? heard->damage : 10);
    return refusal == 0 || (heard->is_ask ? refusal == 11 : refusal == 13 || refusal == 16);
}

/* The office answers an ask in its order. */
static void arrive_at_office(journey *j, const heard_line *heard)
{
    uint8_t out[NEARBY_ANSWER_LINE];
    nearby_written answer = answer_line(j, (text){ heard->characters, heard->length }, (output){ out, sizeof out });
    CHECK(may_be_given(answer.refusal, heard, !heard->is_ask));
    if (answer.refusal == 0) {
        CHECK(out[1] == (heard->order == NEARBY_NEAR ? '2' : '5'));
        send_line(j->from, j->link, out, answer.length);
    }
}

/* A list refuses an answer of the other order as a line of the wrong kind. */
static void arrive_at_list(journey *j, const heard_line *heard, drawn_list *l)
{
    bool other_order = heard->order != l->order;
    uint8_t refusal = take_line(j, l, (text){ heard->characters, heard->length });
    CHECK(may_be_given(refusal, heard, heard->is_ask || other_order));
    count_in(l->order, OF_THE_OTHER_ORDER, other_order && !heard->is_ask && heard->damage == 0);
}

/* Mostly an ask arrives at the office, and an answer at any of the tablets; some lines go astray. */
static void arrive(journey *j)
{
    if (j->link->count == 0)
        return;
    heard_line heard = hear_line(j->from, j->link);
    bool astray = one_in(j->from, 8);
    if (heard.is_ask != astray)
        arrive_at_office(j, &heard);
    else
        arrive_at_list(j, &heard, &j->lists[below(j->from, TABLETS)]);
}

static void step(journey *j)
{
    switch (below(j->from, 14)) {
    case 0: enter_some(j); break;
    case 1: lose_line(j->from, j->link); break;
    case 2:
    case 3:
    case 4: ask_some(j, &j->lists[below(j->from, TABLETS)]); break;
    default: arrive(j); break;
    }
    for (size_t i = 0; i < TABLETS; i++)
        compare_list(j, &j->lists[i]);
}

/* ---- A journey ---- */

/* One page more over a link that loses nothing; whether there may be another. */
static bool goes_on(journey *j, drawn_list *l)
{
    uint8_t ask[NEARBY_ASK_LINE], out[NEARBY_ANSWER_LINE];
    nearby_written asked = write_ask(l, 1 + below(j->from, NEARBY_MOST_PAGE), (output){ ask, sizeof ask });
    nearby_written answer = answer_line(j, (text){ ask, asked.length }, (output){ out, sizeof out });
    CHECK(asked.refusal == 0 && answer.refusal == (l->ours ? 0 : 11));
    bool taken = answer.refusal == 0 && take_line(j, l, (text){ out, answer.length }) == 0;
    compare_list(j, l);
    return taken && !l->t.list.complete;
}

/* Each page has a claim, but for the only page of a list that has none. So there are no more pages than claims, and at least one: a
 * list of the office's table is complete then. */
static void drive_to_the_end(journey *j, drawn_list *l)
{
    size_t claims = j->office.table.count, most = claims > 0 ? claims : 1;
    bool on = !l->t.list.complete;
    for (size_t pages = 0; on && pages < most; pages++)
        on = goes_on(j, l);
    count_event(DIFFERENCES, l->ours != (l->t.list.complete == 1));
    close_list(l);
}

/* Every measure with every d, and a table that begins empty or with some claims. */
static journey begin(seeded *from, wire *link, size_t number)
{
    uint8_t measure = (uint8_t)(1 + number % 3);
    size_t d = 1 + number / 3 % NEARBY_MOST_COORDINATES, capacity = 1 + below(from, LARGEST_CAPACITY);
    journey j = { .from = from, .how = (style)(number / (3 * NEARBY_MOST_COORDINATES) % STYLES), .link = link };
    count_event(JOURNEYS, 1);
    count_event(CARRIED_OVER, link->count);
    j.office = full_store(from, measure, d, capacity, 0, j.how);
    j.handed_over = lend_store(from, d, capacity, 0);
    j.handed_over.table = j.office.table;
    for (size_t runs = below(from, 6); runs > 0; runs--)
        enter_some(&j);
    for (size_t i = 0; i < TABLETS; i++)
        j.lists[i] = open_some(&j, i > 0 && one_in(from, 3) ? &j.lists[0] : NULL);
    return j;
}

static void travel(seeded *from, wire *link, size_t number)
{
    journey j = begin(from, link, number);
    for (int i = 0; i < STEPS; i++)
        step(&j);
    for (size_t i = 0; i < TABLETS; i++)
        drive_to_the_end(&j, &j.lists[i]);
    free_store(&j.office);
    free_store(&j.handed_over);
}

static void journeys(void)
{
    seeded from = seed(91);
    wire link = { .count = 0 };
    for (size_t number = 0; number < ROUNDS; number++)
        travel(&from, &link, number);
    count_event(LOST, link.lost);
    count_event(REPEATED, link.repeated);
    count_event(OVERTAKEN, link.overtaken);
    count_event(DAMAGED, link.damaged);
    check_counts();
}

void journey_tests(void)
{
    run_test("journeys: lists over a lossy link beside a sort", journeys);
}
