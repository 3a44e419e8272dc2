/* A buffer of ask lines, answered in one call, beside the single call and the model. */
#include "stores.h"
#include "tablets.h"
#include "tests.h"

#include <stdlib.h>
#include <string.h>

typedef struct {
    uint8_t *at;
    size_t length;
} asks;

/* Asks of both orders and of every kind of fate: good ones, wrong places, other tables, other kinds, damaged ones, empty lines. */
static size_t put_ask(seeded *from, const store *s, uint8_t *out)
{
    const nearby_table *t = &s->table;
    int32_t probe[8];
    uint64_t place[NEARBY_PLACE];
    put_coordinates(from, TIED, probe, 8);
    put_place(from, s, probe, place);
    nearby_scope scope = { any_reach(from, s, probe), place[1] != 0, (uint16_t)place[2], place[3], (uint16_t)place[4] };
    if (scope.from == 0)
        scope.snapshot = scope.distance = scope.number = 0;
    uint32_t number = t->number ^ one_in(from, 9);
    uint8_t line[NEARBY_ASK_LINE];
    size_t length = model_ask_line((uint8_t)place[0], number, t->measure, (uint8_t)t->d, (points){ probe, t->d }, scope,
                                   (uint8_t)(1 + below(from, 16)), (output){ line, sizeof line }).length;
    if (one_in(from, 8))
        line[below(from, length)] = (uint8_t)(one_in(from, 2) ? '\n' : 'g');
    if (one_in(from, 12))
        length = below(from, length + 1);
    memcpy(out, line, length);
    return length;
}

static asks any_asks(seeded *from, const store *s, size_t lines)
{
    uint8_t *all = malloc(lines * NEARBY_ASK_LINE + 1);
    size_t length = 0;
    for (size_t i = 0; i < lines; i++)
        length += put_ask(from, s, all + length);
    asks a = { brink(length), length };
    memcpy(a.at, all, length);
    free(all);
    return a;
}

/* Calls again with what was not used, as a server does, until nothing is left. */
static void serve(seeded *from, const store *s, asks a)
{
    size_t used = 0;
    for (int turn = 0; turn < 1000 && used < a.length; turn++) {
        room outcomes = noisy_room(from, 2 + below(from, 20));
        size_t length = NEARBY_ANSWER_LINE + below(from, 4 * NEARBY_ANSWER_LINE);
        uint8_t *out = brink(length);
        nearby_answered done = try_many_answers(s, (text){ a.at + used, a.length - used }, outcomes, (output){ out, length });
        CHECK(done.refusal == 0 && done.used > 0);
        used += done.used;
        free_room(outcomes);
        brink_free(out, length);
    }
    CHECK(used == a.length);
}

static void served_to_the_last(void)
{
    seeded from = seed(45);
    for (int round = 0; round < 150; round++) {
        size_t n = below(&from, 50);
        store s = full_store(&from, (uint8_t)(1 + round % 3), 1 + below(&from, 8), n + 1, n, TIED);
        asks a = any_asks(&from, &s, below(&from, 40));
        serve(&from, &s, a);
        brink_free(a.at, a.length);
        free_store(&s);
    }
}

/* The i-th outcome is what the single call gives for the i-th line. */
static void equal_to_single_answers(void)
{
    seeded from = seed(46);
    store s = full_store(&from, 1, 2, 300, 300, TIED);
    asks a = any_asks(&from, &s, 100);
    room outcomes = noisy_room(&from, 400);
    size_t length = 200 * NEARBY_ANSWER_LINE, at = 0, read = 0;
    uint8_t *out = brink(length), one[NEARBY_ANSWER_LINE];
    nearby_answered done = try_many_answers(&s, (text){ a.at, a.length }, outcomes, (output){ out, length });
    CHECK(done.used == a.length);
    for (size_t i = 0; i < done.lines; i++) {
        const uint8_t *end = memchr(a.at + at, '\n', a.length - at);
        size_t line = end == NULL ? a.length - at : (size_t)(end - (a.at + at)) + 1;
        nearby_written wrote = try_answer(&s, (text){ a.at + at, line }, (output){ one, sizeof one });
        CHECK(outcomes.at[2 * i] == wrote.refusal && outcomes.at[2 * i + 1] == wrote.length);
        CHECK(memcmp(out + read, one, wrote.length) == 0);
        at += line;
        read += wrote.length;
    }
    CHECK(at == a.length && read == done.written);
    free_room(outcomes);
    brink_free(out, length);
    brink_free(a.at, a.length);
    free_store(&s);
}

/* The examples' first pages of 2 in both orders and a claim line, in one buffer: lines worked by hand. */
static void answers_of_both_orders(void)
{
    seeded from = seed(39);
    store s = marked_store(&from, 8);
    const char *asked = "010000000701010000000400000000000000050000000000000000000000000002\n"
                        "030000000701010000006a00000004\n"
                        "040000000701010000000400000000000000050000000000000000000000000002\n";
    const char *answered = "02000000070101000000040000000000000005000005000000000000000000000002"
                           "00010000006600000000000000010004000000690000000000000001\n"
                           "05000000070101000000040000000000000005000005000000000000000000000002"
                           "00020000006700000000000000050000000000650000000000000002\n";
    const uint64_t told[] = { 0, 125, 10, 0, 0, 125 };
    uint64_t outcomes[6];
    uint8_t out[3 * NEARBY_ANSWER_LINE];
    nearby_answered done = try_many_answers(&s, (text){ (const uint8_t *)asked, strlen(asked) }, (room){ outcomes, 6 },
                                            (output){ out, sizeof out });
    CHECK(done.lines == 3 && memcmp(outcomes, told, sizeof told) == 0);
    CHECK(done.written == strlen(answered) && memcmp(out, answered, done.written) == 0);
    free_store(&s);
}

/* Rooms for outcomes and output of every small length. */
static void answers_in_small_rooms(void)
{
    seeded from = seed(47);
    store s = full_store(&from, 3, 2, 30, 30, TIED);
    asks a = any_asks(&from, &s, 12);
    const size_t lengths[] = { 0, 1, 572, 573, 574, 700, 1145, 1146, 1147, 4000 };
    for (size_t told = 0; told < 9; told++)
        for (size_t i = 0; i < LENGTH(lengths); i++) {
            room outcomes = noisy_room(&from, told);
            uint8_t *out = brink(lengths[i]);
            nearby_answered done = try_many_answers(&s, (text){ a.at, a.length }, outcomes, (output){ out, lengths[i] });
            CHECK(done.refusal == (lengths[i] < NEARBY_ANSWER_LINE ? 12 : 0) && done.lines <= told / 2);
            free_room(outcomes);
            brink_free(out, lengths[i]);
        }
    brink_free(a.at, a.length);
    free_store(&s);
}

/* A second line is answered where its longest answer has room behind the first answer, and not one character sooner. */
static void answers_to_the_last_character(void)
{
    seeded from = seed(49);
    store s = full_store(&from, 2, 3, 30, 30, TIED);
    const int32_t probe[] = { 0, 1, 2 };
    const nearby_scope scope = { .reach = UINT64_MAX };
    uint8_t twice[2 * NEARBY_ASK_LINE], one[NEARBY_ANSWER_LINE];
    for (uint8_t size = 1; size <= NEARBY_MOST_PAGE; size++) {
        uint8_t order = size % 2 == 0 ? NEARBY_NEAR : NEARBY_FAR;
        size_t length = try_ask_line(order, s.table.number, 2, 3, (points){ probe, 3 }, scope, size,
                                     (output){ twice, sizeof twice }).length;
        memcpy(twice + length, twice, length);
        size_t first = try_answer(&s, (text){ twice, length }, (output){ one, sizeof one }).length;
        for (size_t behind = NEARBY_ANSWER_LINE - 2; behind <= NEARBY_ANSWER_LINE + 1; behind++) {
            room outcomes = noisy_room(&from, 4);
            uint8_t *out = brink(first + behind);
            nearby_answered done = try_many_answers(&s, (text){ twice, 2 * length }, outcomes, (output){ out, first + behind });
            CHECK(done.lines == (behind < NEARBY_ANSWER_LINE ? 1 : 2) && done.used == done.lines * length);
            free_room(outcomes);
            brink_free(out, first + behind);
        }
    }
    free_store(&s);
}

void many_answer_tests(void)
{
    run_test("many answers: ask lines served to the last", served_to_the_last);
    run_test("many answers: equal to single calls", equal_to_single_answers);
    run_test("many answers: both orders", answers_of_both_orders);
    run_test("many answers: small rooms", answers_in_small_rooms);
    run_test("many answers: to the last character", answers_to_the_last_character);
}
