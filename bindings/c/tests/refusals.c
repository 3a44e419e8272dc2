/* What the other tests reached: each refusal of each call, and no other. */
#include "orders.h"
#include "tests.h"

#include <stdio.h>
#include <string.h>

const uint8_t call_numbers[CALLS][MOST_NUMBERS] = {
    [MAKE] = { 1 },
    [TEST] = { 1, 2 },
    [ENTER] = { 1, 2, 5, 17, 3 },
    [NEAREST] = { 1, 2, 5 },
    [FARTHEST] = { 1, 2, 5 },
    [PAGE] = { 1, 2, 5, 6, 7, 8, 12 },
    [ANSWER] = { 12, 1, 2, 9, 10, 11, 7, 8 },
    [OPEN] = { 1, 5 },
    [WRITE_ASK] = { 2, 16, 6, 12 },
    [TAKE] = { 2, 9, 10, 16, 13, 14, 15 },
    [ASK_LINE] = { 10, 12 },
    [ANSWER_LINE] = { 10, 12 },
    [CLAIM_LINE] = { 10, 12 },
    [READ_ASK] = { 9, 10 },
    [READ_ANSWER] = { 9, 10 },
    [READ_CLAIM] = { 9, 10 },
    [MANY_NEAREST] = { 1, 2, 5, 12 },
    [MANY_FARTHEST] = { 1, 2, 5, 12 },
    [MANY_PAGES] = { 1, 2, 5, 6, 12 },
    [MANY_ANSWERS] = { 12, 1, 2 },
};

const uint8_t row_numbers[CALLS][MOST_NUMBERS] = {
    [MANY_PAGES] = { 7, 8 },
    [MANY_ANSWERS] = { 9, 10, 11, 7, 8 },
};

/* The header's refusals. */
#define ROW(number, meaning) { number, meaning },
static const struct {
    uint8_t number;
    const char *meaning;
} refusals[] = { NEARBY_REFUSALS(ROW) };

static bool is_refusal(unsigned number)
{
    for (size_t i = 0; i < LENGTH(refusals); i++)
        if (refusals[i].number == number)
            return true;
    return false;
}

static bool has(const uint8_t *numbers, int number)
{
    return memchr(numbers, number, MOST_NUMBERS) != NULL;
}

static void every_refusal_reached(void)
{
    for (call which = 0; which < CALLS; which++) {
        CHECK(times_given(which, 0) > 0);
        for (int number = 1; number <= UINT8_MAX; number++) {
            bool whole = (times_given(which, (uint8_t)number) > 0) == has(call_numbers[which], number);
            bool rows = (times_given_to_a_row(which, (uint8_t)number) > 0) == has(row_numbers[which], number);
            if (!CHECK(whole && rows))
                printf(" (call %d, refusal %d)", (int)which, number);
        }
    }
}

/* A call lists numbers of the header alone. */
static void every_listed_number_is_a_refusal(void)
{
    for (call which = 0; which < CALLS; which++)
        for (size_t i = 0; i < MOST_NUMBERS; i++) {
            CHECK(call_numbers[which][i] == 0 || is_refusal(call_numbers[which][i]));
            CHECK(row_numbers[which][i] == 0 || is_refusal(row_numbers[which][i]));
        }
}

/* Its row's, which no other has; and a number without a row is no refusal, whether it lies between two rows or behind all. */
static void every_refusal_has_a_meaning(void)
{
    const char *none = nearby_refusal_meaning(0), *no_such = nearby_refusal_meaning(255);
    CHECK(LENGTH(refusals) > 0 && strcmp(none, no_such) != 0);
    for (size_t i = 0; i < LENGTH(refusals); i++) {
        const char *meaning = nearby_refusal_meaning(refusals[i].number);
        CHECK(strcmp(meaning, refusals[i].meaning) == 0 && strcmp(meaning, none) != 0 && strcmp(meaning, no_such) != 0);
        for (size_t k = 0; k < i; k++)
            CHECK(refusals[k].number < refusals[i].number && strcmp(meaning, refusals[k].meaning) != 0);
    }
    for (unsigned number = 1; number <= UINT8_MAX; number++)
        CHECK(is_refusal(number) == (strcmp(nearby_refusal_meaning((uint8_t)number), no_such) != 0));
}

/* [8.4] Numbers that had a meaning once. None has one now, and in all the other tests no call gave one, of the whole or of a row. */
static void no_call_gives_a_retired_number(void)
{
    static const uint8_t retired[] = { 4 };
    const char *no_such = nearby_refusal_meaning(255);
    for (size_t i = 0; i < LENGTH(retired); i++) {
        CHECK(!is_refusal(retired[i]) && strcmp(nearby_refusal_meaning(retired[i]), no_such) == 0);
        for (call which = 0; which < CALLS; which++) {
            CHECK(!has(call_numbers[which], retired[i]) && !has(row_numbers[which], retired[i]));
            CHECK(times_given(which, retired[i]) == 0 && times_given_to_a_row(which, retired[i]) == 0);
        }
    }
}

void refusal_tests(void)
{
    run_test("refusals: every one of every call was reached, and no other", every_refusal_reached);
    run_test("refusals: the calls list no others", every_listed_number_is_a_refusal);
    run_test("refusals: every one has a meaning", every_refusal_has_a_meaning);
    run_test("refusals: no call gives a number that is retired", no_call_gives_a_retired_number);
}
