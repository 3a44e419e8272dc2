#include "line_calls.h"

#include "contestant.h"

#include <unistd.h>

enum { D = 2 };

static const int32_t probe[D] = { 1234567, -7654321 };
static uint8_t ask[NEARBY_ASK_LINE], answer[NEARBY_ANSWER_LINE], claim[NEARBY_CLAIM_LINE];
static size_t ask_length, answer_length, claim_length;
static nearby_list list;
static uint64_t room[ITEMS];

static size_t length_of(nearby_written written)
{
    if (written.refusal != 0)
        refused("writing a line", written.refusal);
    return written.length;
}

/* Items that rise and are in reach, so that a list takes them. */
static void make_items(uint64_t *items)
{
    for (uint64_t i = 0; i < NEARBY_MOST_PAGE; i++) {
        items[i * NEARBY_ITEM] = NEARBY_MOST_CLAIMS - 1 - i;
        items[i * NEARBY_ITEM + 1] = 2863311530u + i;
        items[i * NEARBY_ITEM + 2] = 1000003 * (i + 1);
    }
}

void write_lines(void)
{
    nearby_scope scope = { .reach = UINT64_MAX };
    uint64_t items[ITEMS];
    make_items(items);
    ask_length = length_of(nearby_write_ask_line(NEARBY_NEAR, TABLE_NUMBER, NEARBY_CITY_BLOCK, D, probe, D, scope, NEARBY_MOST_PAGE, ask, sizeof ask));
    scope.snapshot = NEARBY_MOST_CLAIMS;
    answer_length = length_of(nearby_write_answer_line(NEARBY_NEAR, TABLE_NUMBER, NEARBY_CITY_BLOCK, D, probe, D, scope, 0, NEARBY_MOST_PAGE,
                                                       items, ITEMS, answer, sizeof answer));
    claim_length = length_of(nearby_write_claim_line(TABLE_NUMBER, NEARBY_CITY_BLOCK, D, 2863311530u, probe, D, claim, sizeof claim));
    nearby_listed opened = nearby_open_list(NEARBY_NEAR, TABLE_NUMBER, NEARBY_CITY_BLOCK, D, probe, D, UINT64_MAX);
    if (opened.refusal != 0)
        refused("nearby_open_list", opened.refusal);
    list = opened.list;
}

static void must(int right)
{
    if (!right)
        _exit(2);
}

static void read_ask(void)
{
    must(nearby_read_ask_line(ask, ask_length).ask.size == NEARBY_MOST_PAGE);
}

static void read_answer(void)
{
    must(nearby_read_answer_line(answer, answer_length).answer.count == NEARBY_MOST_PAGE);
}

static void read_claim(void)
{
    must(nearby_read_claim_line(claim, claim_length).claim.d == D);
}

/* The list stays as it was opened, so that it takes the same page each time. */
static void take(void)
{
    must(nearby_take(list, room, ITEMS, answer, answer_length).list.count == NEARBY_MOST_PAGE);
}

const struct line_call line_calls[LINE_CALLS] = {
    { "nearby_read_ask_line", read_ask },
    { "nearby_read_answer_line", read_answer },
    { "nearby_read_claim_line", read_claim },
    { "nearby_take", take },
};
