/*
 * Generated lines before all three readers: every field at the ends of its range, within and beyond it, and then damage. What a
 * reader accepts, its writer has to write again as the very same line.
 */
#include "line_fields.h"
#include "tests.h"

#include <string.h>

/* How many lines, and how many at least there have to be of each sort: the storm shall not run empty. */
enum { LINES = 400000, LEAST = 20000 };

/* ---- Fields: how many digits, and the range ---- */

typedef struct {
    unsigned digits;
    uint64_t low, high;
} field;

static const field four_bytes = { 8, 0, UINT32_MAX }, eight_bytes = { 16, 0, UINT64_MAX };
static const field measure = { 2, 1, 3 }, snapshot = { 4, 0, 4096 }, number = { 4, 0, 4095 }, size = { 2, 1, 16 };
/* `from` and `last`. */
static const field flag = { 2, 0, 1 };

/* Any number of the range, small ones as often as large ones. */
static uint64_t within(seeded *from, field f)
{
    uint64_t any = next_number(from) >> below(from, 64);
    return f.high - f.low == UINT64_MAX ? any : f.low + any % (f.high - f.low + 1);
}

/* The ends of the range, one beyond either, or mostly any number within. What is too large for the digits loses its front. */
static uint64_t about(seeded *from, field f)
{
    switch (below(from, 64)) {
    case 0: return f.low;
    case 1: return f.high;
    case 2: return f.low - 1;
    case 3: return f.high + 1;
    default: return within(from, f);
    }
}

/* ---- Lines ---- */

/* Enough for the longest line with one coordinate, one item and two characters more. */
enum { NODE = 640 };

typedef struct {
    uint8_t at[NODE];
    size_t length;
} sheet;

static void put_character(sheet *s, uint8_t c)
{
    s->at[s->length++] = c;
}

static void put(sheet *s, unsigned digits, uint64_t value)
{
    for (unsigned i = digits; i-- > 0;)
        put_character(s, (uint8_t)"0123456789abcdef"[value >> 4 * i & 15]);
}

static void put_about(seeded *from, sheet *s, field f)
{
    put(s, f.digits, about(from, f));
}

/* With `from` 0 the mark is 0, and an ask's snapshot too; now and then that rule is broken. */
static void put_scope(seeded *from, sheet *s, bool ask)
{
    const field behind[] = { snapshot, eight_bytes, number };
    uint64_t start = about(from, flag);
    put_about(from, s, eight_bytes);
    put(s, flag.digits, start);
    for (size_t i = 0; i < LENGTH(behind); i++) {
        bool zero = start == 0 && (ask || i > 0) && !one_in(from, 32);
        put(s, behind[i].digits, zero ? 0 : about(from, behind[i]));
    }
}

static void put_page(seeded *from, sheet *s)
{
    uint64_t count = below(from, NEARBY_MOST_PAGE + 2);
    put_about(from, s, flag);
    put(s, 2, count);
    for (uint64_t i = 0; i < count; i++) {
        put_about(from, s, number);
        put_about(from, s, four_bytes);
        put_about(from, s, eight_bytes);
    }
}

/* The fields of one of the five kinds, now and then under another number or with d 0 or 9, and the 0A. */
static void put_line(seeded *from, sheet *s)
{
    uint64_t kind = 1 + below(from, 5), d = one_in(from, 16) ? 9 * below(from, 2) : 1 + below(from, 8);
    bool ask = kind == 1 || kind == 4, answer = kind == 2 || kind == 5;
    s->length = 0;
    put(s, 2, one_in(from, 16) ? below(from, 8) : kind);
    put_about(from, s, four_bytes);
    put_about(from, s, measure);
    put(s, 2, d);
    if (kind == 3)
        put_about(from, s, four_bytes);
    for (uint64_t i = 0; i < d; i++)
        put_about(from, s, four_bytes);
    if (kind != 3)
        put_scope(from, s, ask);
    if (ask)
        put_about(from, s, size);
    if (answer)
        put_page(from, s);
    put_character(s, '\n');
}

/* ---- Damage ---- */

/* Zeros in place of the 0A, at least one and up to so many digits, and the 0A behind them. */
static void stretch(sheet *s, size_t digits)
{
    s->length--;
    do
        put_character(s, '0');
    while (s->length < digits);
    put_character(s, '\n');
}

/* One of eight damages, or none: half of the lines are left whole. */
static void damage(seeded *from, sheet *s)
{
    uint8_t *struck = &s->at[below(from, s->length)];
    switch (below(from, 16)) {
    case 0: s->length--; break;
    case 1: s->length -= 2; put_character(s, '\n'); break;
    case 2: put_character(s, '\n'); break;
    case 3: put_character(s, '0'); put_character(s, '\n'); break;
    case 4: *struck = (uint8_t)next_number(from); break;
    case 5: *struck = (uint8_t)"0123456789abcdef"[below(from, 16)]; break;
    case 6: *struck = (uint8_t)"ABCDEF"[below(from, 6)]; break;
    case 7: stretch(s, NEARBY_ANSWER_LINE - 3 + below(from, 6)); break;
    default: break;
    }
}

/* ---- The storm ---- */

/* Asks and answers by their order. */
typedef struct {
    size_t no_line, no_kind, asks[2], answers[2], claims;
} tally;

/* A line is no line for every reader, or it is of one kind at most. */
static void read_and_write_again(text line, tally *t)
{
    uint8_t out[DOTS];
    nearby_ask_read ask = try_read_ask(line);
    nearby_answer_read answer = try_read_answer(line);
    nearby_claim_read claim = try_read_claim(line);
    if (ask.refusal == 9) {
        t->no_line++;
        CHECK(answer.refusal == 9 && claim.refusal == 9);
    } else if (ask.refusal == 0) {
        t->asks[ask.ask.order != NEARBY_NEAR]++;
        CHECK(answer.refusal == 10 && claim.refusal == 10);
        CHECK(wrote(out, write_ask_fields(ask.ask, dotted(out, NEARBY_ASK_LINE)), line));
    } else if (answer.refusal == 0) {
        t->answers[answer.answer.order != NEARBY_NEAR]++;
        CHECK(ask.refusal == 10 && claim.refusal == 10);
        CHECK(wrote(out, write_answer_fields(answer.answer, dotted(out, NEARBY_ANSWER_LINE)), line));
    } else if (claim.refusal == 0) {
        t->claims++;
        CHECK(ask.refusal == 10 && answer.refusal == 10);
        CHECK(wrote(out, write_claim_fields(claim.claim, dotted(out, NEARBY_CLAIM_LINE)), line));
    } else {
        t->no_kind++;
        CHECK(ask.refusal == 10 && answer.refusal == 10 && claim.refusal == 10);
    }
}

static void storm(void)
{
    seeded from = seed(28);
    uint8_t *end = (uint8_t *)brink(NODE) + NODE;
    sheet s;
    tally t = { 0 };
    for (size_t i = 0; i < LINES; i++) {
        put_line(&from, &s);
        damage(&from, &s);
        memcpy(end - s.length, s.at, s.length);
        read_and_write_again((text){ end - s.length, s.length }, &t);
    }
    brink_free(end - NODE, NODE);
    CHECK(t.no_line >= LEAST && t.no_kind >= LEAST && t.claims >= LEAST);
    CHECK(t.asks[NEARBY_NEAR] >= LEAST && t.answers[NEARBY_NEAR] >= LEAST);
    CHECK(t.asks[NEARBY_FAR] >= LEAST && t.answers[NEARBY_FAR] >= LEAST);
}

void line_storm_tests(void)
{
    run_test("line storm: generated lines before all readers", storm);
}
