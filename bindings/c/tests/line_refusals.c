/*
 * What the bare writers and readers refuse, and of two faults at once the one that stands first in the call's order: 10 before 12,
 * 9 before 10. The numbers are those of the rules; neither the library nor the model had a part in them, and both have to give them.
 * 12 alone stands beside the good lines, in line_vectors.c.
 */
#include "line_fields.h"
#include "tests.h"

#include <string.h>

/* ---- Writers: one field amiss, or a length that does not go with it ---- */

/* Probes and coordinates are the first of these. */
static const int32_t nine[9] = { 4, 5, 6, 7, 8, 9, 10, 11, 12 };

typedef struct {
    uint8_t measure, d;
    size_t length;
} claim_row;

static const claim_row claims[] = {
    { 0, 1, 1 }, { 4, 1, 1 }, { 1, 0, 0 }, { 1, 9, 9 }, { 1, 2, 1 }, { 1, 1, 2 },
};

typedef struct {
    uint8_t measure, d;
    size_t length;
    nearby_scope scope;
    uint8_t size;
} ask_row;

static const ask_row asks[] = {
    { 0, 1, 1, { 5, 0, 0, 0, 0 }, 2 },
    { 4, 1, 1, { 5, 0, 0, 0, 0 }, 2 },
    { 1, 0, 0, { 5, 0, 0, 0, 0 }, 2 },
    { 1, 9, 9, { 5, 0, 0, 0, 0 }, 2 },
    { 1, 2, 1, { 5, 0, 0, 0, 0 }, 2 },
    { 1, 1, 2, { 5, 0, 0, 0, 0 }, 2 },
    { 1, 1, 1, { 5, 2, 0, 0, 0 }, 2 },
    { 1, 1, 1, { 5, 1, 4097, 0, 0 }, 2 },
    { 1, 1, 1, { 5, 1, 5, 0, 4096 }, 2 },
    { 1, 1, 1, { 5, 0, 1, 0, 0 }, 2 },
    { 1, 1, 1, { 5, 0, 5, 0, 0 }, 2 },
    { 1, 1, 1, { 5, 0, 0, 1, 0 }, 2 },
    { 1, 1, 1, { 5, 0, 0, 0, 1 }, 2 },
    { 1, 1, 1, { 5, 0, 0, 0, 0 }, 0 },
    { 1, 1, 1, { 5, 0, 0, 0, 0 }, 17 },
};

typedef struct {
    uint8_t measure, d;
    size_t length;
    nearby_scope scope;
    uint8_t last, count;
    size_t items_length;
    uint64_t items[51];
} answer_row;

static const answer_row answers[] = {
    { 0, 1, 1, { 5, 0, 5, 0, 0 }, 0, 0, 0, { 0 } },
    { 4, 1, 1, { 5, 0, 5, 0, 0 }, 0, 0, 0, { 0 } },
    { 1, 0, 0, { 5, 0, 5, 0, 0 }, 0, 0, 0, { 0 } },
    { 1, 9, 9, { 5, 0, 5, 0, 0 }, 0, 0, 0, { 0 } },
    { 1, 2, 1, { 5, 0, 5, 0, 0 }, 0, 0, 0, { 0 } },
    { 1, 1, 2, { 5, 0, 5, 0, 0 }, 0, 0, 0, { 0 } },
    { 1, 1, 1, { 5, 2, 5, 0, 0 }, 0, 0, 0, { 0 } },
    { 1, 1, 1, { 5, 0, 4097, 0, 0 }, 0, 0, 0, { 0 } },
    { 1, 1, 1, { 5, 1, 5, 0, 4096 }, 0, 0, 0, { 0 } },
    { 1, 1, 1, { 5, 0, 5, 1, 0 }, 0, 0, 0, { 0 } },
    { 1, 1, 1, { 5, 0, 5, 0, 1 }, 0, 0, 0, { 0 } },
    { 1, 1, 1, { 5, 0, 5, 0, 0 }, 2, 0, 0, { 0 } },
    { 1, 1, 1, { 5, 0, 5, 0, 0 }, 2, 1, 3, { 1, 102, 1 } },
    { 1, 1, 1, { 5, 0, 5, 0, 0 }, 0, 1, 0, { 0 } },
    { 1, 1, 1, { 5, 0, 5, 0, 0 }, 0, 2, 3, { 1, 102, 1 } },
    { 1, 1, 1, { 5, 0, 5, 0, 0 }, 0, 1, 4, { 1, 102, 1, 4 } },
    { 1, 1, 1, { 5, 0, 5, 0, 0 }, 0, 1, 3, { 4096, 102, 1 } },
    { 1, 1, 1, { 5, 0, 5, 0, 0 }, 0, 1, 3, { 1, 4294967296, 1 } },
    { 1, 1, 1, { 5, 0, 5, 0, 0 }, 0, 17, 51, { 0 } },
};

static nearby_written write_claim_row(claim_row r, output out)
{
    return try_claim_line(7, r.measure, r.d, 101, (points){ nine, r.length }, out);
}

static nearby_written write_ask_row(uint8_t order, ask_row r, output out)
{
    return try_ask_line(order, 7, r.measure, r.d, (points){ nine, r.length }, r.scope, r.size, out);
}

static nearby_written write_answer_row(uint8_t order, answer_row r, output out)
{
    room items = { r.items, r.items_length };
    return try_answer_line(order, 7, r.measure, r.d, (points){ nine, r.length }, r.scope, r.last, r.count, items, out);
}

/* The rooms are too small by all and by one, and just large enough. */

static void claims_refused(void)
{
    const size_t rooms[] = { 0, NEARBY_CLAIM_LINE - 1, NEARBY_CLAIM_LINE };
    uint8_t out[DOTS];
    for (size_t i = 0; i < LENGTH(claims); i++)
        for (size_t k = 0; k < LENGTH(rooms); k++)
            CHECK(refused(out, write_claim_row(claims[i], dotted(out, rooms[k])), 10));
}

static void asks_refused(void)
{
    const size_t rooms[] = { 0, NEARBY_ASK_LINE - 1, NEARBY_ASK_LINE };
    uint8_t out[DOTS];
    for (size_t i = 0; i < LENGTH(asks); i++)
        for (size_t k = 0; k < LENGTH(rooms); k++) {
            CHECK(refused(out, write_ask_row(NEARBY_NEAR, asks[i], dotted(out, rooms[k])), 10));
            CHECK(refused(out, write_ask_row(NEARBY_FAR, asks[i], dotted(out, rooms[k])), 10));
        }
}

static void answers_refused(void)
{
    const size_t rooms[] = { 0, NEARBY_ANSWER_LINE - 1, NEARBY_ANSWER_LINE };
    uint8_t out[DOTS];
    for (size_t i = 0; i < LENGTH(answers); i++)
        for (size_t k = 0; k < LENGTH(rooms); k++) {
            CHECK(refused(out, write_answer_row(NEARBY_NEAR, answers[i], dotted(out, rooms[k])), 10));
            CHECK(refused(out, write_answer_row(NEARBY_FAR, answers[i], dotted(out, rooms[k])), 10));
        }
}

/* ---- Readers ---- */

static const call readers[] = { READ_ASK, READ_ANSWER, READ_CLAIM };

/* Whether a reader refuses with this number, beside zeros. */
static bool refuses(call reader, text line, uint8_t refusal)
{
    if (reader == READ_ASK) {
        nearby_ask_read read = try_read_ask(line);
        return read.refusal == refusal && same_ask(&read.ask, &(nearby_ask){ 0 });
    }
    if (reader == READ_ANSWER) {
        nearby_answer_read read = try_read_answer(line);
        return read.refusal == refusal && same_answer(&read.answer, &(nearby_answer_fields){ 0 });
    }
    nearby_claim_read read = try_read_claim(line);
    return read.refusal == refusal && same_claim(&read.claim, &(nearby_claim){ 0 });
}

/* No even run of digits with its 0A. */
static const char *const no_lines[] = {
    "",
    "\n",
    "030000000701010000006500000002",
    "010000000701010000000400000000000000050000000000000000000000000002",
    "0200000007010100000004000000000000000501000500000000000000010004000200000000006500000000000000020003000000680000000000000002",
    "040000000701010000000400000000000000050000000000000000000000000002",
    "0500000007010100000004000000000000000501000500000000000000020000000200030000006800000000000000020001000000660000000000000001",
    "04000000070101000000040000000000000005000000000000000000000000000A\n",
    "03000000070101000000650000000\n",
    "03000000070101000000650000000A\n",
    "03000000070101000000650000000g\n",
    "0300000007010100000065000000 2\n",
    "030000000701010000006500000002\n\n",
    "030000000701010000006500000002\r",
};

static void no_line_for_any_reader(void)
{
    for (size_t i = 0; i < LENGTH(no_lines); i++)
        for (size_t k = 0; k < LENGTH(readers); k++)
            CHECK(refuses(readers[k], text_of(no_lines[i]), 9));
}

typedef struct {
    call reader;
    const char *line;
} line_row;

static const line_row other_kinds[] = {
    { READ_ASK, "030000000701010000006500000002\n" },
    { READ_ASK, "030000000701010000006a00000004\n" },
    { READ_ANSWER, "030000000701010000006500000002\n" },
    { READ_CLAIM, "010000000701010000000400000000000000050000000000000000000000000002\n" },
    { READ_ANSWER, "010000000701010000000400000000000000050000000000000000000000000002\n" },
    { READ_ASK, "02000000070101000000040000000000000005000005000000000000000000000100\n" },
    { READ_CLAIM, "02000000070101000000040000000000000005010005000000000000000100040002"
                  "00000000006500000000000000020003000000680000000000000002\n" },
    { READ_ANSWER, "040000000701010000000400000000000000050000000000000000000000000002\n" },
    { READ_CLAIM, "040000000701010000000400000000000000050000000000000000000000000002\n" },
    { READ_ASK, "05000000070101000000040000000000000005000005000000000000000000000100\n" },
    { READ_CLAIM, "05000000070101000000040000000000000005010005000000000000000200000002"
                  "00030000006800000000000000020001000000660000000000000001\n" },
    /* the fields of one kind under the number of another, or of none */
    { READ_CLAIM, "00000000070101000000650000000a\n" },
    { READ_CLAIM, "04000000070101000000650000000a\n" },
    { READ_CLAIM, "05000000070101000000650000000a\n" },
    { READ_CLAIM, "06000000070101000000650000000a\n" },
    { READ_ASK, "000000000701010000000400000000000000050000000000000000000000000002\n" },
    { READ_ASK, "020000000701010000000400000000000000050000000000000000000000000002\n" },
    { READ_ASK, "030000000701010000000400000000000000050000000000000000000000000002\n" },
    { READ_ASK, "050000000701010000000400000000000000050000000000000000000000000002\n" },
    { READ_ASK, "060000000701010000000400000000000000050000000000000000000000000002\n" },
    { READ_ANSWER, "00000000070101000000040000000000000005000005000000000000000000000100\n" },
    { READ_ANSWER, "01000000070101000000040000000000000005000005000000000000000000000100\n" },
    { READ_ANSWER, "03000000070101000000040000000000000005000005000000000000000000000100\n" },
    { READ_ANSWER, "04000000070101000000040000000000000005000005000000000000000000000100\n" },
    { READ_ANSWER, "06000000070101000000040000000000000005000005000000000000000000000100\n" },
};

/* [8.10] A field that breaks 5.8 to 5.10, or a line that is too short or too long for its fields; asks and answers in near order. */
static const line_row fields_amiss[] = {
    { READ_CLAIM, "030000000700010000006500000002\n" },
    { READ_CLAIM, "030000000704010000006500000002\n" },
    { READ_CLAIM, "0300000007010000000065\n" },
    { READ_CLAIM, "03000000070102000000650000000200\n" },
    { READ_CLAIM, "0300000007010100000065000000\n" },
    { READ_CLAIM, "03000000070101000000650000000200\n" },
    { READ_ASK, "010000000701010000000400000000000000050000000000000000000000000000\n" },
    { READ_ASK, "010000000701010000000400000000000000050000000000000000000000000011\n" },
    { READ_ASK, "010000000701010000000400000000000000050000010000000000000000000002\n" },
    { READ_ASK, "010000000701010000000400000000000000050000000000000000000000000102\n" },
    { READ_ASK, "010000000701010000000400000000000000050110010000000000000000000002\n" },
    { READ_ASK, "010000000701010000000400000000000000050200000000000000000000000002\n" },
    { READ_ASK, "0100000007010100000004000000000000000500000000000000000000000000\n" },
    { READ_ASK, "01000000070101000000040000000000000005000000000000000000000000000200\n" },
    { READ_ANSWER, "02000000070101000000040000000000000005000005000000000000000000000200\n" },
    { READ_ANSWER, "02000000070101000000040000000000000005000005000000000000000000000001\n" },
    { READ_ANSWER, "0200000007010100000004000000000000000500000500000000000000000000010000\n" },
    { READ_ANSWER, "02000000070101000000040000000000000005000005000000000000000000000001100000000066000000000000000a\n" },
};

/* 10, and 9 for the same without its 0A. */
static void check_row(call reader, text line)
{
    CHECK(refuses(reader, line, 10));
    CHECK(refuses(reader, (text){ line.at, line.length - 1 }, 9));
}

static void lines_of_other_kinds(void)
{
    for (size_t i = 0; i < LENGTH(other_kinds); i++)
        check_row(other_kinds[i].reader, text_of(other_kinds[i].line));
}

/* The line in far order: its kind is 04 in place of 01, or 05 in place of 02. */
static void check_row_in_far_order(line_row r)
{
    uint8_t far[NEARBY_ANSWER_LINE];
    text near = text_of(r.line);
    memcpy(far, near.at, near.length);
    far[1] = r.reader == READ_ASK ? '4' : '5';
    check_row(r.reader, (text){ far, near.length });
}

static void lines_with_fields_amiss(void)
{
    for (size_t i = 0; i < LENGTH(fields_amiss); i++) {
        check_row(fields_amiss[i].reader, text_of(fields_amiss[i].line));
        if (fields_amiss[i].reader != READ_CLAIM)
            check_row_in_far_order(fields_amiss[i]);
    }
}

/* Zeros are of no kind: 10 up to the length of the longest line, and 9 beyond. */
static void lines_of_zeros(void)
{
    uint8_t line[NEARBY_ANSWER_LINE + 2];
    memset(line, '0', sizeof line);
    line[sizeof line - 1] = '\n';
    for (size_t k = 0; k < LENGTH(readers); k++) {
        CHECK(refuses(readers[k], (text){ line + 2, NEARBY_ANSWER_LINE }, 10));
        CHECK(refuses(readers[k], (text){ line, NEARBY_ANSWER_LINE + 2 }, 9));
    }
}

void line_refusal_tests(void)
{
    run_test("line refusals: claims not written", claims_refused);
    run_test("line refusals: asks not written", asks_refused);
    run_test("line refusals: answers not written", answers_refused);
    run_test("line refusals: no line for any reader", no_line_for_any_reader);
    run_test("line refusals: lines of other kinds", lines_of_other_kinds);
    run_test("line refusals: lines with fields amiss", lines_with_fields_amiss);
    run_test("line refusals: as long as the longest line, and longer", lines_of_zeros);
}
