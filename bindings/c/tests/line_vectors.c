/*
 * Lines beside their fields: the fields give the line, and the line gives the fields. The digits were worked out from the rules
 * alone; neither the library nor the model had a part in them, and both have to give them.
 */
#include "line_fields.h"
#include "tests.h"

static const struct {
    nearby_claim claim;
    const char *line;
} claims[] = {
    { { 7, 1, 1, 101, { 2 } }, "030000000701010000006500000002\n" },
    { { 7, 1, 1, 102, { 3 } }, "030000000701010000006600000003\n" },
    { { 7, 1, 1, 103, { 9 } }, "030000000701010000006700000009\n" },
    { { 7, 1, 1, 104, { 6 } }, "030000000701010000006800000006\n" },
    { { 7, 1, 1, 105, { 5 } }, "030000000701010000006900000005\n" },
    { { 7, 1, 1, 106, { 4 } }, "030000000701010000006a00000004\n" },
    { { 0, 2, 3, 0, { -1, INT32_MIN, INT32_MAX } }, "0300000000020300000000ffffffff800000007fffffff\n" },
    { { UINT32_MAX, 3, 8, UINT32_MAX, { -8, 7, -6, 5, -4, 3, -2, 1 } },
      "03ffffffff0308fffffffffffffff800000007fffffffa00000005fffffffc00000003fffffffe00000001\n" },
};

typedef struct {
    nearby_ask ask;
    const char *line;
} ask_vector;

static const ask_vector near_asks[] = {
    { { 7, NEARBY_NEAR, 1, 1, { 4 }, { 5, 0, 0, 0, 0 }, 2 },
      "010000000701010000000400000000000000050000000000000000000000000002\n" },
    { { 7, NEARBY_NEAR, 1, 1, { 4 }, { 5, 1, 5, 1, 4 }, 2 },
      "010000000701010000000400000000000000050100050000000000000001000402\n" },
    { { 7, NEARBY_NEAR, 1, 1, { 4 }, { 5, 1, 0, 0, 0 }, 1 },
      "010000000701010000000400000000000000050100000000000000000000000001\n" },
    { { UINT32_MAX, NEARBY_NEAR, 3, 8, { -1, 1, INT32_MIN, INT32_MAX, 0, -256, 256, 65535 },
        { UINT64_MAX, 1, 4096, UINT64_MAX, 4095 }, 16 },
      "01ffffffff0308ffffffff00000001800000007fffffff00000000ffffff00000001000000ffff"
      "ffffffffffffffff011000ffffffffffffffff0fff10\n" },
};

/* The three asks of the examples' list from its far end, in pages of 2, and others. */
static const ask_vector far_asks[] = {
    { { 7, NEARBY_FAR, 1, 1, { 4 }, { 5, 0, 0, 0, 0 }, 2 },
      "040000000701010000000400000000000000050000000000000000000000000002\n" },
    { { 7, NEARBY_FAR, 1, 1, { 4 }, { 5, 1, 5, 2, 0 }, 2 },
      "040000000701010000000400000000000000050100050000000000000002000002\n" },
    { { 7, NEARBY_FAR, 1, 1, { 4 }, { 5, 1, 5, 1, 1 }, 2 },
      "040000000701010000000400000000000000050100050000000000000001000102\n" },
    { { 9, NEARBY_FAR, 2, 2, { -4, 10 }, { 300, 1, 258, 255, 257 }, 11 },
      "04000000090202fffffffc0000000a000000000000012c01010200000000000000ff01010b\n" },
    { { UINT32_MAX, NEARBY_FAR, 3, 8, { 65535, 256, -256, 0, INT32_MAX, INT32_MIN, 1, -1 },
        { UINT64_MAX, 1, 4096, UINT64_MAX, 4095 }, 16 },
      "04ffffffff03080000ffff00000100ffffff00000000007fffffff8000000000000001ffffffff"
      "ffffffffffffffff011000ffffffffffffffff0fff10\n" },
};

typedef struct {
    nearby_answer_fields answer;
    const char *line;
} answer_vector;

/* The last is the longest: sixteen items at d = 8, the first of them at the ends of the ranges. */
static const answer_vector near_answers[] = {
    { { 7, NEARBY_NEAR, 1, 1, { 4 }, { 5, 0, 5, 0, 0 }, 0, 2, { 1, 102, 1, 4, 105, 1 } },
      "02000000070101000000040000000000000005000005000000000000000000000002"
      "00010000006600000000000000010004000000690000000000000001\n" },
    { { 7, NEARBY_NEAR, 1, 1, { 4 }, { 5, 1, 5, 1, 4 }, 0, 2, { 0, 101, 2, 3, 104, 2 } },
      "02000000070101000000040000000000000005010005000000000000000100040002"
      "00000000006500000000000000020003000000680000000000000002\n" },
    { { 7, NEARBY_NEAR, 1, 1, { 4 }, { 5, 1, 5, 2, 3 }, 1, 1, { 2, 103, 5 } },
      "020000000701010000000400000000000000050100050000000000000002000301010002000000670000000000000005\n" },
    { { 7, NEARBY_NEAR, 2, 2, { 4, -4 }, { 0, 0, 4096, 0, 0 }, 1, 0, { 0 } },
      "0200000007020200000004fffffffc0000000000000000001000000000000000000000000100\n" },
    { { 7, NEARBY_NEAR, 3, 8, { 1, 2, 3, 4, 5, 6, 7, 8 }, { UINT64_MAX, 1, 4096, 8, 4095 }, 0, 16,
        { 4095, UINT32_MAX, UINT64_MAX, 1,  2,  3,  4,  5,  6,  7,  8,  9,  10, 11, 12, 13, 14, 15, 16, 17, 18, 19, 20, 21,
          22,   23,         24,         25, 26, 27, 28, 29, 30, 31, 32, 33, 34, 35, 36, 37, 38, 39, 40, 41, 42, 43, 44, 45 } },
      "020000000703080000000100000002000000030000000400000005000000060000000700000008ffffffffffffffff01100000000000000000080fff0010"
      "0fffffffffffffffffffffffffff000100000002000000000000000300040000000500000000000000060007000000080000000000000009"
      "000a0000000b000000000000000c000d0000000e000000000000000f00100000001100000000000000120013000000140000000000000015"
      "001600000017000000000000001800190000001a000000000000001b001c0000001d000000000000001e001f000000200000000000000021"
      "00220000002300000000000000240025000000260000000000000027002800000029000000000000002a002b0000002c000000000000002d\n" },
};

/* The answers to the first three asks above, and others; the last is the longest. */
static const answer_vector far_answers[] = {
    { { 7, NEARBY_FAR, 1, 1, { 4 }, { 5, 0, 5, 0, 0 }, 0, 2, { 2, 103, 5, 0, 101, 2 } },
      "05000000070101000000040000000000000005000005000000000000000000000002"
      "00020000006700000000000000050000000000650000000000000002\n" },
    { { 7, NEARBY_FAR, 1, 1, { 4 }, { 5, 1, 5, 2, 0 }, 0, 2, { 3, 104, 2, 1, 102, 1 } },
      "05000000070101000000040000000000000005010005000000000000000200000002"
      "00030000006800000000000000020001000000660000000000000001\n" },
    { { 7, NEARBY_FAR, 1, 1, { 4 }, { 5, 1, 5, 1, 1 }, 1, 1, { 4, 105, 1 } },
      "050000000701010000000400000000000000050100050000000000000001000101010004000000690000000000000001\n" },
    { { 7, NEARBY_FAR, 2, 2, { -4, 4 }, { 0, 0, 4096, 0, 0 }, 1, 0, { 0 } },
      "05000000070202fffffffc000000040000000000000000001000000000000000000000000100\n" },
    { { 8, NEARBY_FAR, 3, 8, { 8, 7, 6, 5, 4, 3, 2, 1 }, { 8, 1, 4096, 8, 4094 }, 0, 16,
        { 4095, 0, 8, 0,  1,  7,  1,  1,  7,  2,  1,  7,  3,  1,  7,  4,  1,  7,  5,  1,  7,  6,  1,  7,
          7,    1, 7, 8,  1,  7,  9,  1,  7,  10, 1,  7,  11, 1,  7,  12, 1,  7,  13, 1,  7,  4095, UINT32_MAX, 0 } },
      "050000000803080000000800000007000000060000000500000004000000030000000200000001000000000000000801100000000000000000080ffe0010"
      "0fff00000000000000000000000800000000000100000000000000070001000000010000000000000007"
      "000200000001000000000000000700030000000100000000000000070004000000010000000000000007"
      "000500000001000000000000000700060000000100000000000000070007000000010000000000000007"
      "00080000000100000000000000070009000000010000000000000007000a000000010000000000000007"
      "000b000000010000000000000007000c000000010000000000000007000d000000010000000000000007"
      "0fffffffffff0000000000000000\n" },
};

static void claim_lines(void)
{
    uint8_t out[DOTS];
    for (size_t i = 0; i < LENGTH(claims); i++) {
        const nearby_claim claim = claims[i].claim;
        const text line = text_of(claims[i].line);
        CHECK(wrote(out, write_claim_fields(claim, dotted(out, NEARBY_CLAIM_LINE)), line));
        CHECK(wrote(out, write_claim_fields(claim, dotted(out, NEARBY_CLAIM_LINE + 3)), line));
        CHECK(refused(out, write_claim_fields(claim, dotted(out, NEARBY_CLAIM_LINE - 1)), 12));
        nearby_claim_read read = try_read_claim(line);
        CHECK(read.refusal == 0 && same_claim(&read.claim, &claim));
    }
}

static void check_ask(nearby_ask ask, text line)
{
    uint8_t out[DOTS];
    CHECK(wrote(out, write_ask_fields(ask, dotted(out, NEARBY_ASK_LINE)), line));
    CHECK(wrote(out, write_ask_fields(ask, dotted(out, NEARBY_ASK_LINE + 3)), line));
    CHECK(refused(out, write_ask_fields(ask, dotted(out, NEARBY_ASK_LINE - 1)), 12));
    nearby_ask_read read = try_read_ask(line);
    CHECK(read.refusal == 0 && same_ask(&read.ask, &ask));
}

static void ask_lines(void)
{
    for (size_t i = 0; i < LENGTH(near_asks); i++)
        check_ask(near_asks[i].ask, text_of(near_asks[i].line));
    for (size_t i = 0; i < LENGTH(far_asks); i++)
        check_ask(far_asks[i].ask, text_of(far_asks[i].line));
}

static void check_answer(nearby_answer_fields answer, text line)
{
    uint8_t out[DOTS];
    CHECK(wrote(out, write_answer_fields(answer, dotted(out, NEARBY_ANSWER_LINE)), line));
    CHECK(wrote(out, write_answer_fields(answer, dotted(out, NEARBY_ANSWER_LINE + 3)), line));
    CHECK(refused(out, write_answer_fields(answer, dotted(out, NEARBY_ANSWER_LINE - 1)), 12));
    nearby_answer_read read = try_read_answer(line);
    CHECK(read.refusal == 0 && same_answer(&read.answer, &answer));
}

static void answer_lines(void)
{
    for (size_t i = 0; i < LENGTH(near_answers); i++)
        check_answer(near_answers[i].answer, text_of(near_answers[i].line));
    for (size_t i = 0; i < LENGTH(far_answers); i++)
        check_answer(far_answers[i].answer, text_of(far_answers[i].line));
}

/* [9.19] An order of any number but 0 writes the line of far order. */
static void orders_as_any_flag(void)
{
    const uint8_t flags[] = { 1, 2, 4, 128, 255 };
    uint8_t out[DOTS];
    for (size_t i = 0; i < LENGTH(flags); i++) {
        nearby_ask ask = far_asks[0].ask;
        nearby_answer_fields answer = far_answers[0].answer;
        ask.order = answer.order = flags[i];
        CHECK(wrote(out, write_ask_fields(ask, dotted(out, NEARBY_ASK_LINE)), text_of(far_asks[0].line)));
        CHECK(wrote(out, write_answer_fields(answer, dotted(out, NEARBY_ANSWER_LINE)), text_of(far_answers[0].line)));
    }
}

/* Each kind's longest line stands last in its table, and is as long as nearby.h says. */
static void longest_lines(void)
{
    CHECK(text_of(claims[LENGTH(claims) - 1].line).length == NEARBY_CLAIM_LINE);
    CHECK(text_of(near_asks[LENGTH(near_asks) - 1].line).length == NEARBY_ASK_LINE);
    CHECK(text_of(far_asks[LENGTH(far_asks) - 1].line).length == NEARBY_ASK_LINE);
    CHECK(text_of(near_answers[LENGTH(near_answers) - 1].line).length == NEARBY_ANSWER_LINE);
    CHECK(text_of(far_answers[LENGTH(far_answers) - 1].line).length == NEARBY_ANSWER_LINE);
}

void line_vector_tests(void)
{
    run_test("line vectors: claims written and read", claim_lines);
    run_test("line vectors: asks written and read", ask_lines);
    run_test("line vectors: answers written and read", answer_lines);
    run_test("line vectors: orders as any flag", orders_as_any_flag);
    run_test("line vectors: the longest of each kind", longest_lines);
}
