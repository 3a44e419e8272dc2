/* The bare writers and readers: what is written reads back, and what is damaged is told apart as the rules say. */
#include "stores.h"
#include "tests.h"

#include <string.h>

/* The fields of asks, answers and claims at once; each writer takes what is its own. */
typedef struct {
    uint32_t table, reference;
    uint8_t order, measure, d, size, last, count;
    int32_t probe[10];
    size_t probe_length, items_length;
    nearby_scope scope;
    uint64_t items[60];
} fields;

static fields any_fields(seeded *from)
{
    fields f = { .table = (uint32_t)next_number(from), .reference = (uint32_t)next_number(from), .order = any_order(from) };
    f.measure = (uint8_t)(1 + below(from, 3));
    f.d = (uint8_t)(1 + below(from, 8));
    f.size = (uint8_t)(1 + below(from, 16));
    f.last = (uint8_t)below(from, 2);
    f.count = (uint8_t)below(from, 17);
    f.probe_length = f.d;
    f.items_length = (size_t)f.count * NEARBY_ITEM;
    put_coordinates(from, one_in(from, 2) ? ANYWHERE : AT_THE_ENDS, f.probe, 10);
    f.scope.reach = next_number(from) >> below(from, 64);
    if (one_in(from, 2))
        f.scope = (nearby_scope){ f.scope.reach, 1, (uint16_t)below(from, 4097), next_number(from), (uint16_t)below(from, 4096) };
    for (size_t i = 0; i < 60; i++)
        f.items[i] = i % 3 == 0 ? below(from, 4096) : i % 3 == 1 ? next_number(from) & 0xffffffff : next_number(from);
    return f;
}

static points probe_of(const fields *f) { return (points){ f->probe, f->probe_length }; }

static nearby_written write_ask_of(const fields *f, output out)
{
    return try_ask_line(f->order, f->table, f->measure, f->d, probe_of(f), f->scope, f->size, out);
}

static nearby_written write_answer_of(fields *f, output out)
{
    return try_answer_line(f->order, f->table, f->measure, f->d, probe_of(f), f->scope, f->last, f->count,
                           (room){ f->items, f->items_length }, out);
}

static nearby_written write_claim_of(const fields *f, output out)
{
    return try_claim_line(f->table, f->measure, f->d, f->reference, probe_of(f), out);
}

static void read_all(text line)
{
    try_read_ask(line);
    try_read_answer(line);
    try_read_claim(line);
}

/* Whether a line begins with the digits of a kind. */
static bool of_kind(const uint8_t *line, const char *kind)
{
    return memcmp(line, kind, 2) == 0;
}

static void written_lines_read_back(void)
{
    seeded from = seed(21);
    uint8_t out[NEARBY_ANSWER_LINE + 5];
    for (int round = 0; round < 20000; round++) {
        fields f = any_fields(&from);
        bool far = f.order != NEARBY_NEAR;
        memset(out, 0xa5, sizeof out);
        size_t length = write_ask_of(&f, (output){ out, sizeof out }).length;
        nearby_ask_read ask = try_read_ask((text){ out, length });
        CHECK(length == 59 + 8u * f.d && of_kind(out, far ? "04" : "01") && ask.refusal == 0 && ask.ask.order == far);
        CHECK(try_read_answer((text){ out, length }).refusal == 10 && try_read_claim((text){ out, length }).refusal == 10);
        length = write_answer_of(&f, (output){ out, sizeof out }).length;
        nearby_answer_read answer = try_read_answer((text){ out, length });
        CHECK(length == 61 + 8u * f.d + 28u * f.count && of_kind(out, far ? "05" : "02"));
        CHECK(answer.refusal == 0 && answer.answer.order == far);
        CHECK(try_read_ask((text){ out, length }).refusal == 10 && try_read_claim((text){ out, length }).refusal == 10);
        length = write_claim_of(&f, (output){ out, sizeof out }).length;
        CHECK(length == 23 + 8u * f.d && of_kind(out, "03") && try_read_claim((text){ out, length }).refusal == 0);
        CHECK(try_read_ask((text){ out, length }).refusal == 10 && try_read_answer((text){ out, length }).refusal == 10);
    }
}

/* One field out of its range or against its zero rule. */
static void damage_field(seeded *from, fields *f)
{
    const uint8_t edges[] = { 0, 1, 2, 3, 4, 8, 9, 16, 17, 255 };
    uint8_t edge = edges[below(from, LENGTH(edges))];
    switch (below(from, 13)) {
    case 0: f->measure = edge; break;
    case 1: f->d = edge; break;
    case 2: f->size = edge; break;
    case 3: f->last = edge; break;
    case 4: f->count = edge; break;
    case 5: f->probe_length = below(from, 11); break;
    case 6: f->items_length = below(from, 61); break;
    case 7: f->scope.from = edge; break;
    case 8: f->scope.snapshot = (uint16_t)(one_in(from, 2) ? 4096 + below(from, 2) : next_number(from)); break;
    case 9: f->scope.number = (uint16_t)(one_in(from, 2) ? 4095 + below(from, 2) : next_number(from)); break;
    case 10: f->scope.distance = below(from, 2); break;
    case 11: f->items[3 * below(from, 20)] = one_in(from, 2) ? 4096 : next_number(from); break;
    default: f->items[3 * below(from, 20) + 1] = one_in(from, 2) ? 4294967296u : next_number(from); break;
    }
}

/* Every other time in a room of any length: 10 comes before 12. */
static void writers_with_fields_amiss(void)
{
    seeded from = seed(22);
    uint8_t out[NEARBY_ANSWER_LINE];
    memset(out, 0xa5, sizeof out);
    for (int round = 0; round < 40000; round++) {
        fields f = any_fields(&from);
        for (size_t i = 0; i <= below(&from, 2); i++)
            damage_field(&from, &f);
        output any_room = { out, one_in(&from, 2) ? below(&from, sizeof out) : sizeof out };
        write_ask_of(&f, any_room);
        write_answer_of(&f, any_room);
        write_claim_of(&f, any_room);
    }
}

static void rooms_of_every_length(void)
{
    seeded from = seed(23);
    for (size_t length = 0; length <= NEARBY_ANSWER_LINE + 2; length++) {
        uint8_t *out = brink(length);
        fields f = any_fields(&from);
        CHECK((write_ask_of(&f, (output){ out, length }).refusal == 12) == (length < NEARBY_ASK_LINE));
        CHECK((write_answer_of(&f, (output){ out, length }).refusal == 12) == (length < NEARBY_ANSWER_LINE));
        CHECK((write_claim_of(&f, (output){ out, length }).refusal == 12) == (length < NEARBY_CLAIM_LINE));
        f.measure = 0;
        CHECK(write_ask_of(&f, (output){ out, length }).refusal == 10);
        CHECK(write_answer_of(&f, (output){ out, length }).refusal == 10);
        CHECK(write_claim_of(&f, (output){ out, length }).refusal == 10);
        brink_free(out, length);
    }
}

/* Every place of a line with every one of the 256 characters. */
static void damage_every_digit(const uint8_t *whole, size_t length)
{
    uint8_t *line = brink(length);
    memcpy(line, whole, length);
    for (size_t i = 0; i < length; i++) {
        for (unsigned c = 0; c < 256; c++) {
            line[i] = (uint8_t)c;
            read_all((text){ line, length });
        }
        line[i] = whole[i];
    }
    brink_free(line, length);
}

static void lines_with_a_digit_changed(void)
{
    seeded from = seed(24);
    uint8_t out[NEARBY_ANSWER_LINE];
    for (uint8_t d = 1; d <= 8; d++) {
        fields f = any_fields(&from);
        f.order = d % 2 == 0 ? NEARBY_NEAR : NEARBY_FAR;
        f.d = d;
        f.probe_length = d;
        f.count = (uint8_t)(2 * d);
        f.items_length = 6u * d;
        damage_every_digit(out, write_ask_of(&f, (output){ out, sizeof out }).length);
        damage_every_digit(out, write_answer_of(&f, (output){ out, sizeof out }).length);
        damage_every_digit(out, write_claim_of(&f, (output){ out, sizeof out }).length);
    }
}

/* Cut to every length, doubled, without its 0A, in upper case, and with one character more. */
static void reshape(const uint8_t *whole, size_t length)
{
    uint8_t line[2 * NEARBY_ANSWER_LINE + 1];
    for (size_t cut = 0; cut <= length; cut++) {
        read_all((text){ whole, cut });
        read_all((text){ whole + cut, length - cut });
        memcpy(line, whole, cut);
        line[cut] = '\n';
        read_all((text){ line, cut + 1 });
        memcpy(line + cut + 1, whole + cut, length - cut);
        line[cut] = '0';
        read_all((text){ line, length + 1 });
    }
    memcpy(line, whole, length);
    memcpy(line + length, whole, length);
    read_all((text){ line, 2 * length });
    memcpy(line + length - 1, whole, length);
    read_all((text){ line, 2 * length - 1 });
    for (size_t i = 0; i < length; i++)
        line[i] = whole[i] >= 'a' ? (uint8_t)(whole[i] - 'a' + 'A') : whole[i];
    read_all((text){ line, length });
}

static void lines_reshaped(void)
{
    seeded from = seed(25);
    uint8_t out[NEARBY_ANSWER_LINE];
    for (int round = 0; round < 60; round++) {
        fields f = any_fields(&from);
        reshape(out, write_ask_of(&f, (output){ out, sizeof out }).length);
        reshape(out, write_answer_of(&f, (output){ out, sizeof out }).length);
        reshape(out, write_claim_of(&f, (output){ out, sizeof out }).length);
    }
}

/* The kinds of line, and one that there is not. */
static const char *const heads[] = {
    "01000000070101", "02000000070203", "03000000070308", "04000000070101", "05000000070203", "06000000070101",
};

/* Any digits behind the head of a line of each kind, or any characters, of every length to just over the longest line. */
static void put_noise(seeded *from, uint8_t *line, size_t length, size_t kind)
{
    for (size_t i = 0; i < length; i++) {
        uint8_t any = (uint8_t)next_number(from);
        line[i] = kind == LENGTH(heads) ? any : (uint8_t)"0123456789abcdef"[any % 16];
    }
    if (kind < LENGTH(heads))
        memcpy(line, heads[kind], length < 14 ? length : 14);
    if (length > 0)
        line[length - 1] = '\n';
}

static void lines_of_noise(void)
{
    seeded from = seed(26);
    for (size_t length = 0; length <= NEARBY_ANSWER_LINE + 4; length++)
        for (size_t kind = 0; kind <= LENGTH(heads); kind++) {
            uint8_t *line = brink(length);
            put_noise(&from, line, length, kind);
            read_all((text){ line, length });
            brink_free(line, length);
        }
}

/* Each field of a frame at its edges, by writing the digits of a good line over. */
static void frames_at_the_edges(void)
{
    seeded from = seed(27);
    uint8_t out[NEARBY_ANSWER_LINE + 1];
    for (int round = 0; round < 4000; round++) {
        fields f = any_fields(&from);
        size_t length = round % 2 == 0 ? write_ask_of(&f, (output){ out, sizeof out }).length
                                       : write_answer_of(&f, (output){ out, sizeof out }).length;
        const char *edges[] = { "00", "01", "02", "03", "04", "05", "06", "08", "09", "10", "11", "0f", "1000", "1001", "0fff", "ffff" };
        const char *edge = edges[below(&from, LENGTH(edges))];
        size_t at = 2 * below(&from, (length - 5) / 2);
        memcpy(out + at, edge, strlen(edge));
        read_all((text){ out, length });
    }
}

void line_tests(void)
{
    run_test("lines: written lines read back", written_lines_read_back);
    run_test("lines: writers with fields amiss", writers_with_fields_amiss);
    run_test("lines: output rooms of every length", rooms_of_every_length);
    run_test("lines: every digit changed", lines_with_a_digit_changed);
    run_test("lines: cut, doubled, in upper case", lines_reshaped);
    run_test("lines: noise of every length", lines_of_noise);
    run_test("lines: fields at their edges", frames_at_the_edges);
}
