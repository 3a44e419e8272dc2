#include "table_scene.h"

#include <stdio.h>
#include <string.h>

/* What each byte of an output room holds before the call. */
enum { HELD = 0xa5 };

static const int32_t fours[LONGEST_RUN + 1] = { 4, 4, 4, 4, 4, 4, 4 };

scene set_scene(seeded *from, uint8_t order)
{
    return (scene){
        .s = marked_store(from, 8),
        .given = { 106, 107, 108, 109, 110, 111 },
        .given_length = 1, .run_length = 1, .probe_length = 1, .probes_length = ASKED, .starts_length = NEARBY_PLACE * ASKED,
        .order = order, .start = { 1, 5, 1, 4 }, .reach = 5,
        .size = 2, .room_length = LARGE_SIZE * NEARBY_ITEM,
        .rows_length = 4 * ASKED, .outcomes_length = 3 * ASKED, .items_length = ASKED * LARGE_SIZE * NEARBY_ITEM,
        .asked_table = 7, .asked_measure = 1, .asked_d = 1, .line_end = "\n",
        .out_length = NEARBY_ANSWER_LINE, .answers_length = ASKED * NEARBY_ANSWER_LINE,
    };
}

void put_fault(scene *c, fault f)
{
    switch (f) {
    case NO_FAULT: break;
    case MEASURE_0: c->s.table.measure = 0; break;
    case CAPACITY_OVER_THE_MEMORY: c->s.table.capacity = 9; break;
    case NODE_NUMBER_CHANGED: c->s.nodes[3] = 7; break;
    case COUNT_OVER_CAPACITY: c->s.table.capacity = 4; break;
    case ALL_NODES_IN_USE: c->s.table.used = c->s.table.capacity; break;
    case COORDINATE_TOO_MANY: c->run_length++, c->probe_length++, c->probes_length++; break;
    case COORDINATE_MISSING: c->run_length--, c->probe_length--, c->probes_length--; break;
    case START_NUMBER_MISSING: c->starts_length--; break;
    case RUN_OVER_CAPACITY: c->given_length += 3, c->run_length += 3; break;
    case REFERENCE_OF_CLAIM_2: c->given[0] = 0x67; break;
    case REFERENCE_TWICE: c->given_length += 2, c->run_length += 2, c->given[2] = c->given[0]; break;
    case SIZE_0: c->size = 0; break;
    case SIZE_17: c->size = 17; break;
    case SNAPSHOT_4: c->start.snapshot = 4; break;
    case SNAPSHOT_6: c->start.snapshot = 6; break;
    case MARK_NUMBER_5: c->start.number = 5; break;
    case MARK_NUMBER_6: c->start.number = 6; break;
    case MARK_DISTANCE_WRONG: c->start.distance = 2; break;
    case MARK_OVER_REACH: c->reach = 0; break;
    case ROOM_SHORT: c->room_length = 2 * NEARBY_ITEM - 1, c->rows_length--, c->items_length = 2 * NEARBY_ITEM * ASKED - 1; break;
    case OUTCOMES_SHORT: c->outcomes_length--; break;
    case OUTPUT_SHORT: c->out_length = c->answers_length = NEARBY_ANSWER_LINE - 1; break;
    case NO_LINE_END: c->line_end = ""; break;
    case ODD_DIGITS: c->line_end = "0\n"; break;
    case A_CLAIM: c->kind = A_CLAIM_LINE; break;
    case AN_ANSWER: c->kind = AN_ANSWER_LINE; break;
    case TABLE_8: c->asked_table = 8; break;
    case MEASURE_2: c->asked_measure = 2; break;
    case D_2: c->asked_d = 2; break;
    }
}

static uint8_t call_page(scene *c, points probe)
{
    uint64_t items[LARGE_SIZE * NEARBY_ITEM];
    memset(items, HELD, sizeof items);
    return try_page(&c->s, c->order, probe, c->reach, c->start, c->size, (room){ items, c->room_length }).refusal;
}

/* The scene's line, digit by digit, since no writer writes what is refused. */
static size_t put_line(const scene *c, char *out)
{
    bool near = c->order == NEARBY_NEAR;
    if (c->kind == A_CLAIM_LINE)
        return (size_t)sprintf(out, "030000000701010000006a00000004%s", c->line_end);
    if (c->kind == AN_ANSWER_LINE)
        return (size_t)sprintf(out, "%s000000070101000000040000000000000005000005000000000000000000000100%s", near ? "02" : "05",
                               c->line_end);
    size_t length = (size_t)sprintf(out, "%s%08x%02x%02x", near ? "01" : "04", c->asked_table, c->asked_measure, c->asked_d);
    for (int i = 0; i < c->asked_d; i++)
        length += (size_t)sprintf(out + length, "%08x", (unsigned)fours[i]);
    length += (size_t)sprintf(out + length, "%016llx", (unsigned long long)c->reach);
    length += (size_t)sprintf(out + length, "%02x%04x", c->start.from, (unsigned)c->start.snapshot);
    length += (size_t)sprintf(out + length, "%016llx%04x", (unsigned long long)c->start.distance, (unsigned)c->start.number);
    return length + (size_t)sprintf(out + length, "%02x%s", (unsigned)c->size, c->line_end);
}

static uint8_t call_answer(scene *c)
{
    char line[NEARBY_ASK_LINE + 2];
    uint8_t out[NEARBY_ANSWER_LINE];
    size_t length = put_line(c, line);
    memset(out, HELD, sizeof out);
    return try_answer(&c->s, (text){ (uint8_t *)line, length }, (output){ out, c->out_length }).refusal;
}

static uint8_t call_many_nearest(scene *c, points probes)
{
    uint64_t reaches[ASKED] = { 5, 1, 0 }, rows[4 * ASKED];
    memset(rows, HELD, sizeof rows);
    return try_many_nearest(&c->s, probes, (room){ reaches, ASKED }, (room){ rows, c->rows_length });
}

static uint8_t call_many_farthest(scene *c, points probes)
{
    uint64_t rows[4 * ASKED];
    memset(rows, HELD, sizeof rows);
    return try_many_farthest(&c->s, probes, ASKED, (room){ rows, c->rows_length });
}

/* The places before and behind the scene's, near and far, have nothing wrong, and neither have their rows. */
static uint8_t call_many_pages(scene *c, points probes)
{
    const nearby_start *p = &c->start;
    uint64_t reaches[ASKED] = { 5, c->reach, 5 };
    uint64_t starts[NEARBY_PLACE * ASKED] = { NEARBY_NEAR, 0, 0, 0, 0, c->order, p->from, p->snapshot, p->distance, p->number,
                                              NEARBY_FAR, 1, 5, 2, 0 };
    uint64_t outcomes[3 * ASKED], items[ASKED * LARGE_SIZE * NEARBY_ITEM];
    memset(outcomes, HELD, sizeof outcomes);
    memset(items, HELD, sizeof items);
    uint8_t refusal = try_many_pages(&c->s, probes, (room){ reaches, ASKED }, (room){ starts, c->starts_length }, c->size,
                                     (room){ outcomes, c->outcomes_length }, (room){ items, c->items_length });
    if (refusal != 0)
        return refusal;
    CHECK(outcomes[0] == 0 && outcomes[6] == 0);
    return (uint8_t)outcomes[3];
}

/* Two asks with nothing wrong stand before the scene's, near and far; it is the last, as one without its 0A has to be. */
static uint8_t call_many_answers(scene *c)
{
    char asks[ASKED * (NEARBY_ASK_LINE + 2)];
    uint8_t out[ASKED * NEARBY_ANSWER_LINE];
    uint64_t outcomes[2 * ASKED];
    memset(out, HELD, sizeof out);
    memset(outcomes, HELD, sizeof outcomes);
    const char *near = "010000000701010000000400000000000000050000000000000000000000000002\n";
    const char *far = "040000000701010000000400000000000000050000000000000000000000000002\n";
    size_t length = (size_t)sprintf(asks, "%s%s", near, far);
    length += put_line(c, asks + length);
    nearby_answered done = try_many_answers(&c->s, (text){ (uint8_t *)asks, length }, (room){ outcomes, 2 * ASKED },
                                            (output){ out, c->answers_length });
    if (done.refusal != 0)
        return done.refusal;
    CHECK(done.lines == ASKED && outcomes[0] == 0 && outcomes[2] == 0);
    return (uint8_t)outcomes[4];
}

uint8_t call_scene(call which, scene *c)
{
    points run = { fours, c->run_length }, probe = { fours, c->probe_length }, probes = { fours, c->probes_length };
    switch (which) {
    case TEST: return try_test(&c->s);
    case ENTER: return try_enter(&c->s, c->given, c->given_length, run).refusal;
    case NEAREST: return try_nearest(&c->s, probe, c->reach).refusal;
    case FARTHEST: return try_farthest(&c->s, probe).refusal;
    case PAGE: return call_page(c, probe);
    case ANSWER: return call_answer(c);
    case MANY_NEAREST: return call_many_nearest(c, probes);
    case MANY_FARTHEST: return call_many_farthest(c, probes);
    case MANY_PAGES: return call_many_pages(c, probes);
    case MANY_ANSWERS: return call_many_answers(c);
    default: CHECK(!"a call on a table"); return 0;
    }
}
