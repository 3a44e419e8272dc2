#include "line_fields.h"

#include <string.h>

nearby_written write_ask_fields(nearby_ask ask, output out)
{
    return try_ask_line(ask.order, ask.table, ask.measure, ask.d, (points){ ask.probe, ask.d }, ask.scope, ask.size, out);
}

nearby_written write_answer_fields(nearby_answer_fields answer, output out)
{
    room items = { answer.items, (size_t)answer.count * NEARBY_ITEM };
    return try_answer_line(answer.order, answer.table, answer.measure, answer.d, (points){ answer.probe, answer.d }, answer.scope,
                           answer.last, answer.count, items, out);
}

nearby_written write_claim_fields(nearby_claim claim, output out)
{
    return try_claim_line(claim.table, claim.measure, claim.d, claim.reference, (points){ claim.coordinates, claim.d }, out);
}

/* Structs have padding, so each field is compared. */

static bool same_scope(nearby_scope a, nearby_scope b)
{
    return a.reach == b.reach && a.from == b.from && a.snapshot == b.snapshot && a.distance == b.distance && a.number == b.number;
}

bool same_ask(const nearby_ask *a, const nearby_ask *b)
{
    return a->table == b->table && a->order == b->order && a->measure == b->measure && a->d == b->d
        && memcmp(a->probe, b->probe, sizeof a->probe) == 0 && same_scope(a->scope, b->scope) && a->size == b->size;
}

bool same_answer(const nearby_answer_fields *a, const nearby_answer_fields *b)
{
    return a->table == b->table && a->order == b->order && a->measure == b->measure && a->d == b->d
        && memcmp(a->probe, b->probe, sizeof a->probe) == 0 && same_scope(a->scope, b->scope) && a->last == b->last
        && a->count == b->count && memcmp(a->items, b->items, sizeof a->items) == 0;
}

bool same_claim(const nearby_claim *a, const nearby_claim *b)
{
    return a->table == b->table && a->measure == b->measure && a->d == b->d && a->reference == b->reference
        && memcmp(a->coordinates, b->coordinates, sizeof a->coordinates) == 0;
}

text text_of(const char *line)
{
    return (text){ (const uint8_t *)line, strlen(line) };
}

output dotted(uint8_t *memory, size_t length)
{
    memset(memory, '.', DOTS);
    return (output){ memory, length };
}

static bool dots_from(const uint8_t *memory, size_t at)
{
    for (size_t i = at; i < DOTS; i++)
        if (memory[i] != '.')
            return false;
    return true;
}

bool wrote(const uint8_t *memory, nearby_written w, text line)
{
    return w.refusal == 0 && w.length == line.length && memcmp(memory, line.at, line.length) == 0 && dots_from(memory, line.length);
}

bool refused(const uint8_t *memory, nearby_written w, uint8_t refusal)
{
    return w.refusal == refusal && w.length == 0 && dots_from(memory, 0);
}
