/* The kinds of line, written field by field and read field by field. */
#include "model.h"

#include <stdio.h>
#include <string.h>

enum { MOST_BYTES = (NEARBY_ANSWER_LINE - 1) / 2 };

/* The kinds by their numbers: asks and answers have one for each order. */
enum { NEAR_ASK = 1, NEAR_ANSWER = 2, CLAIM = 3, FAR_ASK = 4, FAR_ANSWER = 5 };

/* ---- Writing: fields as text, one after another ---- */

typedef struct {
    char digits[NEARBY_ANSWER_LINE + 1];
    size_t length;
} sheet;

static void field(sheet *s, int bytes, uint64_t value)
{
    s->length += (size_t)sprintf(s->digits + s->length, "%0*llx", 2 * bytes, (unsigned long long)value);
}

static void head_fields(sheet *s, uint8_t kind, uint32_t table, uint8_t measure, uint8_t d)
{
    field(s, 1, kind);
    field(s, 4, table);
    field(s, 1, measure);
    field(s, 1, d);
}

static void coordinate_fields(sheet *s, points p)
{
    for (size_t i = 0; i < p.length; i++)
        field(s, 4, (uint32_t)p.at[i]);
}

static void scope_fields(sheet *s, nearby_scope p)
{
    field(s, 8, p.reach);
    field(s, 1, p.from);
    field(s, 2, p.snapshot);
    field(s, 8, p.distance);
    field(s, 2, p.number);
}

static nearby_written hand_over(sheet *s, output out)
{
    s->digits[s->length++] = '\n';
    memcpy(out.at, s->digits, s->length);
    return (nearby_written){ 0, s->length };
}

static bool head_holds(uint8_t measure, size_t d)
{
    return measure >= 1 && measure <= 3 && d >= 1 && d <= NEARBY_MOST_COORDINATES;
}

static bool scope_holds(nearby_scope p)
{
    if (p.from > 1 || p.snapshot > NEARBY_MOST_CLAIMS || p.number >= NEARBY_MOST_CLAIMS)
        return false;
    return p.from == 1 || (p.distance == 0 && p.number == 0);
}

static bool ask_holds(nearby_scope p, uint8_t size)
{
    return scope_holds(p) && (p.from == 1 || p.snapshot == 0) && size >= 1 && size <= NEARBY_MOST_PAGE;
}

nearby_written model_ask_line(uint8_t order, uint32_t table, uint8_t measure, uint8_t d, points probe, nearby_scope scope,
                              uint8_t size, output out)
{
    if (!head_holds(measure, d) || probe.length != d || !ask_holds(scope, size))
        return (nearby_written){ .refusal = 10 };
    if (out.length < NEARBY_ASK_LINE)
        return (nearby_written){ .refusal = 12 };
    sheet s = { .length = 0 };
    head_fields(&s, order == NEARBY_NEAR ? NEAR_ASK : FAR_ASK, table, measure, d);
    coordinate_fields(&s, probe);
    scope_fields(&s, scope);
    field(&s, 1, size);
    return hand_over(&s, out);
}

static bool items_hold(uint8_t count, room items)
{
    if (count > NEARBY_MOST_PAGE || items.length != (size_t)count * NEARBY_ITEM)
        return false;
    for (size_t i = 0; i < items.length; i += NEARBY_ITEM)
        if (items.at[i] >= NEARBY_MOST_CLAIMS || items.at[i + 1] > UINT32_MAX)
            return false;
    return true;
}

nearby_written model_answer_line(uint8_t order, uint32_t table, uint8_t measure, uint8_t d, points probe, nearby_scope scope,
                                 uint8_t last, uint8_t count, room items, output out)
{
    if (!head_holds(measure, d) || probe.length != d || !scope_holds(scope) || last > 1 || !items_hold(count, items))
        return (nearby_written){ .refusal = 10 };
    if (out.length < NEARBY_ANSWER_LINE)
        return (nearby_written){ .refusal = 12 };
    sheet s = { .length = 0 };
    head_fields(&s, order == NEARBY_NEAR ? NEAR_ANSWER : FAR_ANSWER, table, measure, d);
    coordinate_fields(&s, probe);
    scope_fields(&s, scope);
    field(&s, 1, last);
    field(&s, 1, count);
    for (size_t i = 0; i < items.length; i += NEARBY_ITEM) {
        field(&s, 2, items.at[i]);
        field(&s, 4, items.at[i + 1]);
        field(&s, 8, items.at[i + 2]);
    }
    return hand_over(&s, out);
}

nearby_written model_claim_line(uint32_t table, uint8_t measure, uint8_t d, uint32_t reference, points coordinates, output out)
{
    if (!head_holds(measure, d) || coordinates.length != d)
        return (nearby_written){ .refusal = 10 };
    if (out.length < NEARBY_CLAIM_LINE)
        return (nearby_written){ .refusal = 12 };
    sheet s = { .length = 0 };
    head_fields(&s, CLAIM, table, measure, d);
    field(&s, 4, reference);
    coordinate_fields(&s, coordinates);
    return hand_over(&s, out);
}

/* ---- Reading: a line to bytes, and bytes to fields ---- */

typedef struct {
    uint8_t bytes[MOST_BYTES];
    size_t length, at;
    bool short_of;
} frame;

static int digit(uint8_t c)
{
    const char *all = "0123456789abcdef", *found = c == 0 ? NULL : strchr(all, c);
    return found == NULL ? -1 : (int)(found - all);
}

static bool to_frame(text line, frame *f)
{
    memset(f, 0, sizeof *f);
    if (line.length < 3 || line.length > NEARBY_ANSWER_LINE || line.length % 2 == 0 || line.at[line.length - 1] != 0x0a)
        return false;
    for (size_t i = 0; i + 1 < line.length; i += 2) {
        int high = digit(line.at[i]), low = digit(line.at[i + 1]);
        if (high < 0 || low < 0)
            return false;
        f->bytes[f->length++] = (uint8_t)(16 * high + low);
    }
    return true;
}

/* The next field; 0 where the frame has ended, which is remembered. */
static uint64_t take_field(frame *f, int bytes)
{
    uint64_t value = 0;
    for (int i = 0; i < bytes; i++) {
        uint8_t byte = 0;
        if (f->at < f->length)
            byte = f->bytes[f->at++];
        else
            f->short_of = true;
        value = value << 8 | byte;
    }
    return value;
}

static void take_coordinates(frame *f, size_t d, int32_t *out)
{
    for (size_t i = 0; i < d; i++) {
        uint64_t value = take_field(f, 4);
        out[i] = (int32_t)(value >= 0x80000000u ? (int64_t)value - 0x100000000 : (int64_t)value);
    }
}

static nearby_scope take_scope(frame *f)
{
    nearby_scope p;
    memset(&p, 0, sizeof p);
    p.reach = take_field(f, 8);
    p.from = (uint8_t)take_field(f, 1);
    p.snapshot = (uint16_t)take_field(f, 2);
    p.distance = take_field(f, 8);
    p.number = (uint16_t)take_field(f, 2);
    return p;
}

static bool ended(const frame *f)
{
    return !f->short_of && f->at == f->length;
}

typedef struct {
    uint8_t kind;
    uint32_t table;
    uint8_t measure, d;
} head;

/* The frame and its head, which is of one of two kinds: 0, or why the line is refused. */
static uint8_t take_head(text line, uint8_t one, uint8_t other, frame *f, head *h)
{
    if (!to_frame(line, f))
        return 9;
    h->kind = (uint8_t)take_field(f, 1);
    h->table = (uint32_t)take_field(f, 4);
    h->measure = (uint8_t)take_field(f, 1);
    h->d = (uint8_t)take_field(f, 1);
    return (h->kind == one || h->kind == other) && head_holds(h->measure, h->d) ? 0 : 10;
}

nearby_ask_read model_read_ask(text line)
{
    head h;
    frame f;
    uint8_t refusal = take_head(line, NEAR_ASK, FAR_ASK, &f, &h);
    if (refusal != 0)
        return (nearby_ask_read){ .refusal = refusal };
    nearby_ask_read read = { .ask = { .table = h.table, .order = h.kind == FAR_ASK, .measure = h.measure, .d = h.d } };
    nearby_ask *a = &read.ask;
    take_coordinates(&f, a->d, a->probe);
    a->scope = take_scope(&f);
    a->size = (uint8_t)take_field(&f, 1);
    return ended(&f) && ask_holds(a->scope, a->size) ? read : (nearby_ask_read){ .refusal = 10 };
}

nearby_answer_read model_read_answer(text line)
{
    const nearby_answer_read not_one = { .refusal = 10 };
    head h;
    frame f;
    uint8_t refusal = take_head(line, NEAR_ANSWER, FAR_ANSWER, &f, &h);
    if (refusal != 0)
        return (nearby_answer_read){ .refusal = refusal };
    nearby_answer_read read = { .answer = { .table = h.table, .order = h.kind == FAR_ANSWER, .measure = h.measure, .d = h.d } };
    nearby_answer_fields *a = &read.answer;
    take_coordinates(&f, a->d, a->probe);
    a->scope = take_scope(&f);
    a->last = (uint8_t)take_field(&f, 1);
    a->count = (uint8_t)take_field(&f, 1);
    if (!scope_holds(a->scope) || a->last > 1 || a->count > NEARBY_MOST_PAGE)
        return not_one;
    for (size_t i = 0; i < (size_t)a->count * NEARBY_ITEM; i += NEARBY_ITEM) {
        a->items[i] = take_field(&f, 2);
        a->items[i + 1] = take_field(&f, 4);
        a->items[i + 2] = take_field(&f, 8);
    }
    return ended(&f) && items_hold(a->count, (room){ a->items, (size_t)a->count * NEARBY_ITEM }) ? read : not_one;
}

nearby_claim_read model_read_claim(text line)
{
    head h;
    frame f;
    uint8_t refusal = take_head(line, CLAIM, CLAIM, &f, &h);
    if (refusal != 0)
        return (nearby_claim_read){ .refusal = refusal };
    nearby_claim_read read = { .claim = { .table = h.table, .measure = h.measure, .d = h.d } };
    nearby_claim *c = &read.claim;
    c->reference = (uint32_t)take_field(&f, 4);
    take_coordinates(&f, c->d, c->coordinates);
    return ended(&f) ? read : (nearby_claim_read){ .refusal = 10 };
}
