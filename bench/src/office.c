#include "office.h"

#include <string.h>

/* The kinds of line in near order; those in far order are FAR_KINDS more. */
enum { ASK = 1, ANSWER = 2, FAR_KINDS = 3 };

enum { LONGEST_LINE = NEARBY_ANSWER_LINE, LONGEST_FRAME = (LONGEST_LINE - 1) / 2 };

/* ---- Frames ---- */

struct frame {
    uint8_t bytes[LONGEST_FRAME];
    size_t length;
};

static void put(struct frame *f, uint64_t value, size_t bytes)
{
    for (size_t i = bytes; i-- > 0;)
        f->bytes[f->length++] = (uint8_t)(value >> (8 * i));
}

static uint64_t get(const struct frame *f, size_t *at, size_t bytes)
{
    uint64_t value = 0;
    for (size_t i = 0; i < bytes; i++)
        value = value << 8 | f->bytes[(*at)++];
    return value;
}

static size_t write_line(const struct frame *f, uint8_t *out)
{
    static const char digits[] = "0123456789abcdef";
    for (size_t i = 0; i < f->length; i++) {
        out[2 * i] = (uint8_t)digits[f->bytes[i] >> 4];
        out[2 * i + 1] = (uint8_t)digits[f->bytes[i] & 15];
    }
    out[2 * f->length] = '\n';
    return 2 * f->length + 1;
}

/* The value of a digit, or 16. */
static uint8_t digit(uint8_t c)
{
    if (c >= '0' && c <= '9')
        return (uint8_t)(c - '0');
    return c >= 'a' && c <= 'f' ? (uint8_t)(c - 'a' + 10) : 16;
}

static uint8_t read_line(const uint8_t *line, size_t length, struct frame *f)
{
    if (length < 3 || length > LONGEST_LINE || length % 2 == 0 || line[length - 1] != '\n')
        return 9;
    f->length = length / 2;
    for (size_t i = 0; i < f->length; i++) {
        uint8_t high = digit(line[2 * i]), low = digit(line[2 * i + 1]);
        if ((high | low) > 15)
            return 9;
        f->bytes[i] = (uint8_t)(high << 4 | low);
    }
    return 0;
}

/* ---- Asks and answers ---- */

struct ask {
    uint32_t table;
    uint8_t measure, d;
    int32_t probe[NEARBY_MOST_COORDINATES];
    uint64_t reach;
    uint64_t place[NEARBY_PLACE];
    uint8_t size;
};

static void put_ask(struct frame *f, uint8_t kind, const struct ask *a)
{
    put(f, kind + FAR_KINDS * a->place[ORDER], 1);
    put(f, a->table, 4);
    put(f, a->measure, 1);
    put(f, a->d, 1);
    for (size_t j = 0; j < a->d; j++)
        put(f, (uint32_t)a->probe[j], 4);
    put(f, a->reach, 8);
    put(f, a->place[FROM], 1);
    put(f, a->place[SNAPSHOT], 2);
    put(f, a->place[MARK_DISTANCE], 8);
    put(f, a->place[MARK_NUMBER], 2);
}

static uint8_t get_ask(const struct frame *f, struct ask *a)
{
    size_t at = 7;
    if ((f->bytes[0] != ASK && f->bytes[0] != ASK + FAR_KINDS) || f->length < at)
        return 10;
    a->measure = f->bytes[5];
    a->d = f->bytes[6];
    if (a->measure < 1 || a->measure > 3 || a->d < 1 || a->d > NEARBY_MOST_COORDINATES || f->length != 29u + 4u * a->d)
        return 10;
    for (size_t j = 0; j < a->d; j++)
        a->probe[j] = (int32_t)(uint32_t)get(f, &at, 4);
    a->reach = get(f, &at, 8);
    a->place[ORDER] = f->bytes[0] == ASK ? NEARBY_NEAR : NEARBY_FAR;
    a->place[FROM] = get(f, &at, 1);
    a->place[SNAPSHOT] = get(f, &at, 2);
    a->place[MARK_DISTANCE] = get(f, &at, 8);
    a->place[MARK_NUMBER] = get(f, &at, 2);
    a->size = (uint8_t)get(f, &at, 1);
    at = 1;
    a->table = (uint32_t)get(f, &at, 4);
    if (a->place[FROM] > 1 || a->place[SNAPSHOT] > NEARBY_MOST_CLAIMS || a->place[MARK_NUMBER] >= NEARBY_MOST_CLAIMS)
        return 10;
    if (a->place[FROM] == 0 && (a->place[SNAPSHOT] | a->place[MARK_DISTANCE] | a->place[MARK_NUMBER]) != 0)
        return 10;
    return a->size < 1 || a->size > NEARBY_MOST_PAGE ? 10 : 0;
}

size_t write_ask(const struct cell *cell, size_t i, const uint64_t *place, uint8_t *out)
{
    struct ask a = { .table = TABLE_NUMBER, .measure = cell->measure, .d = (uint8_t)cell->d, .reach = cell->reaches[i] };
    struct frame f = { .length = 0 };
    memcpy(a.probe, &cell->probes[i * cell->d], cell->d * sizeof *a.probe);
    memcpy(a.place, place, sizeof a.place);
    put_ask(&f, ASK, &a);
    put(&f, NEARBY_MOST_PAGE, 1);
    return write_line(&f, out);
}

/* ---- The office ---- */

static uint8_t answer_line(page_function *page, const void *table, const struct cell *cell, const uint8_t *line, size_t length,
                           uint8_t *out, uint64_t *written)
{
    struct frame f;
    struct ask a;
    uint64_t outcome[OUTCOME], items[ITEMS];
    uint8_t refusal = read_line(line, length, &f);
    if (refusal == 0)
        refusal = get_ask(&f, &a);
    if (refusal != 0)
        return refusal;
    if (a.table != TABLE_NUMBER || a.measure != cell->measure || a.d != cell->d)
        return 11;
    page(table, a.probe, a.reach, a.place, a.size, outcome, items);
    if (outcome[0] != 0)
        return (uint8_t)outcome[0];
    if (a.place[FROM] == 0)
        a.place[SNAPSHOT] = cell->n;
    f.length = 0;
    put_ask(&f, ANSWER, &a);
    put(&f, outcome[2], 1);
    put(&f, outcome[1], 1);
    for (size_t i = 0; i < outcome[1]; i++) {
        put(&f, items[i * NEARBY_ITEM], 2);
        put(&f, items[i * NEARBY_ITEM + 1], 4);
        put(&f, items[i * NEARBY_ITEM + 2], 8);
    }
    *written = write_line(&f, out);
    return 0;
}

void answer_asks(page_function *page, const void *table, const struct cell *cell, size_t count, struct answers *answers)
{
    const uint8_t *line = cell->asks, *end = line + count * cell->ask_length;
    answers->lines_length = 0;
    for (uint64_t *row = answers->outcomes; line < end; row += 2) {
        const uint8_t *newline = memchr(line, '\n', (size_t)(end - line));
        size_t length = (size_t)((newline == NULL ? end : newline + 1) - line);
        row[1] = 0;
        row[0] = answer_line(page, table, cell, line, length, &answers->lines[answers->lines_length], &row[1]);
        answers->lines_length += row[1];
        line += length;
    }
}
