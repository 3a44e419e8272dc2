#include "journey_link.h"

#include <string.h>

void send_line(seeded *from, wire *w, const uint8_t *line, size_t length)
{
    if (w->count == IN_FLIGHT)
        lose_line(from, w);
    sent_line *to = &w->lines[w->count++];
    *to = (sent_line){ .length = length, .before = w->sent++ };
    memcpy(to->characters, line, length);
}

static void take_away(wire *w, size_t at)
{
    w->lines[at] = w->lines[--w->count];
}

void lose_line(seeded *from, wire *w)
{
    if (w->count == 0)
        return;
    take_away(w, below(from, w->count));
    w->lost++;
}

/* Damage that a reader always notices: the 0A missing, a character that is no digit (9), or a byte missing behind the kind (10). An ask
 * has an odd number of bytes and an answer an even one, so with a byte missing it is none of its kind. */
static void damage(seeded *from, heard_line *h)
{
    const uint8_t no_digits[] = { 'A', 'F', 'g', ' ', 0x0a, 0, 0xff };
    size_t digits = h->length - 1, at = 2 + 2 * below(from, digits / 2 - 1);
    h->damage = 9;
    switch (below(from, 3)) {
    case 0: h->length--; break;
    case 1: h->characters[below(from, digits)] = no_digits[below(from, sizeof no_digits)]; break;
    default:
        memmove(h->characters + at, h->characters + at + 2, h->length - at - 2);
        h->length -= 2;
        h->damage = 10;
    }
}

/* A line that was not heard before may come behind one that was sent after it. */
static void note_arrival(wire *w, sent_line *line)
{
    w->repeated += line->arrived;
    w->overtaken += !line->arrived && line->before < w->latest;
    w->latest = line->before > w->latest ? line->before : w->latest;
    line->arrived = true;
}

heard_line hear_line(seeded *from, wire *w)
{
    size_t at = below(from, w->count);
    sent_line *line = &w->lines[at];
    uint8_t kind = line->characters[1];
    heard_line h = { .length = line->length, .is_ask = kind == '1' || kind == '4', .order = kind >= '4' ? NEARBY_FAR : NEARBY_NEAR };
    memcpy(h.characters, line->characters, h.length);
    note_arrival(w, line);
    if (one_in(from, 2))
        take_away(w, at);
    if (one_in(from, 24)) {
        damage(from, &h);
        w->damaged++;
    }
    return h;
}
