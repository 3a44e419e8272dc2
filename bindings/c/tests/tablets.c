#include "tablets.h"

#include <string.h>

room make_room(size_t length)
{
    return (room){ brink(length * sizeof(uint64_t)), length };
}

room noisy_room(seeded *from, size_t length)
{
    room r = make_room(length);
    for (size_t i = 0; i < length; i++)
        r.at[i] = next_number(from);
    return r;
}

void free_room(room r)
{
    brink_free(r.at, r.length * sizeof(uint64_t));
}

tablet open_tablet(uint8_t order, uint32_t table, uint8_t measure, points probe, uint64_t reach, size_t length)
{
    nearby_listed opened = try_open(order, table, measure, probe.length, probe, reach);
    CHECK(opened.refusal == 0);
    return (tablet){ opened.list, make_room(length) };
}

size_t fetch_answer(const tablet *t, const store *office, size_t size, output out)
{
    uint8_t ask[NEARBY_ASK_LINE];
    nearby_written wrote = try_write_ask(t->list, t->items, size, (output){ ask, sizeof ask });
    CHECK(wrote.refusal == 0);
    return try_answer(office, (text){ ask, wrote.length }, out).length;
}

void lengthen_room(tablet *t, size_t more)
{
    room longer = make_room(t->items.length + more * NEARBY_ITEM);
    memcpy(longer.at, t->items.at, t->items.length * sizeof(uint64_t));
    free_room(t->items);
    t->items = longer;
}
