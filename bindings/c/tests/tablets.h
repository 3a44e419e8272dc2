/* A tablet: a list with the room that its items lie in, which ends where readable memory ends. */
#ifndef TABLETS_H
#define TABLETS_H

#include "try.h"

typedef struct {
    nearby_list list;
    room items;
} tablet;

/* A room of zeros, or of any numbers. */
room make_room(size_t length);
room noisy_room(seeded *from, size_t length);
void free_room(room r);

/* A list on a table, opened in an order with a probe of d coordinates, and a room of `length` numbers. */
tablet open_tablet(uint8_t order, uint32_t table, uint8_t measure, points probe, uint64_t reach, size_t length);

/* The office's answer to the list's present ask, for a page of some size, at the front of `out`; gives its length. */
size_t fetch_answer(const tablet *t, const store *office, size_t size, output out);

/* Moves the items to a room for so many items more. */
void lengthen_room(tablet *t, size_t more);

#endif
