/* A link between tablets and an office: it loses, repeats, delays, reorders and damages the lines that are sent over it. */
#ifndef JOURNEY_LINK_H
#define JOURNEY_LINK_H

#include "check.h"
#include "model.h"

/* Few, so that a line is often in time for the ask that it answers. */
enum { IN_FLIGHT = 8 };

/* A line on its way, how many lines were sent before it, and whether it has arrived already. */
typedef struct {
    uint8_t characters[NEARBY_ANSWER_LINE];
    size_t length, before;
    bool arrived;
} sent_line;

/* The lines on their way, and what happened to all lines so far. */
typedef struct {
    sent_line lines[IN_FLIGHT];
    size_t count, sent, latest;
    size_t lost, repeated, overtaken, damaged;
} wire;

/* A line as it arrives, and what was sent: an ask or an answer, its order, and the number that damage on the way has to be refused
 * with, or 0. */
typedef struct {
    uint8_t characters[NEARBY_ANSWER_LINE];
    size_t length;
    bool is_ask;
    uint8_t order;
    uint8_t damage;
} heard_line;

/* Where the link is full, one of its lines is lost. */
void send_line(seeded *from, wire *w, const uint8_t *line, size_t length);

/* Any line is lost, where there is one. */
void lose_line(seeded *from, wire *w);

/* Any line of a link that is not empty arrives; every other one stays, to arrive again. */
heard_line hear_line(seeded *from, wire *w);

#endif
