/* Every call beside the model: the result and all lent memory have to be what the rules say. Each gives the library's result. */
#ifndef TRY_H
#define TRY_H

#include "check.h"
#include "model.h"

typedef enum {
    MAKE, TEST, ENTER, NEAREST, FARTHEST, PAGE, ANSWER, OPEN, WRITE_ASK, TAKE, ASK_LINE, ANSWER_LINE, CLAIM_LINE,
    READ_ASK, READ_ANSWER, READ_CLAIM, MANY_NEAREST, MANY_FARTHEST, MANY_PAGES, MANY_ANSWERS, CALLS
} call;

/* How often a call gave a refusal's number so far, 0 for none; and how often a call for many gave it to one of its rows. */
size_t times_given(call which, uint8_t refusal);
size_t times_given_to_a_row(call which, uint8_t refusal);

nearby_tabled try_make(uint32_t number, uint8_t measure, size_t d, size_t capacity, const store *lent);
uint8_t try_test(const store *s);
/* The store has the new header where the run was entered. */
nearby_tabled try_enter(store *s, const uint32_t *given, size_t given_length, points run);
nearby_item try_nearest(const store *s, points probe, uint64_t reach);
nearby_item try_farthest(const store *s, points probe);
nearby_filled try_page(const store *s, uint8_t order, points probe, uint64_t reach, nearby_start start, size_t size, room out);
nearby_written try_answer(const store *s, text line, output out);

nearby_listed try_open(uint8_t order, uint32_t table, uint8_t measure, size_t d, points probe, uint64_t reach);
nearby_written try_write_ask(nearby_list list, room items, size_t size, output out);
nearby_listed try_take(nearby_list list, room items, text line);

nearby_written try_ask_line(uint8_t order, uint32_t table, uint8_t measure, uint8_t d, points probe, nearby_scope scope,
                            uint8_t size, output out);
nearby_written try_answer_line(uint8_t order, uint32_t table, uint8_t measure, uint8_t d, points probe, nearby_scope scope,
                               uint8_t last, uint8_t count, room items, output out);
nearby_written try_claim_line(uint32_t table, uint8_t measure, uint8_t d, uint32_t reference, points coordinates, output out);
nearby_ask_read try_read_ask(text line);
nearby_answer_read try_read_answer(text line);
nearby_claim_read try_read_claim(text line);

uint8_t try_many_nearest(const store *s, points probes, room reaches, room out);
uint8_t try_many_farthest(const store *s, points probes, size_t n, room out);
uint8_t try_many_pages(const store *s, points probes, room reaches, room starts, size_t size, room outcomes, room items);
nearby_answered try_many_answers(const store *s, text asks, room outcomes, output out);

#endif
