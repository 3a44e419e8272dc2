/* Two lists of the examples' claims, near and far, with something amiss: cases beside the numbers that they have to be refused with. */
#ifndef LIST_CASES_H
#define LIST_CASES_H

#include "tablets.h"

/* A list, the line that arrives for it, and what is lent with them. */
typedef struct {
    nearby_list list;
    uint64_t items[4 * NEARBY_ITEM];
    size_t items_length;
    /* The line: of the kind that this writer writes, with these fields. */
    call writer;
    nearby_answer_fields fields;
    bool byte_short, no_digit, unended;
    /* The ask: its page size and its output room. */
    size_t size, out_length;
} situation;

/* Something that is other than in order; it is amiss or not. */
typedef void change(situation *c);

/* Up to three changes and the number that the call has to give, 0 where nothing is amiss. */
typedef struct {
    uint8_t refusal;
    const char *what;
    change *changes[3];
} list_case;
#define CASE(refusal, ...) { refusal, #__VA_ARGS__, { __VA_ARGS__ } }

/* Claim numbers and distances of two items. */
typedef struct {
    uint64_t first, first_distance, second, second_distance;
} two_items;

/* Sets the list's items, or the line's, by the list's order; their references stay. */
void set_list(situation *c, two_items near, two_items far);
void set_page(situation *c, two_items near, two_items far);

change in_order;
/* The list before its first page, and the first answer. */
change list_not_started;
change list_started_as_255, list_complete, list_complete_as_255, list_empty, list_at_snapshot_4096;
/* A far list's order as another number than 1; a near list stays. */
change list_far_as_255;
/* The one that stands for all lists that are not sound where two things are amiss. */
change list_falls;

/* Each case by its call, of the near list and of the far one: the number that it gives is the case's, and beside a refusal all lent
 * memory is as it was. */
void ask_cases(const list_case *cases, size_t count);
void take_cases(const list_case *cases, size_t count);

#endif
