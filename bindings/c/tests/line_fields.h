/* The fields of lines: written beside the model to rooms of dots, and compared. */
#ifndef LINE_FIELDS_H
#define LINE_FIELDS_H

#include "try.h"

/* Fields as a reader gives them, written by the writer of their kind. */
nearby_written write_ask_fields(nearby_ask ask, output out);
nearby_written write_answer_fields(nearby_answer_fields answer, output out);
nearby_written write_claim_fields(nearby_claim claim, output out);

bool same_ask(const nearby_ask *a, const nearby_ask *b);
bool same_answer(const nearby_answer_fields *a, const nearby_answer_fields *b);
bool same_claim(const nearby_claim *a, const nearby_claim *b);

text text_of(const char *line);

/* Characters of a room of dots: some more than the longest line has. */
enum { DOTS = NEARBY_ANSWER_LINE + 3 };

/* Fills memory of DOTS characters with dots, and lends so many of them. */
output dotted(uint8_t *memory, size_t length);

/* Whether a writer put this line at the front of the dots and nothing else, or refused with this number and left all dots. */
bool wrote(const uint8_t *memory, nearby_written w, text line);
bool refused(const uint8_t *memory, nearby_written w, uint8_t refusal);

#endif
