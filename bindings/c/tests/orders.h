/* The refusals of each call, in the order in which they are tested. */
#ifndef ORDERS_H
#define ORDERS_H

#include "try.h"

enum { MOST_NUMBERS = 10 };

/* The numbers of each call, as section 9 of the rules lists them, and a 0 at the end. */
extern const uint8_t call_numbers[CALLS][MOST_NUMBERS];

/* The numbers that a call for many gives to single rows, behind those above. */
extern const uint8_t row_numbers[CALLS][MOST_NUMBERS];

#endif
