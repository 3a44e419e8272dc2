#include "words.h"

#include "contestant.h"

#include <stdlib.h>
#include <string.h>

#define SHORT_REACH (UINT64_C(1) << 30)

size_t place_of(const char *word, const char *const *words, size_t count)
{
    for (size_t i = 0; i < count; i++)
        if (strcmp(words[i], word) == 0)
            return i;
    fail("what is %s?", word);
}

/* For first pages: the marks of later ones may lie beyond a short reach. */
static void shorten_reaches(struct cell *cell)
{
    for (size_t i = 0; i < ALL_QUESTIONS; i++)
        cell->reaches[i] = SHORT_REACH;
}

void make_named_cell(struct cell *cell, const char *measure, const char *d, const char *coordinates)
{
    enum { FULL, SHORT = 3, COORDINATES };
    static const char *const measures[] = { "city block", "maximum", "Hamming" };
    static const char *const all_coordinates[COORDINATES] = { "full", "million", "codes", "short" };
    static const enum spread spreads[COORDINATES] = { UNIFORM, MILLION, CODES, UNIFORM };
    const size_t kind = place_of(coordinates, all_coordinates, COORDINATES);
    const int places = atoi(d);
    if (places < 1 || places > NEARBY_MOST_COORDINATES)
        fail("d is from 1 to %d", NEARBY_MOST_COORDINATES);
    make_cell(cell, NEARBY_MOST_CLAIMS, (size_t)places, (uint8_t)(NEARBY_CITY_BLOCK + place_of(measure, measures, 3)), spreads[kind]);
    if (kind == SHORT)
        shorten_reaches(cell);
}
