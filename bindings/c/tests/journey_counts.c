#include "journey_counts.h"

#include <stdio.h>

enum { NUMBERS = UINT8_MAX + 1 };

/* By order; what has none is counted as near. */
static size_t happened[EVENTS][2];
static size_t refused[CALLS][NUMBERS];

void count_event(event what, size_t times)
{
    count_in(NEARBY_NEAR, what, times);
}

void count_in(uint8_t order, event what, size_t times)
{
    happened[what][order != NEARBY_NEAR] += times;
}

void count_call(call which, uint8_t refusal)
{
    refused[which][refusal]++;
}

void count_line(call which, nearby_written line, uint8_t order, event written)
{
    count_call(which, line.refusal);
    count_in(order, written, line.refusal == 0);
    count_event(CHARACTERS, line.length);
}

/* What has to happen, in words and numbers: how often in all, and how often in each order where it has one. */
static const struct {
    const char *what;
    size_t least, least_of_each;
} stated[EVENTS] = {
    [JOURNEYS] = { "journeys", 1000, 0 },
    [RUNS] = { "runs entered", 10000, 0 },
    [CLAIMS] = { "claims entered", 40000, 0 },
    [OPENED] = { "lists opened", 6000, 3000 },
    [OF_OTHER_TABLES] = { "of them of other tables", 1000, 0 },
    [LIKE_ANOTHER] = { "of them with the probe and reach of another", 1500, 0 },
    [ASKS] = { "asks written", 40000, 20000 },
    [ANSWERS] = { "answers written", 40000, 20000 },
    [CHARACTERS] = { "characters written", 12000000, 0 },
    [LOST] = { "lines lost", 15000, 0 },
    [REPEATED] = { "lines repeated", 40000, 0 },
    [OVERTAKEN] = { "lines overtaken", 15000, 0 },
    [DAMAGED] = { "lines damaged", 4000, 0 },
    [CARRIED_OVER] = { "lines carried over to the next journey", 2500, 0 },
    [TAKEN] = { "answers taken", 12000, 6000 },
    [OF_THE_OTHER_ORDER] = { "answers that came to a list of the other order", 15000, 7500 },
    [FULL_AND_LAST] = { "answers with a full last page", 1000, 500 },
    [COMPLETED] = { "lists completed", 5000, 2500 },
    [ITEMS] = { "items in them", 80000, 40000 },
    [SNAPSHOTS] = { "sum of their snapshots", 90000, 45000 },
    [COMPARISONS] = { "comparisons", 1000000, 400000 },
};

static size_t in_all(event what)
{
    return happened[what][NEARBY_NEAR] + happened[what][NEARBY_FAR];
}

static bool often_enough(event what)
{
    size_t each = stated[what].least_of_each;
    return in_all(what) >= stated[what].least && happened[what][NEARBY_NEAR] >= each && happened[what][NEARBY_FAR] >= each;
}

/* How often each refusal has to come. Where nothing is stated it never comes: both ends are sound, and only they write lines. */
static const size_t stated_refused[CALLS][NUMBERS] = {
    [ENTER] = { [3] = 4000, [5] = 1500, [17] = 1000 },
    [ANSWER] = { [9] = 1000, [10] = 5000, [11] = 10000 },
    [WRITE_ASK] = { [6] = 4000, [16] = 600 },
    [TAKE] = { [9] = 1000, [10] = 20000, [13] = 20000, [15] = 5000, [16] = 2500 },
};

void check_counts(void)
{
    for (event what = 0; what < MISSED; what++)
        if (!CHECK(often_enough(what)))
            printf(" (%s: near %zu, far %zu)", stated[what].what, happened[what][NEARBY_NEAR], happened[what][NEARBY_FAR]);
    CHECK(in_all(COMPLETED) == in_all(OPENED) - in_all(OF_OTHER_TABLES));
    CHECK(in_all(MISSED) == 0);
    CHECK(in_all(OVERDUE) == 0);
    CHECK(in_all(DIFFERENCES) == 0);
    for (call which = 0; which < CALLS; which++)
        for (int number = 1; number < NUMBERS; number++) {
            size_t least = stated_refused[which][number], times = refused[which][number];
            if (!CHECK(least == 0 ? times == 0 : times >= least))
                printf(" (call %d, refusal %d: %zu)", (int)which, number, times);
        }
}
