#include "counting.h"

#include <stdio.h>
#include <valgrind/callgrind.h>

void start_counting(void)
{
    CALLGRIND_START_INSTRUMENTATION;
}

void begin_piece(void)
{
    CALLGRIND_TOGGLE_COLLECT;
}

void end_piece(const char *name, size_t times)
{
    char label[64];
    CALLGRIND_TOGGLE_COLLECT;
    snprintf(label, sizeof label, "%s %zu", name, times);
    CALLGRIND_DUMP_STATS_AT(label);
}
