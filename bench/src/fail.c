/* The ways in which a run ends early. */
#include "contestant.h"

#include <stdarg.h>
#include <stdio.h>
#include <stdlib.h>

void fail(const char *format, ...)
{
    va_list rest;
    va_start(rest, format);
    fflush(stdout);
    fputs("bench: FAILED: ", stderr);
    vfprintf(stderr, format, rest);
    fputc('\n', stderr);
    va_end(rest);
    exit(1);
}

void refused(const char *call, uint8_t refusal)
{
    fflush(stdout);
    fprintf(stderr, "bench: %s is refused with %u: %s\n", call, refusal, nearby_refusal_meaning(refusal));
    exit(REFUSED);
}

void *need(size_t size)
{
    void *memory = malloc(size);
    if (memory == NULL)
        fail("no memory for %zu bytes", size);
    return memory;
}
