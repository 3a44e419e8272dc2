#define _DEFAULT_SOURCE
#include "check.h"

#include <stdio.h>
#include <stdlib.h>
#include <sys/mman.h>
#include <unistd.h>

enum { SHOWN = 5 };

static size_t passed, failed, failures;

bool check_at(bool fact, const char *file, int line, const char *text)
{
    if (!fact) {
        failures++;
        if (failures <= SHOWN)
            printf("\n    %s:%d: %s", file, line, text);
    }
    return fact;
}

void run_test(const char *name, void (*test)(void))
{
    failures = 0;
    printf("%s ...", name);
    fflush(stdout);
    test();
    if (failures == 0) {
        passed++;
        printf(" ok\n");
    } else {
        failed++;
        printf("\n    FAILED, %zu facts do not hold\n", failures);
    }
}

int finish_tests(void)
{
    printf("%zu passed, %zu failed\n", passed, failed);
    return failed == 0 ? EXIT_SUCCESS : EXIT_FAILURE;
}

seeded seed(uint64_t number)
{
    return (seeded){ number };
}

/* splitmix64 */
uint64_t next_number(seeded *from)
{
    uint64_t z = from->state += 0x9e3779b97f4a7c15u;
    z = (z ^ (z >> 30)) * 0xbf58476d1ce4e5b9u;
    z = (z ^ (z >> 27)) * 0x94d049bb133111ebu;
    return z ^ (z >> 31);
}

uint64_t below(seeded *from, uint64_t n)
{
    return next_number(from) % n;
}

bool one_in(seeded *from, uint64_t n)
{
    return below(from, n) == 0;
}

/* Whole pages that hold so many bytes, and one page more that nothing can touch. */
static size_t pages_for(size_t bytes)
{
    size_t page = (size_t)sysconf(_SC_PAGESIZE);
    return (bytes + page - 1) / page * page + page;
}

void *brink(size_t bytes)
{
    size_t page = (size_t)sysconf(_SC_PAGESIZE), all = pages_for(bytes);
    unsigned char *base = mmap(NULL, all, PROT_READ | PROT_WRITE, MAP_PRIVATE | MAP_ANONYMOUS, -1, 0);
    if (base == MAP_FAILED || mprotect(base + all - page, page, PROT_NONE) != 0) {
        perror("brink");
        exit(EXIT_FAILURE);
    }
    return base + all - page - bytes;
}

void brink_free(void *memory, size_t bytes)
{
    size_t page = (size_t)sysconf(_SC_PAGESIZE), all = pages_for(bytes);
    munmap((unsigned char *)memory + bytes + page - all, all);
}
