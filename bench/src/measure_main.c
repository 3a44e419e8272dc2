/* Runs the grid: every table size, d, measure and spread, and writes a line of tabs for each task and contestant. */
#include "rounds.h"

#include <malloc.h>
#include <stdio.h>
#include <stdlib.h>

static const struct contestant *const contestants[] = {
    &ours,
    &plain_scan,
    &vector_scan,
#ifdef HAVE_NEARTREE
    &neartree_peer,
#endif
#ifdef HAVE_NANOFLANN
    &nanoflann_peer,
#endif
};

static const size_t sizes[] = { 64, 256, 1024, 4096 };
static const size_t dimensions[] = { 1, 2, 3, 8 };

int main(int argc, char **argv)
{
    static struct cell cell;
    if (argc != 2 || atoi(argv[1]) < 1 || atoi(argv[1]) > 99)
        fail("usage: measure REPETITIONS, from 1 to 99");
    /* Memory that was given back stays with the process: entering claims is not to be a measure of the system's page faults. */
    mallopt(M_MMAP_THRESHOLD, 1 << 30);
    mallopt(M_TRIM_THRESHOLD, 1 << 30);
    for (size_t d = 0; d < sizeof dimensions / sizeof *dimensions; d++)
        for (uint8_t measure = NEARBY_CITY_BLOCK; measure <= NEARBY_HAMMING; measure++)
            for (enum spread spread = UNIFORM; spread <= SORTED; spread++) {
                for (size_t n = 0; n < sizeof sizes / sizeof *sizes; n++) {
                    make_cell(&cell, sizes[n], dimensions[d], measure, spread);
                    run_cell(&cell, contestants, sizeof contestants / sizeof *contestants, (size_t)atoi(argv[1]));
                }
                fflush(stdout);
                fprintf(stderr, ".");
            }
    fprintf(stderr, "\n");
}
