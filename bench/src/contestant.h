/* What is compared: something that a cell's claims are entered into, and that answers the cell's questions. */
#ifndef BENCH_CONTESTANT_H
#define BENCH_CONTESTANT_H

#include "cell.h"

#ifdef __cplusplus
extern "C" {
#endif

/* Answers as the library's calls for many questions give them. Every contestant gives whole items: number, reference, distance. */
struct answers {
    uint64_t found[ALL_QUESTIONS * FOUND];
    uint64_t outcomes[ALL_QUESTIONS * OUTCOME];
    uint64_t items[ALL_QUESTIONS * ITEMS];
    uint8_t lines[ALL_QUESTIONS * NEARBY_ANSWER_LINE];
    size_t lines_length;
};

struct contestant {
    const char *name;
    /* Whether equal distances come by rising number, as the rules say. Otherwise distances alone can be compared. */
    int ties_by_number;
    int (*can)(const struct cell *cell, enum question question);
    /* Enters the claims; the table lives until `leave`. */
    void *(*enter)(const struct cell *cell);
    void (*leave)(void *table);
    /* Answers the first `count` questions of a kind. */
    void (*ask)(void *table, const struct cell *cell, enum question question, size_t count, struct answers *answers);
};

extern const struct contestant ours, plain_scan, vector_scan, neartree_peer, nanoflann_peer;

/* Ends the run: something is wrong that no time may be reported with. */
#if defined(__GNUC__)
__attribute__((noreturn, format(printf, 1, 2)))
#endif
void fail(const char *format, ...);

/* Ends the run with status REFUSED: the archive refuses a call, as one of another time may do with a call that has changed since. */
enum { REFUSED = 3 };
#if defined(__GNUC__)
__attribute__((noreturn))
#endif
void refused(const char *call, uint8_t refusal);

/* Memory, or the end of the run. */
void *need(size_t size);

#ifdef __cplusplus
}
#endif

#endif
