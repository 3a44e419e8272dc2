/* Answers questions of some kinds about a cell, for callgrind to count: a call with a batch of them, and a call with two batches. The
 * second less the first is what a batch costs, without entering the claims and without the test of the table. */
#include "check.h"
#include "counting.h"
#include "plane_scan.h"
#include "words.h"

#include <stdlib.h>
#include <string.h>

static const char *const kinds[] = { "first", "fifth", "far-first", "far-fifth", "nearest", "farthest" };

enum { KINDS = sizeof kinds / sizeof *kinds };

static const struct contestant *contestant_named(const char *name)
{
    static const struct contestant *const all[] = { &ours, &plain_scan, &plane_scan };
    static const char *const names[] = { "ours", "plain scan", "plane scan" };
    return all[place_of(name, names, sizeof names / sizeof *names)];
}

static enum question question_named(const char *name)
{
    return (enum question)place_of(name, kinds, KINDS);
}

/* What was answered is forgotten before each call and checked afterwards. */
static void count_kind(const struct contestant *who, void *table, const struct cell *cell, enum question question, size_t batch,
                       const struct answers *right)
{
    static struct answers given;
    for (size_t count = batch; count <= 2 * batch; count += batch) {
        memset(&given, 0, sizeof given);
        begin_piece();
        who->ask(table, cell, question, count, &given);
        end_piece(kinds[question], count);
        check_answers(who, cell, question, count, &given, right);
    }
}

int main(int argc, char **argv)
{
    static struct cell cell;
    static struct answers right[KINDS];
    if (argc < 7 || atoi(argv[5]) < 1 || atoi(argv[5]) > QUESTIONS)
        fail("usage: instructions MEASURE D COORDINATES ours|'plain scan'|'plane scan' BATCH "
             "nearest|farthest|first|fifth|far-first|far-fifth ...");
    const struct contestant *who = contestant_named(argv[4]);
    const size_t batch = (size_t)atoi(argv[5]);
    make_named_cell(&cell, argv[1], argv[2], argv[3]);
    void *table = who->enter(&cell), *scan = plain_scan.enter(&cell);
    for (int i = 6; i < argc; i++) {
        const enum question question = question_named(argv[i]);
        plain_scan.ask(scan, &cell, question, 2 * batch, &right[question]);
    }
    start_counting();
    for (int i = 6; i < argc; i++) {
        const enum question question = question_named(argv[i]);
        count_kind(who, table, &cell, question, batch, &right[question]);
    }
    who->leave(table);
    plain_scan.leave(scan);
}
