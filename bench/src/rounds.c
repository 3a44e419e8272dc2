#include "rounds.h"

#include "check.h"
#include "ours.h"

#include <math.h>
#include <stdio.h>
#include <stdlib.h>
#include <string.h>
#include <time.h>

enum { MOST_CONTESTANTS = 5, MOST_TURNS = MOST_CONTESTANTS + 1, MOST_REPETITIONS = 99 };

/* A turn takes 20 microseconds at least: a shorter piece is repeated. Other contestants, which pay nothing for a call, are asked fewer
 * questions once these take 5 milliseconds, but 32. A single call is made a few times, since it tests the table. */
enum { SHORTEST = 20000, LONGEST = 5000000, FEWEST = 32, SINGLE_CALLS = 4 };

/* A cell ends after five repetitions once these have taken a second and a half. */
#define LONGEST_CELL 1.5e9
enum { FEWEST_REPETITIONS = 5 };

static const char *const task_names[TASKS] = { "first page", "fifth page", "far first page", "far fifth page", "nearest", "farthest",
                                               "office line", "entering", "soundness test", "single nearest" };
static const char *const measure_names[] = { "", "city block", "maximum", "Hamming" };
static const char *const spread_names[] = { "uniform", "clustered", "sorted" };

/* One contestant's turn at a task, `count` questions at a time. The library has a second turn at each question, with all of them. */
struct turn {
    const struct contestant *who;
    size_t count, repeats;
    double ns[MOST_REPETITIONS];
};

struct rounds {
    const struct cell *cell;
    const struct contestant *const *contestants;
    size_t contestant_count;
    void *tables[MOST_CONTESTANTS];
    struct turn turns[TASKS][MOST_TURNS];
    size_t turn_counts[TASKS];
    struct answers right[QUESTION_KINDS];
    struct answers given;
};

/* Time of this thread alone: what else runs on the machine takes turns away from it, and no time. */
static double now(void)
{
    struct timespec t;
    clock_gettime(CLOCK_THREAD_CPUTIME_ID, &t);
    return (double)t.tv_sec * 1e9 + (double)t.tv_nsec;
}

static void *table_of(const struct rounds *r, const struct contestant *who)
{
    for (size_t i = 0; i < r->contestant_count; i++)
        if (r->contestants[i] == who)
            return r->tables[i];
    fail("%s has no table", who->name);
}

static void call_singly(const struct cell *cell, struct our_table *t, size_t count, struct answers *given)
{
    for (size_t i = 0; i < count; i++) {
        nearby_item item = nearby_nearest(OUR_TABLE(t), &cell->probes[i * cell->d], cell->d, cell->reaches[i]);
        if (item.refusal != 0)
            refused("nearby_nearest", item.refusal);
        const uint64_t row[FOUND] = { item.found, item.number, item.reference, item.distance };
        memcpy(&given->found[i * FOUND], row, sizeof row);
    }
}

static void do_task(struct rounds *r, int task, const struct turn *turn)
{
    if (task == ENTERING)
        turn->who->leave(turn->who->enter(r->cell));
    else if (task == TESTING)
        test_soundness(table_of(r, turn->who));
    else if (task == SINGLE)
        call_singly(r->cell, table_of(r, turn->who), turn->count, &r->given);
    else
        turn->who->ask(table_of(r, turn->who), r->cell, (enum question)task, turn->count, &r->given);
}

/* Clears what a question is answered in, and not more: a turn is to find the caches as the turn before left them. */
static void forget(struct answers *given, enum question question)
{
    if (question == NEAREST || question == FARTHEST) {
        memset(given->found, 0, sizeof given->found);
        return;
    }
    memset(given->outcomes, 0, sizeof given->outcomes);
    if (question == OFFICE)
        memset(given->lines, 0, sizeof given->lines);
    else
        memset(given->items, 0, sizeof given->items);
}

/* Takes a turn and gives its time. What was answered is forgotten before and checked afterwards. */
static double take_turn(struct rounds *r, int task, const struct turn *turn)
{
    const enum question question = task == SINGLE ? NEAREST : (enum question)task;
    const int answered = task < QUESTION_KINDS || task == SINGLE;
    if (answered)
        forget(&r->given, question);
    double start = now();
    for (size_t i = 0; i < turn->repeats; i++)
        do_task(r, task, turn);
    double spent = now() - start;
    if (answered)
        check_answers(turn->who, r->cell, question, turn->count, &r->given, &r->right[question]);
    return spent / (double)turn->repeats;
}

static size_t at_least(size_t least, size_t x)
{
    return x < least ? least : x;
}

/* A first, short turn says how long the later ones are. */
static void add_turn(struct rounds *r, int task, const struct contestant *who, size_t count)
{
    struct turn *turn = &r->turns[task][r->turn_counts[task]++];
    *turn = (struct turn){ .who = who, .count = count < FEWEST ? count : FEWEST, .repeats = 1 };
    double ns = take_turn(r, task, turn) * (double)count / (double)turn->count;
    turn->count = count;
    if (ns < SHORTEST)
        turn->repeats = (size_t)(SHORTEST / (ns > 100 ? ns : 100)) + 1;
    if (ns > LONGEST && who != &ours && task < QUESTION_KINDS)
        turn->count = at_least(FEWEST, (size_t)((double)count * LONGEST / ns));
}

static void add_turns(struct rounds *r)
{
    for (int task = 0; task < QUESTION_KINDS; task++) {
        const enum question question = (enum question)task;
        for (size_t i = 0; i < r->contestant_count; i++)
            if (r->contestants[i]->can(r->cell, question))
                add_turn(r, task, r->contestants[i], QUESTIONS);
        add_turn(r, task, &ours, ALL_QUESTIONS);
    }
    for (size_t i = 0; i < r->contestant_count; i++)
        if (r->contestants[i]->can(r->cell, NEAREST))
            add_turn(r, ENTERING, r->contestants[i], 1);
    add_turn(r, TESTING, &ours, 1);
    add_turn(r, SINGLE, &ours, SINGLE_CALLS);
}

static int compare_doubles(const void *a, const void *b)
{
    double x = *(const double *)a, y = *(const double *)b;
    return (x > y) - (x < y);
}

static double median(const double *values, size_t count)
{
    double sorted[MOST_REPETITIONS];
    memcpy(sorted, values, count * sizeof *values);
    qsort(sorted, count, sizeof *sorted, compare_doubles);
    return sorted[count / 2];
}

/* The median time of a turn for each question, and the medians of its ratios to the library's times in the same rounds: as called, and
 * with the questions alone, which is 0 for a task that has no such time. A difference that is lost in the noise makes no ratio. */
static void write_result(const struct rounds *r, int task, const char *who, const double *ns, const double *called,
                         const double *alone, size_t repetitions)
{
    double to_called[MOST_REPETITIONS], to_alone[MOST_REPETITIONS];
    for (size_t i = 0; i < repetitions; i++) {
        to_called[i] = ns[i] / called[i];
        to_alone[i] = alone == NULL ? 0 : alone[i] > 0 ? ns[i] / alone[i] : INFINITY;
    }
    printf("%zu\t%zu\t%s\t%s\t%s\t%s\t%.2f\t%.4f\t%.4f\n", r->cell->n, r->cell->d, measure_names[r->cell->measure],
           spread_names[r->cell->spread], task_names[task], who, median(ns, repetitions), median(to_called, repetitions),
           median(to_alone, repetitions));
}

static struct turn *our_turn(struct rounds *r, int task)
{
    for (size_t i = 0; i < r->turn_counts[task]; i++)
        if (r->turns[task][i].who == &ours)
            return &r->turns[task][i];
    fail("the library had no turn at %s", task_names[task]);
}

/* The times of a turn for each question. */
static void for_each(const struct turn *turn, size_t repetitions, double *ns)
{
    for (size_t i = 0; i < repetitions; i++)
        ns[i] = turn->ns[i] / (double)turn->count;
}

static void write_task(struct rounds *r, int task, size_t repetitions)
{
    double called[MOST_REPETITIONS], alone[MOST_REPETITIONS], ns[MOST_REPETITIONS];
    const int has_alone = task < QUESTION_KINDS;
    for_each(our_turn(r, task), repetitions, called);
    if (has_alone) {
        const struct turn *all = &r->turns[task][r->turn_counts[task] - 1];
        for (size_t i = 0; i < repetitions; i++)
            alone[i] = (all->ns[i] - our_turn(r, task)->ns[i]) / QUESTIONS;
        write_result(r, task, "ours alone", alone, called, alone, repetitions);
    }
    /* A single call stands beside the others' times for nearest. */
    const int shown = task == SINGLE ? NEAREST : task;
    for (size_t i = 0; i < r->turn_counts[shown] - (shown < QUESTION_KINDS); i++) {
        const struct turn *turn = &r->turns[shown][i];
        for_each(turn->who == &ours ? our_turn(r, task) : turn, repetitions, ns);
        write_result(r, task, turn->who->name, ns, called, has_alone ? alone : NULL, repetitions);
    }
}

/* Every turn once a repetition, the first of a task a different one each time. Gives how many repetitions there were: a cell that takes
 * long ends early. */
static size_t take_rounds(struct rounds *r, size_t repetitions)
{
    double start = now();
    size_t done = 0;
    while (done < repetitions && (done < FEWEST_REPETITIONS || now() - start < LONGEST_CELL)) {
        for (int task = 0; task < TASKS; task++)
            for (size_t j = 0; j < r->turn_counts[task]; j++) {
                struct turn *turn = &r->turns[task][(done + j) % r->turn_counts[task]];
                turn->ns[done] = take_turn(r, task, turn);
            }
        done++;
    }
    return done;
}

void run_cell(const struct cell *cell, const struct contestant *const *contestants, size_t count, size_t repetitions)
{
    static struct rounds r;
    memset(&r, 0, sizeof r);
    r.cell = cell;
    r.contestants = contestants;
    r.contestant_count = count;
    for (size_t i = 0; i < count; i++)
        r.tables[i] = contestants[i]->enter(cell);
    for (int task = 0; task < QUESTION_KINDS; task++)
        plain_scan.ask(table_of(&r, &plain_scan), cell, (enum question)task, ALL_QUESTIONS, &r.right[task]);
    add_turns(&r);
    repetitions = take_rounds(&r, repetitions);
    for (int task = 0; task < TASKS; task++)
        write_task(&r, task, repetitions);
    for (size_t i = 0; i < count; i++)
        contestants[i]->leave(r.tables[i]);
}
