/* The least stack on which each call survives: 4,096 claims in a line, which make the deepest tree, asked from the end that a walk goes
 * down to, and lines. A call runs in a child process on a stack of so many bytes with nothing below it; a child that dies had too little. */
#include "line_calls.h"
#include "office.h"
#include "ours.h"

#include <stdio.h>
#include <stdlib.h>
#include <string.h>
#include <sys/mman.h>
#include <sys/resource.h>
#include <sys/wait.h>
#include <ucontext.h>
#include <unistd.h>

/* Stacks are told apart by so many bytes, in the calls on tables and in those on lines. */
enum { MOST_STACK = 4 << 20, GUARD = 16 << 20, TABLE_STEP = 256, LINE_STEP = 16 };

static struct cell cell;
static struct our_table *table;
static struct answers given;

/* Two questions from a point of the line, and their ask lines. */
static void aim(int32_t x)
{
    for (size_t i = 0; i < 2; i++) {
        cell.probes[i * 2] = x;
        cell.probes[i * 2 + 1] = 0;
        cell.ask_length = write_ask(&cell, i, &cell.places[FIRST_PAGE][i * NEARBY_PLACE], &cell.asks[i * cell.ask_length]);
    }
}

/* ---- The calls ---- */

static void test(void)
{
    if (nearby_test_table(OUR_TABLE(table)) != 0)
        _exit(2);
}

static void enter(void)
{
    free(our_table(&cell));
}

static void nearest(void)
{
    if (nearby_nearest(OUR_TABLE(table), cell.probes, cell.d, UINT64_MAX).found != 1)
        _exit(2);
}

/* The farthest claim from the beginning of the line is the deepest. */
static void farthest(void)
{
    aim(0);
    if (nearby_farthest(OUR_TABLE(table), cell.probes, cell.d).found != 1)
        _exit(2);
}

static void page(void)
{
    nearby_start start = { 0, 0, 0, 0 };
    if (nearby_page(OUR_TABLE(table), NEARBY_NEAR, cell.probes, cell.d, UINT64_MAX, start, NEARBY_MOST_PAGE, given.items, ITEMS).count
        != NEARBY_MOST_PAGE)
        _exit(2);
}

static void answer(void)
{
    if (nearby_answer(OUR_TABLE(table), cell.asks, cell.ask_length, given.lines, sizeof given.lines).refusal != 0)
        _exit(2);
}

static void many_nearest(void) { ours.ask(table, &cell, NEAREST, 2, &given); }

static void many_farthest(void)
{
    aim(0);
    ours.ask(table, &cell, FARTHEST, 2, &given);
}

static void many_pages(void) { ours.ask(table, &cell, FIRST_PAGE, 2, &given); }
static void many_answers(void) { ours.ask(table, &cell, OFFICE, 2, &given); }

static const struct {
    const char *name;
    void (*call)(void);
} calls[] = {
    { "nearby_test_table", test },
    { "nearby_enter", enter },
    { "nearby_nearest", nearest },
    { "nearby_farthest", farthest },
    { "nearby_page", page },
    { "nearby_answer", answer },
    { "nearby_many_nearest", many_nearest },
    { "nearby_many_farthest", many_farthest },
    { "nearby_many_pages", many_pages },
    { "nearby_many_answers", many_answers },
};

/* ---- Stacks ---- */

/* The top of MOST_STACK bytes of stack. */
static char *stack_top;

/* The guard is wider than any frame, so that a frame cannot step over it. */
static void make_stack(void)
{
    char *all = mmap(NULL, GUARD + MOST_STACK, PROT_READ | PROT_WRITE, MAP_PRIVATE | MAP_ANONYMOUS | MAP_NORESERVE, -1, 0);
    if (all == MAP_FAILED || mprotect(all, GUARD, PROT_NONE) != 0)
        fail("no memory for a stack");
    stack_top = all + GUARD + MOST_STACK;
}

/* Whether a call survives on so many bytes. The child's stack ends at the guard; what is not wanted of it stands above the call. */
static int survives(void (*call)(void), size_t bytes)
{
    pid_t child = fork();
    if (child < 0)
        fail("cannot start a process");
    if (child == 0) {
        ucontext_t caller, callee;
        const struct rlimit none = { 0, 0 };
        setrlimit(RLIMIT_CORE, &none);
        getcontext(&callee);
        callee.uc_stack.ss_sp = stack_top - MOST_STACK;
        callee.uc_stack.ss_size = bytes;
        callee.uc_link = &caller;
        makecontext(&callee, call, 0);
        swapcontext(&caller, &callee);
        _exit(0);
    }
    int status;
    waitpid(child, &status, 0);
    if (WIFEXITED(status) && WEXITSTATUS(status) != 0)
        fail("a call gave a wrong answer");
    return WIFEXITED(status);
}

static size_t least_stack(void (*call)(void), size_t step)
{
    size_t dies = 0, lives = MOST_STACK;
    if (!survives(call, lives))
        fail("a call does not survive %d bytes of stack", MOST_STACK);
    while (lives - dies > step) {
        size_t middle = (dies + lives) / 2 / step * step;
        if (survives(call, middle))
            lives = middle;
        else
            dies = middle;
    }
    return lives;
}

/* Claims in a line make a chain, two claims to a level: each is nearer to the one before it than to all others. */
static void enter_line(size_t n)
{
    make_cell(&cell, n, 2, NEARBY_CITY_BLOCK, UNIFORM);
    for (size_t k = 0; k < n; k++) {
        cell.coordinates[k * 2] = (int32_t)k;
        cell.coordinates[k * 2 + 1] = 0;
    }
    aim((int32_t)n);
    table = our_table(&cell);
}

/* What a level costs is told by two depths, at both of which the walk needs more than the soundness test. */
static void measure_tables(void)
{
    enum { CALLS = sizeof calls / sizeof *calls, LEVELS = NEARBY_MOST_CLAIMS / 2 };
    size_t less[CALLS], whole[CALLS];
    enter_line(NEARBY_MOST_CLAIMS / 4 * 3);
    for (size_t i = 0; i < CALLS; i++)
        less[i] = least_stack(calls[i].call, TABLE_STEP);
    enter_line(NEARBY_MOST_CLAIMS);
    for (size_t i = 0; i < CALLS; i++)
        whole[i] = least_stack(calls[i].call, TABLE_STEP);
    printf("%d claims in a line, %d levels\n", NEARBY_MOST_CLAIMS, LEVELS);
    printf("%-22s %10s %22s\n", "call", "stack KiB", "bytes for each level");
    for (size_t i = 0; i < CALLS; i++)
        printf("%-22s %10.1f %22.1f\n", calls[i].name, (double)whole[i] / 1024,
               ((double)whole[i] - (double)less[i]) / (LEVELS / 4));
}

/* The caller's own room for what a call gives is in these. */
static void measure_lines(void)
{
    write_lines();
    printf("\ncalls on lines, with an answer of %d items\n", NEARBY_MOST_PAGE);
    printf("%-24s %11s\n", "call", "stack bytes");
    for (size_t i = 0; i < LINE_CALLS; i++)
        printf("%-24s %11zu\n", line_calls[i].name, least_stack(line_calls[i].call, LINE_STEP));
}

int main(void)
{
    make_stack();
    measure_tables();
    measure_lines();
}
