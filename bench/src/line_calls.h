/* The calls on lines that need no table: the bare readers, and a list that takes a page. */
#ifndef BENCH_LINE_CALLS_H
#define BENCH_LINE_CALLS_H

enum { LINE_CALLS = 4 };

struct line_call {
    const char *name;
    /* Makes the call once; a wrong answer ends the process with status 2. */
    void (*call)(void);
};

extern const struct line_call line_calls[LINE_CALLS];

/* Writes the lines that the calls read, before the first of them: in the plane, an ask, an answer of 16 items and a claim. */
void write_lines(void);

#endif
