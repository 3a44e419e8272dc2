/* Makes each of the calls on lines many times, for callgrind to count. */
#include "counting.h"
#include "line_calls.h"

enum { TIMES = 512 };

int main(void)
{
    write_lines();
    start_counting();
    for (size_t i = 0; i < LINE_CALLS; i++) {
        begin_piece();
        for (int times = 0; times < TIMES; times++)
            line_calls[i].call();
        end_piece(line_calls[i].name, TIMES);
    }
}
