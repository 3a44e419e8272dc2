/* Enters the claims of a cell in one run and tests the table, and enters all but the last and then that one alone, for callgrind to
 * count. */
#include "counting.h"
#include "ours.h"
#include "words.h"

#include <stdlib.h>

int main(int argc, char **argv)
{
    static struct cell cell;
    if (argc != 4)
        fail("usage: entering MEASURE D COORDINATES");
    make_named_cell(&cell, argv[1], argv[2], argv[3]);
    struct our_table *whole = empty_table(&cell), *most = empty_table(&cell);
    enter_more(most, &cell, cell.n - 1);
    start_counting();
    begin_piece();
    enter_more(whole, &cell, cell.n);
    end_piece("run", cell.n);
    begin_piece();
    test_soundness(whole);
    end_piece("test", cell.n);
    begin_piece();
    enter_more(most, &cell, 1);
    end_piece("alone", 1);
    free(whole);
    free(most);
}
