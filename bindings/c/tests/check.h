/* Counting tests, seeded numbers, and memory that ends where readable memory ends. */
#ifndef CHECK_H
#define CHECK_H

#include <stdbool.h>
#include <stddef.h>
#include <stdint.h>

/* Runs a test and prints its name with `ok` or its first failures. */
void run_test(const char *name, void (*test)(void));

/* Prints `N passed, M failed` and gives the program's exit status. */
int finish_tests(void);

/* Notes a failure of the running test where a fact does not hold; gives the fact back. */
bool check_at(bool fact, const char *file, int line, const char *text);
#define CHECK(fact) check_at((fact), __FILE__, __LINE__, #fact)

/* A seeded generator: the same seed gives the same run. */
typedef struct {
    uint64_t state;
} seeded;

seeded seed(uint64_t number);
uint64_t next_number(seeded *from);
/* A number below n; n is not 0. */
uint64_t below(seeded *from, uint64_t n);
bool one_in(seeded *from, uint64_t n);

/* Memory of so many bytes, of zeros, behind which nothing can be read or written: one byte too far stops the program. */
void *brink(size_t bytes);
void brink_free(void *memory, size_t bytes);

#define LENGTH(array) (sizeof(array) / sizeof((array)[0]))

#endif
