/*
 * References of runs of any length, up to several times what a table can hold: a single pair of equal ones, wherever they stand, is told
 * by 17, and none at all by 3. The same where the references make the library's index as slow as they can.
 */
#include "stores.h"
#include "tests.h"

enum { LONGEST = 20000, FULL = NEARBY_MOST_CLAIMS, HALF = FULL / 2 };

/* The run that is entered next: references, and claims on a line. */
static uint32_t given[LONGEST];
static int32_t line[LONGEST];

static uint8_t enter_given(store *s, size_t n)
{
    return try_enter(s, given, n, (points){ line, n }).refusal;
}

/* Names so many claims anew, as if they were to follow those of the table. */
static void name_given(const store *s, size_t n)
{
    for (size_t i = 0; i < n; i++)
        given[i] = reference_of(&s->table, s->table.count + i);
}

static store lend_line(seeded *from, size_t capacity)
{
    store s = lend_store(from, 1, capacity, 0);
    s.table = try_make((uint32_t)next_number(from), NEARBY_CITY_BLOCK, 1, capacity, &s).table;
    put_coordinates(from, ANYWHERE, line, LONGEST);
    return s;
}

/* 17 with some reference in place of the one at a position; the run is then as it was. */
static void check_repeat(store *s, size_t n, size_t at, uint32_t reference)
{
    uint32_t was = given[at];
    given[at] = reference;
    CHECK(enter_given(s, n) == 17);
    given[at] = was;
}

enum { MOST_POSITIONS = 9 };

/* Positions in a run of n: the ends, and those about 4,096 and 8,192. Gives how many there are. */
static size_t put_positions(size_t n, size_t *out)
{
    const size_t about[] = { 0, 4094, 4095, 4096, 4097, 8191, 8192, 8193 };
    size_t length = 0;
    while (length < LENGTH(about) && about[length] < n - 1) {
        out[length] = about[length];
        length++;
    }
    out[length] = n - 1;
    return length + 1;
}

/* Each two of these: some are neighbours, some 4,096 apart. Gives how many pairs there are. */
static size_t check_pairs(store *s, size_t n)
{
    size_t at[MOST_POSITIONS], length = put_positions(n, at);
    for (size_t k = 1; k < length; k++)
        for (size_t i = 0; i < k; i++)
            check_repeat(s, n, at[k], given[at[i]]);
    return length * (length - 1) / 2;
}

/* The reference of the first, the middle and the last of so many claims at each of these. */
static void check_known(store *s, size_t claims, size_t n)
{
    const uint32_t known[] = { s->references[0], s->references[claims / 2], s->references[claims - 1] };
    size_t at[MOST_POSITIONS], length = put_positions(n, at);
    for (size_t k = 0; k < length; k++)
        for (size_t i = 0; i < LENGTH(known); i++)
            check_repeat(s, n, at[k], known[i]);
}

/* Runs that are too long for a small table, first while it is empty and then with five claims. */
static void pairs_in_long_runs(void)
{
    const size_t lengths[] = { 9, 4095, 4096, 4097, 4098, 8192, 8193, 8194, 12289, LONGEST };
    seeded from = seed(121);
    store s = lend_line(&from, 8);
    for (size_t claims = 0; claims <= 5; claims += 5) {
        size_t pairs = 0;
        name_given(&s, claims);
        CHECK(enter_given(&s, claims) == 0 && s.table.count == claims);
        for (size_t i = 0; i < LENGTH(lengths); i++) {
            name_given(&s, lengths[i]);
            CHECK(enter_given(&s, lengths[i]) == 3);
            pairs += check_pairs(&s, lengths[i]);
            if (claims > 0)
                check_known(&s, claims, lengths[i]);
            CHECK(enter_given(&s, lengths[i]) == 3 && s.table.count == claims);
        }
        CHECK(pairs == 1 + 1 + 3 + 6 + 10 + 15 + 21 + 28 + 36 + 36);
    }
    free_store(&s);
}

/* A run of just the capacity into an empty table. */
static void whole_table_in_one_run(void)
{
    seeded from = seed(122);
    store s = lend_line(&from, FULL);
    name_given(&s, FULL + 1);
    CHECK(check_pairs(&s, FULL) == 3);
    CHECK(enter_given(&s, FULL + 1) == 3 && s.table.count == 0);
    CHECK(enter_given(&s, FULL) == 0 && s.table.count == FULL);
    CHECK(enter_given(&s, 1) == 17);
    name_given(&s, LONGEST);
    CHECK(enter_given(&s, 0) == 0 && enter_given(&s, 1) == 3 && enter_given(&s, 5000) == 3);
    check_known(&s, FULL, 1);
    check_known(&s, FULL, 5000);
    CHECK(s.table.count == FULL && try_test(&s) == 0);
    free_store(&s);
}

/* One half of a table, and then the other. */
static void half_into_half(void)
{
    seeded from = seed(123);
    store s = lend_line(&from, FULL);
    name_given(&s, HALF);
    CHECK(enter_given(&s, HALF) == 0 && s.table.count == HALF);
    CHECK(enter_given(&s, HALF) == 17);
    name_given(&s, HALF + 1);
    check_repeat(&s, HALF, HALF - 1, given[0]);
    check_repeat(&s, HALF, 0, s.references[HALF - 1]);
    check_known(&s, HALF, HALF);
    check_known(&s, HALF, HALF + 1);
    CHECK(enter_given(&s, HALF + 1) == 3 && s.table.count == HALF);
    CHECK(enter_given(&s, HALF) == 0 && s.table.count == FULL);
    free_store(&s);
}

/* ---- One bucket ---- */

enum { BUCKETS = 4096 };

/* Where the library's index keeps a reference: all that it has there are compared with a new one. */
static uint32_t bucket_of(uint32_t reference)
{
    return (uint32_t)(((uint64_t)reference * 2654435761u >> 20) % BUCKETS);
}

static void name_in_bucket(uint32_t bucket, size_t n)
{
    size_t at = 0;
    for (uint32_t reference = 0; at < n; reference++)
        if (bucket_of(reference) == bucket)
            given[at++] = reference;
}

/* A full table of one bucket, entered in halves. */
static void fill_from_bucket(seeded *from, uint32_t bucket)
{
    store s = lend_line(from, FULL);
    name_in_bucket(bucket, FULL + HALF);
    CHECK(enter_given(&s, HALF) == 0 && enter_given(&s, HALF) == 17);
    CHECK(enter_given(&s, HALF + 1) == 17 && s.table.count == HALF);
    /* The next ones of the bucket. */
    for (size_t i = 0; i < FULL; i++)
        given[i] = given[HALF + i];
    check_repeat(&s, HALF, HALF - 1, given[0]);
    check_repeat(&s, HALF, 0, s.references[0]);
    check_repeat(&s, HALF, HALF - 1, s.references[HALF - 1]);
    CHECK(enter_given(&s, HALF) == 0 && s.table.count == FULL);
    CHECK(enter_given(&s, 1) == 17);
    given[0] = given[FULL - 1];
    CHECK(enter_given(&s, 1) == 3);
    free_store(&s);
}

static void tables_from_one_bucket(void)
{
    seeded from = seed(124);
    fill_from_bucket(&from, 0);
    fill_from_bucket(&from, 2021);
    fill_from_bucket(&from, BUCKETS - 1);
}

/* Too many, with a pair and without one; then as many as there may be, in one run. */
static void long_runs_of_one_bucket(void)
{
    seeded from = seed(125);
    store s = lend_line(&from, FULL);
    name_in_bucket(17, LONGEST);
    CHECK(enter_given(&s, LONGEST) == 3);
    check_repeat(&s, LONGEST, LONGEST - 1, given[0]);
    check_repeat(&s, LONGEST, 12288, given[4095]);
    check_repeat(&s, FULL, FULL - 1, given[0]);
    CHECK(s.table.count == 0 && enter_given(&s, FULL) == 0 && s.table.count == FULL);
    free_store(&s);
}

/* References from 0 on, from the other end on, and with nothing in their lower half. */
static uint32_t counted(int way, uint32_t i)
{
    return way == 0 ? i : way == 1 ? UINT32_MAX - i : i << 16;
}

static void counted_references(void)
{
    seeded from = seed(126);
    for (int way = 0; way < 3; way++) {
        store s = lend_line(&from, FULL);
        for (uint32_t i = 0; i < LONGEST; i++)
            given[i] = counted(way, i);
        CHECK(enter_given(&s, LONGEST) == 3);
        check_repeat(&s, LONGEST, LONGEST - 1, given[0]);
        CHECK(enter_given(&s, FULL) == 0 && s.table.count == FULL);
        CHECK(enter_given(&s, 1) == 17);
        given[0] = given[FULL];
        CHECK(enter_given(&s, 1) == 3);
        free_store(&s);
    }
}

/* A run of one reference alone, as long as can be. */
static void all_alike(void)
{
    seeded from = seed(127);
    store s = lend_line(&from, FULL);
    for (size_t i = 0; i < LONGEST; i++)
        given[i] = UINT32_MAX;
    CHECK(enter_given(&s, 2) == 17 && enter_given(&s, FULL) == 17 && enter_given(&s, LONGEST) == 17);
    CHECK(enter_given(&s, 1) == 0 && enter_given(&s, 1) == 17 && s.table.count == 1);
    free_store(&s);
}

void long_run_tests(void)
{
    run_test("long runs: pairs wherever they stand", pairs_in_long_runs);
    run_test("long runs: 4,096 into an empty table", whole_table_in_one_run);
    run_test("long runs: 2,048 into 2,048", half_into_half);
    run_test("long runs: tables from one bucket", tables_from_one_bucket);
    run_test("long runs: 20,000 of one bucket", long_runs_of_one_bucket);
    run_test("long runs: references that were counted", counted_references);
    run_test("long runs: all alike", all_alike);
}
