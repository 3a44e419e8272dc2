/*
 * The nearby-claims cursor for C and C++.
 *
 * The archive libnearby_c.a has these calls; `./build archive` writes it to target/staticlib. It needs nothing but memcpy
 * and memset.
 *
 * Numbers in brackets are rules of docs/RULES.md.
 *
 * Memory [9.20]. All memory is the caller's. A slice is a pointer and, as the next argument, its length in elements; null goes
 * with length 0. No call keeps a pointer, and none allocates. What a call may write must not overlap what else it is lent.
 *
 * Refusals [9.1] [9.2]. Every call checks its own input. What breaks a rule is refused under a number of NEARBY_REFUSALS, and the
 * call then leaves all that it was lent as it was. Each call names its numbers in the order in which they are tested; the first
 * that applies is given. 0 is no refusal [9.19]. nearby_refusal_meaning says what a number means.
 *
 * Threads. Calls share no state. Any number of threads may call with the same memory while nobody writes it; a call that writes
 * lent memory (nearby_enter, nearby_take, output rooms) needs that memory alone.
 *
 * Stack [9.22]. A call on a table has some 200 KiB of its own on the stack. A question also walks the tree, which is at most 2,048
 * nodes deep (claims in a line): NEARBY_STACK bytes are enough for every call.
 */
#ifndef NEARBY_H
#define NEARBY_H

#include <stddef.h>
#include <stdint.h>

#ifdef __cplusplus
extern "C" {
#endif

/* [5.11] Characters of the longest ask, answer and claim line, each with its 0A. */
#define NEARBY_ASK_LINE 123
#define NEARBY_ANSWER_LINE 573
#define NEARBY_CLAIM_LINE 87

/* [3.2] Numbers in a node: a table of capacity c is lent c * NEARBY_NODE of them. */
#define NEARBY_NODE 6
/* [2.6] Numbers in an item: its claim's number, its reference, its distance from the probe. */
#define NEARBY_ITEM 3
/* [4.18] Numbers that nearby_many_pages takes for each page: an order and a place. */
#define NEARBY_PLACE 5
/* [1.3] [3.1] [4.3] The largest d, capacity and page size. */
#define NEARBY_MOST_COORDINATES 8
#define NEARBY_MOST_CLAIMS 4096
#define NEARBY_MOST_PAGE 16
/* [9.22] Bytes of stack that are enough for every call. */
#define NEARBY_STACK 1048576

/* [1.6] [1.7] [1.8] The measures: how far the coordinates differ, added up; the one that differs most; how many differ at all. */
#define NEARBY_CITY_BLOCK 1
#define NEARBY_MAXIMUM 2
#define NEARBY_HAMMING 3

/* [2.1] [2.2] [2.3] The orders, as a flag: the nearest claim first, or the farthest; of claims as far the smaller number first. The
 * reach bounds both from above. From the caller anything but 0 is far; to the caller an order is 0 or 1. */
#define NEARBY_NEAR 0
#define NEARBY_FAR 1

/* ---- Tables ---- */

/* [3.1] The header of a table: its number, measure, d, capacity, how many claims it has, and how many nodes are in use.
 * Only nearby_make_table and nearby_enter make one; it belongs to the memory that it was made with. */
typedef struct {
    uint32_t number;
    uint8_t measure;
    size_t d, capacity, count, used;
} nearby_table;

/* A table after making or entering; all 0 beside a refusal. */
typedef struct {
    uint8_t refusal;
    nearby_table table;
} nearby_tabled;

/* What nearest and farthest found: `found` is 1 beside an item, and 0 beside zeros where there is none or a refusal. */
typedef struct {
    uint8_t refusal;
    uint8_t found;
    uint64_t number, reference, distance;
} nearby_item;

/* [4.4] [4.5] Where a page starts: at the start where `from` is 0 (the rest is ignored), and otherwise after the mark, distance
 * and number of the last claim shown, among the first `snapshot` claims. */
typedef struct {
    uint8_t from;
    uint64_t snapshot, distance, number;
} nearby_start;

/* [4.7] How many items stand at the front of the room; `last` is 1 where no claim follows them, and otherwise 0. */
typedef struct {
    uint8_t refusal;
    uint8_t last;
    size_t count;
} nearby_filled;

/* The length of the line at the front of the output room, its 0A counted; 0 beside a refusal. */
typedef struct {
    uint8_t refusal;
    size_t length;
} nearby_written;

/* [9.4] Makes an empty table over lent memory, which may hold anything and is not touched: at least `capacity` references,
 * `capacity * d` coordinates and `capacity * NEARBY_NODE` numbers of nodes. Refusal 1. */
nearby_tabled nearby_make_table(uint32_t number, uint8_t measure, size_t d, size_t capacity,
                                const uint32_t *references, size_t references_length,
                                const int32_t *coordinates, size_t coordinates_length,
                                const uint64_t *nodes, size_t nodes_length);

/* [9.5] Tests a table as every call on a table does: 0 where it is sound, otherwise 1 or 2. It costs as much as building it.
 * References play no part in it: a table whose memory holds one twice is sound [3.17]. */
uint8_t nearby_test_table(nearby_table table,
                          const uint32_t *references, size_t references_length,
                          const int32_t *coordinates, size_t coordinates_length,
                          const uint64_t *nodes, size_t nodes_length);

/* [9.6] [3.15] Enters all claims of a run, or none: a reference in `given` and d coordinates in `points` for each. It gives the
 * header that counts from now on. Each reference has to be new [3.17]: 17 is given where a claim of the table has it already, or
 * where it stands twice in the run, be the run too long for the table or not. So a claim that two tablets send is entered once; the
 * second is told 17, and the table has the claim. What unused memory holds is no reference in force. Refusals 1, 2, 5, 17, 3. */
nearby_tabled nearby_enter(nearby_table table,
                           uint32_t *references, size_t references_length,
                           int32_t *coordinates, size_t coordinates_length,
                           uint64_t *nodes, size_t nodes_length,
                           const uint32_t *given, size_t given_length,
                           const int32_t *points, size_t points_length);

/* [9.7] [4.1] The nearest claim within reach (one just at the reach too), the smallest number among equals. Refusals 1, 2, 5. */
nearby_item nearby_nearest(nearby_table table,
                           const uint32_t *references, size_t references_length,
                           const int32_t *coordinates, size_t coordinates_length,
                           const uint64_t *nodes, size_t nodes_length,
                           const int32_t *probe, size_t probe_length, uint64_t reach);

/* [9.7] [4.2] The farthest claim, the smallest number among equals. Refusals 1, 2, 5. */
nearby_item nearby_farthest(nearby_table table,
                            const uint32_t *references, size_t references_length,
                            const int32_t *coordinates, size_t coordinates_length,
                            const uint64_t *nodes, size_t nodes_length,
                            const int32_t *probe, size_t probe_length);

/* [9.8] [4.6] The first `size` claims within reach from a start on, in an order, as items at the front of a room of at least
 * `size * NEARBY_ITEM` numbers; what stands behind them is kept. Refusals 1, 2, 5, 6, 7, 8, 12. */
nearby_filled nearby_page(nearby_table table,
                          const uint32_t *references, size_t references_length,
                          const int32_t *coordinates, size_t coordinates_length,
                          const uint64_t *nodes, size_t nodes_length,
                          uint8_t order, const int32_t *probe, size_t probe_length, uint64_t reach,
                          nearby_start start, size_t size,
                          uint64_t *room, size_t room_length);

/* [9.10] The office: the answer line to an ask line, in the order that the ask's kind says, at the front of `out`, which has at
 * least NEARBY_ANSWER_LINE characters. Refusals 12, 1, 2, 9, 10, 11, 7, 8. */
nearby_written nearby_answer(nearby_table table,
                             const uint32_t *references, size_t references_length,
                             const int32_t *coordinates, size_t coordinates_length,
                             const uint64_t *nodes, size_t nodes_length,
                             const uint8_t *line, size_t line_length,
                             uint8_t *out, size_t out_length);

/* ---- Many questions at once ----
 * Each call above tests its table, which costs as much as building it. These test it once and then answer many. A refusal of
 * the whole call comes first, and nothing is written then. */

/* [6.7] What nearby_many_answers did: lines answered or refused, characters of the asks used, characters of the output written. */
typedef struct {
    uint8_t refusal;
    size_t lines, used, written;
} nearby_answered;

/* [9.16] [4.17] nearby_nearest for each reach, with d coordinates of `probes` for each. Row i of `out` has 4 numbers: found (0 or
 * 1), number, reference, distance. Refusals 1, 2; 5 where the probes are not d for each reach; 12 where `out` has under 4 numbers
 * for each. */
uint8_t nearby_many_nearest(nearby_table table,
                            const uint32_t *references, size_t references_length,
                            const int32_t *coordinates, size_t coordinates_length,
                            const uint64_t *nodes, size_t nodes_length,
                            const int32_t *probes, size_t probes_length,
                            const uint64_t *reaches, size_t reaches_length,
                            uint64_t *out, size_t out_length);

/* [9.16] nearby_farthest for each of n probes, with rows as nearby_many_nearest has them. Refusals 1, 2; 5 where the probes are
 * not d for each; 12 where `out` has under 4 numbers for each. */
uint8_t nearby_many_farthest(nearby_table table,
                             const uint32_t *references, size_t references_length,
                             const int32_t *coordinates, size_t coordinates_length,
                             const uint64_t *nodes, size_t nodes_length,
                             const int32_t *probes, size_t probes_length, size_t n,
                             uint64_t *out, size_t out_length);

/* [9.17] [4.18] [4.19] nearby_page for each reach, with d coordinates of `probes` and NEARBY_PLACE numbers of `places` for each:
 * order (0 is near), from (0 is the start), snapshot, distance, number. Row i of `outcomes` has 3 numbers: refusal (0, 7 or 8),
 * count, last (1 where no claim follows). Row i of `items` has size * NEARBY_ITEM numbers, filled from the front; the rest of the
 * row is kept. Refusals 1, 2; 5 where the probes are not d or the places not NEARBY_PLACE for each reach; 6; 12 where `outcomes`
 * has under 3 numbers or `items` under size * NEARBY_ITEM for each. */
uint8_t nearby_many_pages(nearby_table table,
                          const uint32_t *references, size_t references_length,
                          const int32_t *coordinates, size_t coordinates_length,
                          const uint64_t *nodes, size_t nodes_length,
                          const int32_t *probes, size_t probes_length,
                          const uint64_t *reaches, size_t reaches_length,
                          const uint64_t *places, size_t places_length, size_t size,
                          uint64_t *outcomes, size_t outcomes_length,
                          uint64_t *items, size_t items_length);

/* [9.18] [6.5] nearby_answer for ask lines that stand one after another, of either order, each with its 0A; a last one without it
 * is a line too, refused with 9. It goes on while a character is left, `outcomes` has room for 2 numbers more and `out` has
 * NEARBY_ANSWER_LINE characters left. Row i of `outcomes` has 2 numbers: refusal, and length of the answer line; answer lines stand
 * one after another at the front of `out`. Call again with what was not used. Refusals 12 (under NEARBY_ANSWER_LINE characters), 1,
 * 2. */
nearby_answered nearby_many_answers(nearby_table table,
                                    const uint32_t *references, size_t references_length,
                                    const int32_t *coordinates, size_t coordinates_length,
                                    const uint64_t *nodes, size_t nodes_length,
                                    const uint8_t *asks, size_t asks_length,
                                    uint64_t *outcomes, size_t outcomes_length,
                                    uint8_t *out, size_t out_length);

/* ---- Lists ---- */

/* [7.1] [9.19] A tablet's list: what it was opened with, the snapshot that its first answer fixed, and how many items it has. The
 * items stand at the front of a room of the caller's, NEARBY_ITEM numbers for each. A flag from the caller is off when it is 0 and
 * on otherwise; a flag to the caller is 0 or 1. Unused slots of the probe are 0. */
typedef struct {
    uint32_t table;
    uint8_t order;
    uint8_t measure;
    uint8_t started;
    uint8_t complete;
    size_t d;
    int32_t probe[NEARBY_MOST_COORDINATES];
    uint64_t reach;
    uint64_t snapshot;
    size_t count;
} nearby_list;

/* A list after opening or taking. Beside a refused opening it is all 0; beside a refused taking it is the list as it came, but a
 * flag that was over 1 is 1. */
typedef struct {
    uint8_t refusal;
    nearby_list list;
} nearby_listed;

/* [9.11] Opens a list on a table, in an order, for a probe of d coordinates and a reach. Refusals 1, 5. */
nearby_listed nearby_open_list(uint8_t order, uint32_t table, uint8_t measure, size_t d,
                               const int32_t *probe, size_t probe_length, uint64_t reach);

/* [9.12] Writes the list's present ask, of its order's kind, for a page of `size` claims to the front of `out`, which has at least
 * NEARBY_ASK_LINE characters. Refusals 2, 16, 6, 12. */
nearby_written nearby_write_ask(nearby_list list, const uint64_t *room, size_t room_length, size_t size,
                                uint8_t *out, size_t out_length);

/* [9.13] [7.7] Takes an answer line: its items are put behind those in the room, and a last page, which no claim follows, completes
 * the list. A line that is late, repeated or another list's is refused with 13, or with 10 where that list has the other order, and
 * that is no fault. After 15, move the items to a longer room and take the line again. Refusals 2, 9, 10, 16, 13, 14, 15. */
nearby_listed nearby_take(nearby_list list, uint64_t *room, size_t room_length,
                          const uint8_t *line, size_t line_length);

/* ---- Bare lines ----
 * [5.5] [5.6] An ask is a line of kind 01 in near order and of kind 04 in far order, an answer of kind 02 and of kind 05. */

/* [5.8] [5.10] What an ask and an answer have behind the probe. `from` is 0 (at the start) or 1 (after the mark, which is distance
 * and number); with 0 the mark is 0, and so is the snapshot of an ask. */
typedef struct {
    uint64_t reach;
    uint8_t from;
    uint16_t snapshot;
    uint64_t distance;
    uint16_t number;
} nearby_scope;

/* [5.5] The fields of an ask line. Unused slots of a probe are 0, here as below. */
typedef struct {
    uint32_t table;
    uint8_t order;
    uint8_t measure;
    uint8_t d;
    int32_t probe[NEARBY_MOST_COORDINATES];
    nearby_scope scope;
    uint8_t size;
} nearby_ask;

/* [5.6] The fields of an answer line: `count` items of NEARBY_ITEM numbers each; unused slots are 0. `last` is 1 where no claim
 * follows them, and otherwise 0. */
typedef struct {
    uint32_t table;
    uint8_t order;
    uint8_t measure;
    uint8_t d;
    int32_t probe[NEARBY_MOST_COORDINATES];
    nearby_scope scope;
    uint8_t last;
    uint8_t count;
    uint64_t items[NEARBY_MOST_PAGE * NEARBY_ITEM];
} nearby_answer_fields;

/* [5.7] The fields of a claim line. */
typedef struct {
    uint32_t table;
    uint8_t measure;
    uint8_t d;
    uint32_t reference;
    int32_t coordinates[NEARBY_MOST_COORDINATES];
} nearby_claim;

/* [5.14] What a reader gives: refusal 0 beside the fields, or 9 or 10 beside zeros. */
typedef struct {
    uint8_t refusal;
    nearby_ask ask;
} nearby_ask_read;

typedef struct {
    uint8_t refusal;
    nearby_answer_fields answer;
} nearby_answer_read;

typedef struct {
    uint8_t refusal;
    nearby_claim claim;
} nearby_claim_read;

/* [9.14] Writes an ask line of an order's kind to the front of `out`, which has at least NEARBY_ASK_LINE characters; the probe has
 * d coordinates. Refusals 10, 12. */
nearby_written nearby_write_ask_line(uint8_t order, uint32_t table, uint8_t measure, uint8_t d,
                                     const int32_t *probe, size_t probe_length,
                                     nearby_scope scope, uint8_t size,
                                     uint8_t *out, size_t out_length);

/* [9.14] Writes an answer line of an order's kind to the front of `out`, which has at least NEARBY_ANSWER_LINE characters; the
 * probe has d coordinates, and `items` has NEARBY_ITEM numbers for each of `count`, references under 2^32. Refusals 10, 12. */
nearby_written nearby_write_answer_line(uint8_t order, uint32_t table, uint8_t measure, uint8_t d,
                                        const int32_t *probe, size_t probe_length,
                                        nearby_scope scope, uint8_t last, uint8_t count,
                                        const uint64_t *items, size_t items_length,
                                        uint8_t *out, size_t out_length);

/* [9.14] Writes a claim line to the front of `out`, which has at least NEARBY_CLAIM_LINE characters; there are d coordinates.
 * Refusals 10, 12. */
nearby_written nearby_write_claim_line(uint32_t table, uint8_t measure, uint8_t d, uint32_t reference,
                                       const int32_t *coordinates, size_t coordinates_length,
                                       uint8_t *out, size_t out_length);

/* [9.15] [5.13] Reads one ask, answer or claim line, with its 0A: just what its writer can write is accepted. The fields of an ask
 * and of an answer tell the order. Refusals 9, 10. */
nearby_ask_read nearby_read_ask_line(const uint8_t *line, size_t line_length);
nearby_answer_read nearby_read_answer_line(const uint8_t *line, size_t line_length);
nearby_claim_read nearby_read_claim_line(const uint8_t *line, size_t line_length);

/* ---- Refusals ---- */

/* The refusals: row(number, meaning) for each, in rising order. A number without a row is given by no call. Rule 8.N says when N
 * is given, and docs/refusals what to do about it. 4 is retired [8.4]: no later refusal will have it. */
#define NEARBY_REFUSALS(row) \
    row(1, "measure, d or capacity is not in its range, or a slice is too short for them") \
    row(2, "the table is not sound, or the list is not") \
    row(3, "the run has more claims than the capacity leaves free") \
    row(5, "not d coordinates in a probe or for each claim of a run, or not five numbers for each place") \
    row(6, "a page size that is not 1 to 16") \
    row(7, "a snapshot of more claims than there are") \
    row(8, "a mark that no claim of the snapshot has within the reach") \
    row(9, "not pairs of digits, one at least, with 0A behind them, or more than 573 characters") \
    row(10, "another kind of line, or a length or a field that this kind cannot have") \
    row(11, "the line is for another table") \
    row(12, "the output room is too short") \
    row(13, "the answer is not to the list's present ask") \
    row(14, "the answer's page does not hold") \
    row(15, "the page does not fit what is left of the list's room") \
    row(16, "the list is complete already") \
    row(17, "a reference that a claim of the table has already, or that stands twice in the run")

/* What a refusal's number means. */
static inline const char *nearby_refusal_meaning(uint8_t refusal)
{
#define NEARBY_MEANS(number, meaning) case number: return meaning;
    switch (refusal) {
    case 0: return "no refusal";
    NEARBY_REFUSALS(NEARBY_MEANS)
    default: return "no such refusal";
    }
#undef NEARBY_MEANS
}

#ifdef __cplusplus
}
#endif

#endif
