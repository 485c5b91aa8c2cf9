/* Vempaldi: plans for a run of parallel loops made into one (shift-and-peel).
 *
 * Every function but vempaldi_version takes a loop table as its bytes. None needs set-up, none keeps anything between calls, none allocates, and every
 * call ends. Whatever the bytes and numbers are, a call either does its work or is refused with one number.
 *
 * What holds of every function that takes a table:
 * - `answer` is written by every call, all four numbers. See the table of grounds below.
 * - A refused call leaves everything else that it was lent as found: output, memory, counts and report.
 * - An accepted call leaves the bytes of `out` past those that it wrote as found. Tables and orders are only read.
 * - The result of a function with an output is the count of bytes written, 0 where it is refused.
 * - Numbers in an output are unsigned, four bytes each, little-endian.
 * - What is lent to one call must not overlap: the answer, the output, the memory, the counts, the report and the inputs are separate.
 * - A pointer may be anything where its length is 0.
 * - Calls in different threads need no lock if they share nothing that either of them writes.
 * - What is proved of a memory is up to the bits of a NaN, for the proofs know one NaN alone. Of elements that hold a NaN, 'as found' above
 *   and 'bit for bit' below rest on tests, and so does 7FF8000000000000.
 */
#ifndef VEMPALDI_H
#define VEMPALDI_H

#include <stddef.h>
#include <stdint.h>

#ifdef __cplusplus
extern "C" {
#endif

/* The version of this header; vempaldi_version() is that of the library linked. While the first number is 0, a new second number may
 * change what callers see (CHANGELOG.md says what). */
#define VEMPALDI_VERSION_MAJOR 0
#define VEMPALDI_VERSION_MINOR 5
#define VEMPALDI_VERSION_PATCH 0
#define VEMPALDI_VERSION 500 /* the three numbers as one: MAJOR * 10000 + MINOR * 100 + PATCH */

/* The grounds of refusal. An answer is four numbers: answer[0] the ground's number, answer[1] its place, answer[2] and answer[3] what the
 * refusal names. An accepted call answers 0, 0, 0, 0.
 *
 *  number  word        ground                                                                        place    names
 *    1     torn        the bytes end inside a record or before the end record                        byte     0, 0
 *    2     kind        a kind is unknown or out of its order, or no array or loop before the end     byte     0, 0
 *    3     field       a field is outside its range, or first is above last                          byte     0, 0
 *    4     crowd       one array, loop, statement, item or element too many                          byte(*)  0, 0
 *    5     array       there is no array of that number                                              byte     0, 0
 *    6     body        too few waiting numbers, a ninth, or not one left                             byte     0, 0
 *    7     edge        some iteration reaches outside the array                                      byte     0, 0
 *    8     tail        bytes follow the end record                                                   byte     0, 0
 *    9     serial      two different iterations of one loop meet at an element, one storing          loop     lower, higher
 *   10     processors  P is outside 1 to 64, or a processor's number is not below P                  0        0, 0
 *   11     short       fewer lines than processors, or P >= 2 and some block below the threshold     0        0, 0
 *   12     memory      the memory's length is not the table's element total                          0        0, 0
 *   13     buffer      the output does not fit the lent bytes                                        0        0, 0
 *   14     unlike      the joined tables differ in arrays                                            0        0, 0
 *   15     state       a count above its lists, a peeled step before the barrier, or a count above 0
 *                      for a processor not below P                                                   0        0, 0
 *   17     line        a line's length W is outside 1 to 64                                          0        0, 0
 *   19     plan        a plan by hand has not 8 bytes for each loop, or a number above 10,000        0        0, 0
 *   20     unmet       a plan by hand does not meet some dependence                                  earlier  later, 0
 *
 * No call gives 16 or 18.
 * 'byte' is the place of the record's kind byte, counted from 0 (the table's length if that byte is absent); for 8 it is the first
 * byte too many. (*) In joining, 4 for more than 16 loops in all has place 0; 4 of one of its tables has that table's byte.
 * 6 for a body that does not leave one number has the byte of the record behind that body: a further statement, a loop or the end.
 * 'loop' is the lowest loop of which two iterations meet, and 'lower' and 'higher' are two references of it, at least one of them a
 * destination, that are at one element in two different iterations. A loop's references are its destinations and its reads, numbered from
 * 0 in byte order, so the loop record's own destination is 0. Of all such pairs it is the one whose lower number is least, and with that
 * whose higher number is least: the answer to a table is always the same. In a loop with one statement the lower one is always 0.
 * 'earlier' and 'later' are a pair of loops with a dependence from the one to the other that the plan does not meet: the lowest earlier
 * loop of such pairs, and with it the lowest later one.
 * Where several grounds hold, the first record decides, then the order 8, 9, 19, 20, 10, 17, 11, 12, 15, 13; in joining left's 1 to 9, then
 * right's, then 14, 4 (more than 16 loops in all), 13. */
enum vempaldi_ground {
    VEMPALDI_ACCEPTED = 0,
    VEMPALDI_TORN = 1,
    VEMPALDI_KIND = 2,
    VEMPALDI_FIELD = 3,
    VEMPALDI_CROWD = 4,
    VEMPALDI_ARRAY = 5,
    VEMPALDI_BODY = 6,
    VEMPALDI_EDGE = 7,
    VEMPALDI_TAIL = 8,
    VEMPALDI_SERIAL = 9,
    VEMPALDI_PROCESSORS = 10,
    VEMPALDI_SHORT = 11,
    VEMPALDI_MEMORY = 12,
    VEMPALDI_BUFFER = 13,
    VEMPALDI_UNLIKE = 14,
    VEMPALDI_STATE = 15,
    VEMPALDI_LINE = 17,
    VEMPALDI_PLAN = 19,
    VEMPALDI_UNMET = 20
};

/* The words of the grounds, by number; there is none for 16 and 18. */
#define VEMPALDI_WORDS                                                                                                                   \
    { "accepted", "torn", "kind", "field", "crowd", "array", "body", "edge", "tail", "serial", "processors", "short", "memory", "buffer", \
      "unlike", "state", "", "line", "", "plan", "unmet" }

/* How many bytes follow a record's kind byte, by kind: array, loop, read, constant, operation, end, statement. There is no kind 0. */
#define VEMPALDI_BODY_LENGTHS { 0, 4, 11, 3, 4, 1, 0, 3 }

/* Sizes that always suffice. */
enum vempaldi_size {
    VEMPALDI_MOST_PROCESSORS = 64,
    VEMPALDI_LONGEST_LINE = 64,
    VEMPALDI_MOST_AMOUNT = 10000,   /* no shift and no peel of a plan by hand is above it */
    VEMPALDI_TABLE_BYTES = 2353,    /* the longest accepted table, so also of a joined one */
    VEMPALDI_DECIDING_BYTES = 2364, /* no byte past these changes an answer: reading so many of a file is enough */
    VEMPALDI_FACTS_BYTES = 268,     /* facts of 16 arrays and 16 loops */
    VEMPALDI_AMOUNT_BYTES = 128,    /* shifts and peels of 16 loops, so also of a plan by hand */
    VEMPALDI_RANGE_BYTES = 128,     /* a processor's ranges in 16 loops */
    VEMPALDI_BLOCK_BYTES = 512,     /* first and last index of 64 blocks */
    VEMPALDI_LISTING_BYTES = 50000  /* no listing has more */
};

/* What settles a table's lists beside the table itself. Every call that plans takes it, and all calls of a row of steps take the same. Make it
 * with vempaldi_for and set what else is wanted: a later version may add members (numbers, and arrays of a fixed size with a count of what is
 * used of them, no pointers), which are 0 there and then change nothing. */
struct vempaldi_settings {
    uint32_t processors; /* P, how many processors there are: 1 to 64, else 10 */
    uint32_t line;       /* W, how many iterations a line has, counted from the least first of all loops: 1 to 64, else 17. Where an
                          * iteration stores 8 bytes in an array and a cache line has 64, it is 8. Blocks begin on whole lines */
    uint32_t by_hand;     /* 0: shifts and peels are those of vempaldi_shifts_and_peels. Any other number: those in `plan` */
    uint32_t plan_length; /* how many bytes the plan by hand has: 8 for each loop of the table, else 19 */
    uint8_t plan[VEMPALDI_AMOUNT_BYTES]; /* for each loop in table order its shift and its peel, as vempaldi_shifts_and_peels writes them.
                          * Bytes past plan_length are not looked at; without by_hand neither is looked at */
};

/* For `processors` processors, lines of one iteration, and nothing else. */
static inline struct vempaldi_settings vempaldi_for(uint32_t processors) {
    struct vempaldi_settings settings = { processors, 1, 0, 0, { 0 } };
    return settings;
}

/* The same settings with a plan by hand, of `length` bytes, which are copied. A plan with more bytes than 16 loops need is 19 by its length. */
static inline struct vempaldi_settings vempaldi_with_plan(struct vempaldi_settings settings, const uint8_t *plan, size_t length) {
    size_t i;
    settings.by_hand = 1;
    settings.plan_length = length < UINT32_MAX ? (uint32_t)length : UINT32_MAX;
    for (i = 0; i < VEMPALDI_AMOUNT_BYTES; i++)
        settings.plan[i] = i < length ? plan[i] : 0;
    return settings;
}

/* The first number of a step's report. */
enum vempaldi_report {
    VEMPALDI_NO_REPORT = 0, /* never written: what is zeroed before a call and still 0 after it was refused */
    VEMPALDI_ITERATION = 1, /* an iteration was performed: report[1] is its loop, report[2] its index */
    VEMPALDI_WAITING = 2,   /* the processor's fused list is used up, another's is not */
    VEMPALDI_FINISHED = 3   /* both lists are used up and the barrier is open */
};

/* The version of the library, as VEMPALDI_VERSION gives that of the header. */
uint32_t vempaldi_version(void);

/* Whether a table is accepted.
 * Writes the answer alone. Refuses with 1 to 9. */
void vempaldi_check(const uint8_t *table, size_t table_length, uint64_t answer[4]);

/* Joins two tables over the same arrays.
 * Writes left's arrays, left's loops, right's loops and one end record.
 * Refuses with 1 to 9 of the left table, 1 to 9 of the right one, 14, 4 (more than 16 loops in all, place 0), 13. A place counts in
 * the table that meets the ground; the answer does not say which of the two that is (ask vempaldi_check). */
uint64_t vempaldi_join(const uint8_t *left, size_t left_length, const uint8_t *right, size_t right_length,
                       uint8_t *out, size_t out_length, uint64_t answer[4]);

/* Facts of a table, so that nobody needs to decode it.
 * Writes how many arrays, how many loops and how many elements in all; then for each array, in table order, its first element in the
 * memory and its length; then for each loop its first and its last index: 12 bytes, and 8 an array and a loop. Refuses with 1 to 9, 13. */
uint64_t vempaldi_facts(const uint8_t *table, size_t table_length, uint8_t *out, size_t out_length, uint64_t answer[4]);

/* Shift and peel of each loop.
 * Writes for each loop, in table order, its shift and its peel: 8 bytes a loop. Refuses with 1 to 9, 13.
 * Two references to one array, one of them storing, count only where some iterations of their two loops meet there (docs/TABLE.md,
 * 'Dependences, shifts and peels'). So the numbers hold for the bounds in this table: for loops with other bounds, ask again. */
uint64_t vempaldi_shifts_and_peels(const uint8_t *table, size_t table_length,
                                   uint8_t *out, size_t out_length, uint64_t answer[4]);

/* The largest sum of shift and peel of one loop: with two processors or more, no block may have fewer indices.
 * Writes one number, 4 bytes. Refuses with 1 to 9, 13. */
uint64_t vempaldi_threshold(const uint8_t *table, size_t table_length, uint8_t *out, size_t out_length, uint64_t answer[4]);

/* Whether a plan is accepted: the one by hand that the settings have, or else that of the table's own shifts and peels.
 * Writes the answer alone. The result is the plan's threshold, the largest sum of its shift and peel of one loop; 0 where it is refused.
 * A plan by hand is accepted where it has a shift and a peel of at most 10,000 for each loop (else 19), where it meets every dependence
 * (else 20): the later loop's shift is at least the earlier's plus the backward amount, and its peel at least the earlier's plus the
 * forward amount; and where 10, 17 and 11, the last by its own threshold, don't refuse it. Refuses with 1 to 9, 19, 20, 10, 17, 11. */
uint64_t vempaldi_check_plan(const uint8_t *table, size_t table_length, struct vempaldi_settings settings, uint64_t answer[4]);

/* Sweeps over the arrays: loop by loop, and with all loops made into one.
 * Writes two numbers, before and after fusion, 8 bytes. Refuses with 1 to 9, 13. */
uint64_t vempaldi_sweeps(const uint8_t *table, size_t table_length, uint8_t *out, size_t out_length, uint64_t answer[4]);

/* The blocks of a plan.
 * Writes for each block its first and its last index: 8 bytes a block. Each but the last has a whole number of lines. Refuses with 1 to 9,
 * 19, 20, 10, 17, 11, 13. */
uint64_t vempaldi_blocks(const uint8_t *table, size_t table_length, struct vempaldi_settings settings,
                         uint8_t *out, size_t out_length, uint64_t answer[4]);

/* What one processor runs before the barrier, in its order.
 * Writes for each iteration its loop and its index: 8 bytes an iteration. A list has at most (count of loops) times (indices of the
 * processor's block) iterations. Refuses with 1 to 9, 19, 20, 10 (of P, then of `processor`), 17, 11, 13. */
uint64_t vempaldi_fused_list(const uint8_t *table, size_t table_length, struct vempaldi_settings settings, uint32_t processor,
                             uint8_t *out, size_t out_length, uint64_t answer[4]);

/* What one processor runs past the barrier, in its order.
 * Writes for each iteration its loop and its index: 8 bytes an iteration. A list has at most (count of loops) times (the
 * plan's threshold) iterations, and the last processor's has none. Refuses with 1 to 9, 19, 20, 10 (of P, then of `processor`), 17, 11, 13. */
uint64_t vempaldi_peeled_list(const uint8_t *table, size_t table_length, struct vempaldi_settings settings, uint32_t processor,
                              uint8_t *out, size_t out_length, uint64_t answer[4]);

/* What one processor runs before the barrier, as a range of each loop.
 * Writes for each loop, in table order, the first index of its range and the index past the last one, 0 and 0 where the range is empty:
 * 8 bytes a loop. The processor's fused list has these iterations and no others, in rising order of index plus the loop's shift, equal sums
 * in loop order. Refuses with 1 to 9, 19, 20, 10 (of P, then of `processor`), 17, 11, 13. */
uint64_t vempaldi_fused_ranges(const uint8_t *table, size_t table_length, struct vempaldi_settings settings, uint32_t processor,
                               uint8_t *out, size_t out_length, uint64_t answer[4]);

/* What one processor runs past the barrier, as a range of each loop.
 * Writes what vempaldi_fused_ranges writes, of the peeled list, which has its iterations loop by loop in rising order. All ranges of the
 * last processor are empty. Refuses with 1 to 9, 19, 20, 10 (of P, then of `processor`), 17, 11, 13. */
uint64_t vempaldi_peeled_ranges(const uint8_t *table, size_t table_length, struct vempaldi_settings settings, uint32_t processor,
                                uint8_t *out, size_t out_length, uint64_t answer[4]);

/* The plan as text: lines `loop` k shift peel, `block` b first last, `fused` b k from to, `peeled` b k from to, `sweeps` before after.
 * Writes the text, each line with its line feed and no zero byte behind. Refuses with 1 to 9, 19, 20, 10, 17, 11, 13. (No call writes the
 * line `refused` number place, which the program `plan` prints.) */
uint64_t vempaldi_listing(const uint8_t *table, size_t table_length, struct vempaldi_settings settings,
                          uint8_t *out, size_t out_length, uint64_t answer[4]);

/* The loops in table order, each from first to last, with no plan.
 * Writes the memory: binary64 numbers, the arrays in order without gaps; `memory_length` counts numbers. A result that is not a
 * number is stored as 7FF8000000000000. Refuses with 1 to 9, 12. */
void vempaldi_plain_run(const uint8_t *table, size_t table_length, double *memory, size_t memory_length, uint64_t answer[4]);

/* One step of one processor. The first step of a row gets 64 counts of 0; each later one the counts and the memory as the step before
 * left them, and the same settings. Once every iteration has been reported, in whatever order the processors were named, the memory is
 * bit for bit what vempaldi_plain_run leaves from the same start, for every P, W and plan by hand that is accepted.
 * An iteration is one step, with all statements of its loop. It writes the memory (an element for each statement, so up to four), this
 * processor's count (one more) and the report. Waiting and finished write the report alone: its kind, 0, 0.
 * Refuses with 1 to 9, 19, 20, 10 (of P, then of `processor`), 17, 11, 12, 15.
 * Two threads must not step the same memory at the same time. */
void vempaldi_step(const uint8_t *table, size_t table_length, struct vempaldi_settings settings, uint32_t processor,
                   uint32_t counts[64], double *memory, size_t memory_length, uint32_t report[3], uint64_t answer[4]);

/* A whole run: one step for each byte of `order`, which names a processor; then the lowest-numbered processor that can step does,
 * until all are finished.
 * Writes the memory. The result is the idle count: how many bytes named a processor that waited or was finished, or a number not
 * below P; 0 where refused. Refuses with 1 to 9, 19, 20, 10, 17, 11, 12. */
uint64_t vempaldi_run(const uint8_t *table, size_t table_length, struct vempaldi_settings settings,
                      const uint8_t *order, size_t order_length, double *memory, size_t memory_length, uint64_t answer[4]);

#ifdef __cplusplus
}
#endif

#endif
