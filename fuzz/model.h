/* What the library is to do, once more, in C: the tables of docs/TABLE.md and the header's sentences. It shares nothing with the library,
 * and what the harness expects of a call comes from here, never from another call of the library. */
#ifndef MODEL_H
#define MODEL_H

#include <stddef.h>
#include <stdint.h>

enum { MOST_ARRAYS = 16, MOST_LOOPS = 16, MOST_STATEMENTS = 4, MOST_ITEMS = 32, MOST_PROCESSORS = 64, LONGEST_LINE = 64, MOST_AMOUNT = 10000 };

/* What a loop's row has room for. */
enum { MOST_IN_ROW = MOST_STATEMENTS + MOST_ITEMS };

struct reference {
    int array;
    int64_t offset;
};

/* A read (kind 3), a constant (4), an operation (5) or the beginning of a statement (7); `at` is what is read or stored, `value` is the constant or
 * the operation's number. */
struct item {
    int kind;
    struct reference at;
    uint32_t value;
};

/* All statements in one row, in byte order: each begins with its destination, that of the first being the loop record's own. */
struct loop {
    int64_t first, last;
    int statements, items;
    struct item row[MOST_IN_ROW];
};

static inline int row_length(const struct loop *loop) { return loop->statements + loop->items; }

/* A reference of a loop, and whether it is a destination. */
struct access {
    struct reference at;
    int stores;
};

/* The references of a loop in byte order: the numbers that 9 names. Answers how many there are. */
int accesses_of(const struct loop *loop, struct access out[MOST_IN_ROW]);

struct table {
    int arrays, loops;
    /* Of each array its length, and its first element in the memory. */
    int64_t lengths[MOST_ARRAYS], begins[MOST_ARRAYS];
    int64_t elements;
    struct loop loop[MOST_LOOPS];
    /* Where the loops begin in the bytes, and where the end record stands. */
    size_t loops_at, end_at;
    /* The most statements of a loop, as far as the bytes were read, a refused one too; and whether the record at which the reading ended is that of a
     * further statement. */
    int most_statements, at_statement;
};

/* The table, or the four numbers of its refusal with 1 to 9. */
void read_table(const uint8_t *bytes, size_t length, struct table *table, uint64_t answer[4]);

/* A loop's indices from `from` to one below `past`; 0 and 0 where there are none. */
struct range {
    int64_t from, past;
};

struct iteration {
    uint32_t loop, index;
};

/* Two references of two loops to one array, of which one stores, by the elements that both reach: none, none but with one index more, one,
 * or several. */
enum meeting { APART, NEXT, ONCE, OFTEN, MEETINGS };

struct plan {
    const struct table *table;
    int64_t shift[MOST_LOOPS], peel[MOST_LOOPS], threshold;
    /* How many such pairs there are of each kind. */
    uint32_t pairs[MEETINGS];
    uint32_t processors;
    /* All indices, and the lines that they have; whether 11 is given even if the last block is not cut. */
    int64_t indices;
    uint32_t lines;
    int uncut_short;
    /* First and last index of each block. */
    int64_t begin[MOST_PROCESSORS], end[MOST_PROCESSORS];
};

enum phase { FUSED = 0, PEELED = 1 };

/* Shifts, peels and the threshold of an accepted table. */
void find_amounts(const struct table *table, struct plan *plan);

/* Raises shifts and peels as far as the dependences ask: then each is met. The threshold follows. */
void meet_all(struct plan *plan);

/* The numbers of a plan by hand in the place of the loops' own, and its threshold. `refusal` is 19 or 20 with its pair of loops, or 0s. */
void take_plan(struct plan *plan, uint32_t length, const uint8_t *bytes, uint64_t refusal[4]);

/* Whether every dependence from loop j to loop k is met, each of shift and peel by itself. */
struct met {
    int by_shift, by_peel;
};
struct met met(const struct plan *plan, int j, int k);

/* The blocks for a number of processors and a line's length. Answers 0, 10, 17 or 11. */
uint64_t find_blocks(struct plan *plan, uint32_t processors, uint32_t line);

struct range part_of(const struct plan *plan, enum phase phase, uint32_t processor, int loop);
uint64_t list_length(const struct plan *plan, enum phase phase, uint32_t processor);
uint64_t iterations_of(const struct table *table);

/* A walk along a list, from its first iteration on. `next_of` answers whether there was one more. */
struct walk {
    const struct plan *plan;
    enum phase phase;
    uint32_t processor;
    int64_t at, past;
    int loop;
};
struct walk walk_from(const struct plan *plan, enum phase phase, uint32_t processor);
int next_of(struct walk *walk, struct iteration *iteration);

/* Sweeps before fusion and after it. */
void sweeps_of(const struct table *table, uint32_t sweeps[2]);

/* The listing's text, without a zero behind it. Answers its length. */
size_t text_of(const struct plan *plan, char *out, size_t room);

void perform(const struct table *table, struct iteration iteration, double *memory);
void run_plainly(const struct table *table, double *memory);

/* The first number of a report, typed here once more. */
enum report { PERFORMED = 1, WAITING = 2, FINISHED = 3 };

/* Ground 15, and one step of a processor below P from counts that are in order. */
int in_order(const struct plan *plan, const uint32_t counts[MOST_PROCESSORS]);
void step_once(const struct plan *plan, uint32_t processor, uint32_t counts[MOST_PROCESSORS], double *memory, uint32_t report[3]);

/* How many of the bytes of an order are idle. */
uint64_t idle_of(const struct plan *plan, const uint8_t *order, size_t length);

#endif
