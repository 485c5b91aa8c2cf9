/* Planted faults: each exported function once more, around the real one, doing wrong where the environment's VEMPALDI_FAULT says so. `list`
 * has the names, and who finds them. The archive's own functions have `real_` before their names (tests/faults.sh). */
#ifndef FAULTS_H
#define FAULTS_H

#include "vempaldi.h"

/* Whether the fault of this name is chosen. */
int fault(const char *name);

/* Whether the fault CALL-NAME is chosen. */
int fault_in(const char *call, const char *name);

/* Whether a fault whose name begins so is chosen. */
int any_fault_in(const char *call);

/* A table's length as the call takes it: of the fault CALL-length-16-bits the low two bytes alone. */
size_t length_in(const char *call, size_t length);

/* Another length as a call takes it: with the fault of this name its low two bytes alone. */
size_t low_of(const char *name, size_t length);

/* Whether a line's length is in range. */
int line_in_range(uint32_t line);

/* The settings as a call takes them for its table: of the faults CALL-line-ignored and all-line-ignored with lines of one iteration, where the
 * length is in range; of CALL-line-8-bits with the low byte of the length alone; and with what `misread_plan` makes of a plan by hand. */
struct vempaldi_settings settings_in(const char *call, const uint8_t *table, size_t length, struct vempaldi_settings settings);

/* A plan by hand as a call takes it: of the faults CALL-by-hand-ignored and all-by-hand-ignored none, where it is neither 19 nor 20; of
 * CALL-unmet-ignored none, where it is 20; of the others of hands.c that begin with `all` another one. */
struct vempaldi_settings misread_plan(const char *call, const uint8_t *table, size_t length, struct vempaldi_settings settings);

/* 19 or 20 as CALL tells it: of the faults CALL-processors-before-plan and CALL-line-before-plan after 10 or 17, of CALL-later-unnamed without the
 * later loop. `processor` is the one that the call names, or 0. */
void mistell_plan(const char *call, struct vempaldi_settings settings, uint32_t processor, uint64_t answer[4]);

/* Shifts and peels in force, for settings with which the table has a plan. */
void amounts_in_force(const uint8_t *table, size_t length, struct vempaldi_settings settings, uint8_t out[VEMPALDI_AMOUNT_BYTES]);

/* Whether 11 is given with this threshold, for settings that are in range otherwise. */
int too_short(const uint8_t *table, size_t length, struct vempaldi_settings settings, int64_t threshold);

/* Goes through the dependences of an accepted table, from loop j to loop k at distance d; where bounds are not asked, also through the pairs of
 * references that never meet. */
typedef void dependence(void *own, int j, int k, int64_t d);
void each_dependence(const uint8_t *table, int bounds_asked, dependence *each, void *own);

/* Every number of an output with these bits alone. */
void mask(uint8_t *out, uint64_t written, uint32_t bits);

/* A number of an output, and one put there. */
uint32_t number_at(const uint8_t *at);
void put_at(uint8_t *at, uint32_t number);

/* How many loops an accepted table has. */
uint64_t loops_of(const uint8_t *table, size_t table_length);

void refuse(uint64_t answer[4], uint64_t ground);

enum { MOST_LOOPS = 16, MOST_REFERENCES = 36 };

/* A loop's bounds, and its references in byte order: of each whether it is a destination, and the number of its statement. */
struct loop {
    int64_t first, last, offset[MOST_REFERENCES];
    int references, array[MOST_REFERENCES], stores[MOST_REFERENCES], statement[MOST_REFERENCES];
};

/* The loops of a table that ends as it should: one that is accepted, or refused with 9. Answers how many there are. */
int take_loops(const uint8_t *table, struct loop loops[MOST_LOOPS]);

/* Where the record behind the one at `at` begins. */
const uint8_t *behind(const uint8_t *at);

/* statements.c: 9 by a wrong rule on the pair, and what reading says where a fifth statement or a 33rd item is let pass, where such a fault is chosen. */
void misname(const uint8_t *table, uint64_t answer[4]);
void miscount(const uint8_t *table, size_t table_length, uint64_t answer[4]);

/* A joined table without the records of further statements. Answers its length. */
uint64_t without_statements(uint8_t *out, uint64_t written);

/* Sweeps of the first statements alone. */
void sweep_first(const uint8_t *table, uint8_t *out);

/* The table as a call runs it: of the fault CALL-statements-falling with the statements of each loop in falling order, of CALL-first-statement-alone
 * without any but the first. `own` has room for it. Answers its length. */
size_t restated(const char *call, const uint8_t *table, size_t table_length, uint8_t own[VEMPALDI_TABLE_BYTES]);

/* Iteration `index` of a loop, with all values worked out from the memory as it is before any is stored. */
void values_first(const uint8_t *table, uint32_t loop, uint32_t index, double *memory, size_t memory_length);

/* Shifts and peels, or the threshold, of an accepted table by a wrong rule on which loops meet, where such a fault is chosen. */
void misjudge_amounts(const uint8_t *table, uint8_t *out);
void misjudge_threshold(const uint8_t *table, uint8_t *out);

/* Blocks by a wrong rule on lines, where such a fault is chosen, in place of what the real call did. Answers the count of bytes written. */
uint64_t misalign(const uint8_t *table, size_t table_length, struct vempaldi_settings settings, uint8_t *out, size_t out_length,
                  uint64_t answer[4], uint64_t written);

#define REAL(name) extern __typeof__(vempaldi_##name) real_vempaldi_##name
REAL(version);
REAL(check);
REAL(join);
REAL(facts);
REAL(shifts_and_peels);
REAL(threshold);
REAL(check_plan);
REAL(sweeps);
REAL(blocks);
REAL(fused_list);
REAL(peeled_list);
REAL(fused_ranges);
REAL(peeled_ranges);
REAL(listing);
REAL(plain_run);
REAL(step);
REAL(run);

#endif
