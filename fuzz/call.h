/* One input's calls: what they are given, what is expected of them, and what they were lent. */
#ifndef CALL_H
#define CALL_H

#include "maker.h"
#include "model.h"
#include "vempaldi.h"

enum entry {
    CHECK, JOIN, CHECK_PLAN, FACTS, SHIFTS_AND_PEELS, THRESHOLD, SWEEPS, BLOCKS, LISTING, FUSED_LIST, PEELED_LIST, FUSED_RANGES, PEELED_RANGES,
    PLAIN_RUN, STEP, RUN, ENTRIES
};

struct call {
    enum entry entry;
    const uint8_t *bytes;
    size_t length;
    struct vempaldi_settings settings;
    uint32_t processor;
    /* The model's: the table with its own shifts and peels, and with those in force, which may be by hand; the refusal of the bytes, that of
     * the plan by hand (19, 20), and 19, 20, 10, 17 or 11 of the settings. */
    struct table table;
    struct plan own, plan;
    uint64_t verdict[4], by_hand[4], planned;
    /* Of the call at hand: what it is to answer, and what it did. */
    uint64_t expected[4], answer[4];
};

/* Reads the bytes by the model and plans them. `call` stays where it is from then on, for its plan points to its table. */
void begin_call(struct call *call, const uint8_t *bytes, size_t length, struct vempaldi_settings settings);

/* The same bytes, planned for other settings. */
void plan_call(struct call *call, struct vempaldi_settings settings);

/* plans.c: settings with a plan by hand for the call's table, or without one; what the header's own functions make of a plan; and how many plans
 * of each kind there were. */
struct vempaldi_settings any_plan(const struct call *call, struct cursor *bytes);
void by_header(const struct call *call, struct cursor *bytes);
void count_plan(const struct call *call);
void tell_plans(void);

/* Counts a table by its statements, an accepted one by how the references of its loops meet, and its plan by what its blocks are like. */
void count_statements(const struct call *call);
void count_pairs(const struct call *call);
void count_blocks(const struct call *call);

/* Sets what the next call is to answer: the refusal of the bytes, or else `ground` (0 where it is accepted; 19 and 20 with what they name). */
void expect(struct call *call, enum entry entry, uint64_t ground);

/* 19, 20, 10, 17 or 11: of the settings, and 10 of the processor's own number where a call has one. */
uint64_t plan_ground(const struct call *call, int has_processor);

/* The answer is the one expected. */
void answered(struct call *call);

/* Prints the call and its table, and aborts. */
void breach(const struct call *call, const char *what);

/* How often each entry gave each ground, how often check named each reference, and what was counted. */
void tell(void);

/* Lent bytes with guards on both sides, and beside them what they are to be after the call. */
struct lent {
    uint8_t *all, *wanted;
    size_t size;
};
enum { GUARD = 48 };

uint8_t *lend(struct lent *lent, size_t size);
/* The part of `wanted` that is lent. */
uint8_t *wanted_in(const struct lent *lent);
/* What the caller put into the lent bytes is as the call finds it. */
void found(struct lent *lent);
/* Lent bytes and guards are as wanted. */
void compare(const struct call *call, const struct lent *lent, const char *what);
void give_back(struct lent *lent);

/* outputs.c: check, the check of a plan, join, and every call that writes numbers or text. */
void check(struct call *call);
void check_plan(struct call *call);
void join(const struct call *left, struct cursor *bytes);
void outputs(struct call *call, struct cursor *bytes);
/* One call with an output, as `call` names it; answers the count of bytes that it says were written. */
uint64_t called(struct call *call, enum entry entry, uint8_t *out, size_t room);

/* lists.c: the lists of all processors together, and the ranges beside them. */
void lists_together(struct call *call);

/* memories.c: plain run, step and run. */
void memories(struct call *call, struct cursor *bytes);

#endif
