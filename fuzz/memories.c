/* The calls on a memory: plain run, step and run leave the memory, counts and reports that the model leaves. */
#include "call.h"

#include <stdlib.h>
#include <string.h>

enum { MOST_STEPPED = 48, ORDER = 96, LONG_ORDER = 2048, LONG_MEMORY = 4096, DRAWN = 4093 };

/* Numbers of all kinds in a lent memory. Long ones have the same numbers over and over, for drawing them is slow. */
static double *memory(struct lent *lent, size_t numbers, uint64_t seed) {
    uint8_t *at = lend(lent, numbers * 8);
    for (size_t i = 0; i < numbers && i < DRAWN; i++) {
        uint64_t bits = mixed(seed + i);
        double value = (double)(bits % 2000) / 8 - 100;
        memcpy(at + 8 * i, bits % 16 ? (void *)&value : (void *)&bits, 8);
    }
    for (size_t i = DRAWN; i < numbers; i += DRAWN) memcpy(at + 8 * i, at, 8 * (numbers - i < DRAWN ? numbers - i : DRAWN));
    found(lent);
    return (double *)at;
}

/* What `plain` is to hold is left for the other calls, which are to come to the same. */
static void plain_run(struct call *call, struct lent *plain, size_t numbers, uint64_t seed, int fits) {
    double *lent = memory(plain, numbers, seed);
    expect(call, PLAIN_RUN, fits ? 0 : 12);
    vempaldi_plain_run(call->bytes, call->length, numbers ? lent : NULL, numbers, call->answer);
    answered(call);
    if (!call->expected[0]) run_plainly(&call->table, (double *)wanted_in(plain));
    compare(call, plain, "another memory than the loops leave, or a refused run changed it");
}

/* An order in a block of its own: short, at times long, and seldom a short one over and over, longer than two bytes can tell. */
static uint8_t *any_order(struct cursor *bytes, size_t *length) {
    size_t drawn = seldom(bytes, 32) ? take(bytes, 2) % LONG_ORDER : take(bytes, 1) % ORDER;
    *length = drawn + (drawn && seldom(bytes, 128) ? 65536 : 0);
    uint8_t *order = malloc(*length + 1);
    if (!order) abort();
    for (size_t i = 0; i < drawn; i++) order[i] = take(bytes, 1) % 16 ? (uint8_t)(take(bytes, 1) % 4) : (uint8_t)take(bytes, 1);
    for (size_t i = drawn; i < *length; i++) order[i] = order[i - drawn];
    return order;
}

static void run(struct call *call, struct cursor *bytes, const struct lent *plain, uint64_t seed, int fits) {
    struct lent own;
    static uint8_t kept[65536 + LONG_ORDER];
    size_t length, numbers = plain->size / 8;
    uint8_t *order = any_order(bytes, &length);
    memcpy(kept, order, length);
    double *lent = memory(&own, numbers, seed);
    uint64_t ground = plan_ground(call, 0);
    expect(call, RUN, ground ? ground : fits ? 0 : 12);
    uint64_t idle = vempaldi_run(call->bytes, call->length, call->settings, length ? order : NULL, length, numbers ? lent : NULL,
                                 numbers, call->answer);
    answered(call);
    if (memcmp(order, kept, length)) breach(call, "the order itself changed");
    int accepted = call->expected[0] == 0;
    if (idle != (accepted ? idle_of(&call->plan, order, length) : 0)) breach(call, "another idle count");
    if (accepted) memcpy(wanted_in(&own), wanted_in(plain), own.size);
    compare(call, &own, "another memory than the loops leave, or a refused run changed it");
    give_back(&own);
    free(order);
}

/* Counts, report and memory of a step, each with guards; and what the reports before the calls are drawn from. */
struct stepped {
    struct lent counts, report, memory;
    uint64_t drawn;
};

/* A report as a step finds it: zeroed, as callers do who then look for a 0, or any numbers. */
static void any_report(struct stepped *on, uint32_t report[3]) {
    on->drawn = mixed(on->drawn);
    for (int i = 0; i < 3; i++) report[i] = on->drawn % 2 ? (uint32_t)mixed(on->drawn + (uint64_t)i) : 0;
}

/* One step, of the library and of the model. Answers whether an iteration was performed. */
static int step(struct call *call, struct stepped *on, int fits) {
    uint32_t *counts = (uint32_t *)(on->counts.all + GUARD), *report = (uint32_t *)(on->report.all + GUARD);
    uint32_t *to_count = (uint32_t *)wanted_in(&on->counts), *to_report = (uint32_t *)wanted_in(&on->report);
    any_report(on, report);
    found(&on->counts), found(&on->report), found(&on->memory);
    uint64_t ground = plan_ground(call, 1);
    if (!call->verdict[0] && !ground) ground = !fits ? 12 : in_order(&call->plan, counts) ? 0 : 15;
    expect(call, STEP, ground);
    vempaldi_step(call->bytes, call->length, call->settings, call->processor, counts, (double *)(on->memory.all + GUARD),
                  on->memory.size / 8, report, call->answer);
    answered(call);
    if (!call->expected[0]) step_once(&call->plan, call->processor, to_count, (double *)wanted_in(&on->memory), to_report);
    if (!call->expected[0] && report[0] == VEMPALDI_NO_REPORT) breach(call, "an accepted step that reports nothing");
    compare(call, &on->report, "another report, or the report of a refused step changed");
    compare(call, &on->counts, "other counts");
    compare(call, &on->memory, "another memory");
    return !call->expected[0] && to_report[0] == PERFORMED;
}

/* Counts of any kind: before the barrier, past it, or with some of them wrong. */
static void any_counts(const struct call *call, struct cursor *bytes, uint32_t counts[MOST_PROCESSORS]) {
    memset(counts, 0, 4 * MOST_PROCESSORS);
    uint32_t way = take(bytes, 1);
    if (!call->verdict[0] && !call->planned && (bytes->large || way % 2))
        for (uint32_t b = 0; b < call->settings.processors; b++) {
            counts[b] = (uint32_t)list_length(&call->plan, FUSED, b);
            if (way % 4 == 1) counts[b] += take(bytes, 1) % (uint32_t)(list_length(&call->plan, PEELED, b) + 1);
            /* Near the end of the fused list. */
            if ((bytes->large || way >= 192) && counts[b] > 8) counts[b] -= take(bytes, 1) % 8;
        }
    for (uint32_t i = way % 8 < 3 || bytes->large ? 0 : take(bytes, 1) % 5; i-- > 0;) {
        uint32_t which = take(bytes, 1);
        /* The last one more often than others: mostly it is that of no processor. */
        counts[which < 224 ? which % 64 : 63] += (take(bytes, 1) % 12) << 8 * (take(bytes, 1) % 4);
    }
}

/* A step from any counts, then a row of steps from 0 to its end, which leaves the memory of the loops. */
static void steps(struct call *call, struct cursor *bytes, const struct lent *plain, uint64_t seed, int fits) {
    struct stepped on = {.drawn = seed};
    uint8_t *counts = lend(&on.counts, 256);
    lend(&on.report, 12);
    memory(&on.memory, plain->size / 8, seed);
    any_counts(call, bytes, (uint32_t *)counts);
    uint32_t way = take(bytes, 1) % 8;
    call->processor = way > 3 ? take(bytes, 1) % 4 : way ? call->settings.processors - 1 : wide(bytes, take(bytes, 1) % 4);
    /* Large inputs are few, so none is spent on a number that is refused. */
    if (bytes->large) call->processor %= call->settings.processors;
    step(call, &on, fits);
    uint64_t left = call->verdict[0] || call->planned || !fits ? 0 : iterations_of(&call->table);
    int complete = left > 0 && left <= MOST_STEPPED && plain->size <= 8 * LONG_MEMORY;
    if (complete) {
        give_back(&on.memory);
        memory(&on.memory, plain->size / 8, seed);
        memset(counts, 0, 256);
    }
    for (uint32_t tries = 0; complete && left > 0; tries++) {
        /* First as the input says, then each processor in turn, which always comes to the end. */
        call->processor = tries < 64 ? take(bytes, 1) % (call->settings.processors + 1) : tries % call->settings.processors;
        left -= (uint64_t)step(call, &on, fits);
    }
    memcpy(wanted_in(&on.memory), wanted_in(plain), complete ? plain->size : 0);
    if (complete) compare(call, &on.memory, "a complete row of steps leaves another memory than the loops");
    give_back(&on.counts), give_back(&on.report), give_back(&on.memory);
}

void memories(struct call *call, struct cursor *bytes) {
    uint64_t seed = take(bytes, 4), elements = call->verdict[0] ? 0 : (uint64_t)call->table.elements;
    uint32_t which = take(bytes, 1);
    /* Long memories are lent as well, but seldom: they are slow to compare. */
    int fits = bytes->large || (which % 4 && (elements <= LONG_MEMORY || which % 16 == 1));
    size_t numbers = fits ? elements : seldom(bytes, 64) ? elements + 65536 : take(bytes, 2) % 600;
    struct lent plain;
    fits = numbers == elements;
    plain_run(call, &plain, numbers, seed, fits);
    run(call, bytes, &plain, seed, fits);
    steps(call, bytes, &plain, seed, fits);
    give_back(&plain);
}
