/* Plans by hand, from an input's bytes: such as meet every dependence, such as just fail to, wrong lengths, numbers at the ends of the range, and
 * any bytes. What the library is not to look at is filled with any bytes, which valgrind is told to take for never set. */
#include "call.h"

#include <inttypes.h>
#include <stdio.h>
#include <stdlib.h>
#include <string.h>

#if defined(__has_include)
#if __has_include(<valgrind/memcheck.h>)
#include <valgrind/memcheck.h>
#endif
#endif
#ifndef VALGRIND_MAKE_MEM_UNDEFINED
#define VALGRIND_MAKE_MEM_UNDEFINED(at, count) ((void)(at), (void)(count))
#endif

static void put_four(uint8_t *at, uint32_t number) {
    for (int i = 0; i < 4; i++) at[i] = (uint8_t)(number >> 8 * i);
}

/* The numbers of a plan as bytes. Answers how many bytes they are. */
static uint32_t written(const struct plan *plan, uint8_t out[VEMPALDI_AMOUNT_BYTES]) {
    for (int k = 0; k < plan->table->loops; k++) {
        put_four(out + 8 * k, (uint32_t)plan->shift[k]);
        put_four(out + 8 * k + 4, (uint32_t)plan->peel[k]);
    }
    return 8 * (uint32_t)plan->table->loops;
}

/* A plan that meets every dependence: one or all loops, and what depends on them, are raised by a little. */
static void raised(struct plan *plan, struct cursor *bytes) {
    uint32_t way = take(bytes, 1), most = way % 4 ? 3 : 12;
    for (int k = 0; k < plan->table->loops; k++) {
        if (way / 4 % 4 == 0 && k != (int)(way / 16 % (uint32_t)plan->table->loops)) continue;
        if (way / 4 % 4 < 3) plan->shift[k] += take(bytes, 1) % most;
        if (way / 4 % 4 != 2) plan->peel[k] += take(bytes, 1) % most;
    }
    meet_all(plan);
}

/* The same with all shifts, all peels or both so much higher that the highest number is the most, now and then one more. */
static void lifted(struct plan *plan, struct cursor *bytes) {
    int64_t shift = 0, peel = 0;
    uint32_t way = take(bytes, 1);
    for (int k = 0; k < plan->table->loops; k++) {
        if (plan->shift[k] > shift) shift = plan->shift[k];
        if (plan->peel[k] > peel) peel = plan->peel[k];
    }
    int64_t to = MOST_AMOUNT + (way / 4 % 8 == 0) - (way / 32 < 4 ? way / 32 : 0);
    for (int k = 0; k < plan->table->loops; k++) {
        if (way % 4 != 1) plan->shift[k] += to - shift;
        if (way % 4 != 2) plan->peel[k] += to - peel;
    }
}

/* Up to three numbers are one below what the loops before them ask for, or lower by any amount. */
static void lowered(struct plan *plan, struct cursor *bytes) {
    static struct plan least;
    for (uint32_t times = 1 + take(bytes, 1) % 3; times-- > 0;) {
        uint32_t way = take(bytes, 1), k = take(bytes, 1) % (uint32_t)plan->table->loops;
        least = *plan, least.shift[k] = least.peel[k] = 0;
        meet_all(&least);
        int64_t *number = way % 2 ? &plan->shift[k] : &plan->peel[k], asked = way % 2 ? least.shift[k] : least.peel[k];
        *number = asked - 1 - (way / 2 % 8 ? 0 : take(bytes, 1) % 8);
        if (*number < 0) *number = 0;
    }
}

/* One number at an end of a range, or one that is in range in its low bytes alone. */
static void ends(uint8_t *plan, uint32_t length, struct cursor *bytes) {
    static const uint32_t numbers[] = {0, 1, MOST_AMOUNT - 1, MOST_AMOUNT, MOST_AMOUNT + 1, 1u << 31, UINT32_MAX};
    uint32_t which = take(bytes, 1) % 9, at = length ? take(bytes, 1) % (length / 4) * 4 : 0;
    put_four(plan + at, which < 7 ? numbers[which] : wide(bytes, plan[at]));
}

static uint32_t wrong_length(uint32_t length, struct cursor *bytes) {
    const uint32_t lengths[] = {0, 4, length - 8, length - 1, length + 1, length + 8, VEMPALDI_AMOUNT_BYTES, VEMPALDI_AMOUNT_BYTES + 1};
    uint32_t which = take(bytes, 1) % 12;
    return which < 8 ? lengths[which] : which < 9 ? UINT32_MAX : wide(bytes, length);
}

/* The bytes of a plan for the call's table, in one of the ways above. Answers its length. */
static uint32_t plan_bytes(const struct call *call, struct cursor *bytes, uint8_t out[VEMPALDI_AMOUNT_BYTES]) {
    static struct plan plan;
    uint32_t way = take(bytes, 1) % 16, length;
    if (call->verdict[0] || way >= 15) {
        length = call->verdict[0] ? 8 * (1 + take(bytes, 1) % MOST_LOOPS) : 8 * (uint32_t)call->table.loops;
        for (uint32_t i = 0; i < length; i += 4) put_four(out + i, way % 2 ? take(bytes, 1) % 3 : take(bytes, 4));
        return way < 4 ? wrong_length(length, bytes) : length;
    }
    plan = call->own;
    if (way > 0) raised(&plan, bytes);
    /* Only large inputs have blocks that are long enough for high numbers. */
    if (way == 8 || way == 9 || (bytes->large && way % 2)) lifted(&plan, bytes);
    if (way > 9 && way < 13) lowered(&plan, bytes);
    length = written(&plan, out);
    if (way == 13) ends(out, length, bytes);
    return way == 14 ? wrong_length(length, bytes) : length;
}

struct vempaldi_settings any_plan(const struct call *call, struct cursor *bytes) {
    static const uint32_t hands[] = {1, 1, 1, 2, 255, 256, 65536, 1u << 31, UINT32_MAX};
    struct vempaldi_settings settings = call->settings;
    uint32_t way = take(bytes, 1);
    uint64_t behind = take(bytes, 1);
    if (way < 104) return settings;
    for (int i = 0; i < VEMPALDI_AMOUNT_BYTES; i++) settings.plan[i] = behind % 4 ? (uint8_t)(mixed(behind + (uint64_t)i) >> behind % 8) : 0;
    settings.by_hand = way < 120 ? 0 : hands[way % 9];
    settings.plan_length = plan_bytes(call, bytes, settings.plan);
    if (settings.by_hand == 0) VALGRIND_MAKE_MEM_UNDEFINED(&settings.plan_length, sizeof settings.plan_length);
    uint32_t looked_at = settings.by_hand == 0 ? 0 : settings.plan_length;
    if (looked_at < sizeof settings.plan) VALGRIND_MAKE_MEM_UNDEFINED(settings.plan + looked_at, sizeof settings.plan - looked_at);
    return settings;
}

/* What the header's own functions make: the plan's bytes stand in a block of exactly their length, so that a look past it is seen. */
void by_header(const struct call *call, struct cursor *bytes) {
    size_t length = take(bytes, 1) % (VEMPALDI_AMOUNT_BYTES + 16);
    uint8_t *plan = malloc(length ? length : 1);
    if (!plan) abort();
    for (size_t i = 0; i < length; i++) plan[i] = (uint8_t)take(bytes, 1);
    struct vempaldi_settings none = vempaldi_for(call->settings.processors), made = vempaldi_with_plan(none, length ? plan : NULL, length);
    int right = none.processors == call->settings.processors && none.line == 1 && none.by_hand == 0 && none.plan_length == 0;
    right &= made.processors == none.processors && made.line == 1 && made.by_hand == 1 && made.plan_length == length;
    for (size_t i = 0; i < VEMPALDI_AMOUNT_BYTES; i++) right &= none.plan[i] == 0 && made.plan[i] == (i < length ? plan[i] : 0);
    /* A length that four bytes cannot tell is as wrong as any other. */
    if (length >= VEMPALDI_AMOUNT_BYTES) right &= vempaldi_with_plan(none, plan, (size_t)UINT32_MAX + 1 + 8).plan_length == UINT32_MAX;
    if (!right) breach(call, "the header's own functions make other settings");
    free(plan);
}

/* Plans by hand of accepted tables: how many there were, by what became of them. */
static struct {
    uint64_t all, lengths, numbers, unmet, by_shift, by_peel, several, far, not_below, accepted, above, parallel, highest, tall, beyond, shorter;
} plans;

/* Of a plan that is refused with 20: of what the pairs of loops that it does not meet are. */
static void count_unmet(const struct call *call) {
    int shifts = 0, peels = 0, pairs = 0, next = 0, below = 0;
    for (int j = 0; j < call->table.loops; j++) {
        below |= call->plan.shift[j] < call->own.shift[j] || call->plan.peel[j] < call->own.peel[j];
        for (int k = j + 1; k < call->table.loops; k++) {
            struct met all = met(&call->plan, j, k);
            shifts += !all.by_shift, peels += !all.by_peel, pairs += !all.by_shift || !all.by_peel;
            next += (!all.by_shift || !all.by_peel) && k == j + 1;
        }
    }
    plans.unmet++, plans.by_shift += peels == 0, plans.by_peel += shifts == 0, plans.several += pairs > 1, plans.far += next == 0;
    plans.not_below += !below;
}

static void count_accepted(const struct call *call) {
    int above = 0, highest = 0, beyond = 0;
    for (int k = 0; k < call->table.loops; k++) {
        above |= call->plan.shift[k] > call->own.shift[k] || call->plan.peel[k] > call->own.peel[k];
        highest |= call->plan.shift[k] == MOST_AMOUNT || call->plan.peel[k] == MOST_AMOUNT;
        beyond |= call->plan.shift[k] > call->plan.indices;
    }
    plans.accepted++, plans.above += above, plans.parallel += above && call->settings.processors > 1;
    plans.highest += highest, plans.tall += highest && call->settings.processors > 1, plans.beyond += beyond;
}

void count_plan(const struct call *call) {
    static struct plan own;
    if (call->verdict[0] || !call->settings.by_hand) return;
    plans.all++;
    if (call->planned == 19) {
        plans.lengths += call->settings.plan_length != 8 * (uint32_t)call->table.loops;
        plans.numbers += call->settings.plan_length == 8 * (uint32_t)call->table.loops;
    }
    if (call->planned == 20) count_unmet(call);
    if (call->planned == 0) count_accepted(call);
    own = call->own;
    plans.shorter += call->planned == 11 && find_blocks(&own, call->settings.processors, call->settings.line) == 0;
}

void tell_plans(void) {
    fprintf(stderr, "  plans by hand: %" PRIu64 "; 19 of the length: %" PRIu64 ", of a number: %" PRIu64, plans.all, plans.lengths, plans.numbers);
    fprintf(stderr, "; 20: %" PRIu64 ", of shifts alone: %" PRIu64 ", of peels alone: %" PRIu64 ", of several pairs: %" PRIu64, plans.unmet,
            plans.by_shift, plans.by_peel, plans.several);
    fprintf(stderr, ", of no neighbours: %" PRIu64 ", with no number below the own: %" PRIu64 "\n", plans.far, plans.not_below);
    fprintf(stderr, "  accepted: %" PRIu64 ", above the own: %" PRIu64 ", these for two processors or more: %" PRIu64, plans.accepted, plans.above,
            plans.parallel);
    fprintf(stderr, ", with 10,000: %" PRIu64 ", these for two processors or more: %" PRIu64, plans.highest, plans.tall);
    fprintf(stderr, ", with a shift above all indices: %" PRIu64 "; 11 that the own has not: %" PRIu64 "\n", plans.beyond, plans.shorter);
}
