/* The lists of all processors together, looked at as they come, without the model's lists: every iteration of every loop stands in them
 * once, each list is in its order, and a processor's ranges have the iterations of its list and no others. */
#include "call.h"

#include <string.h>

enum { MOST_TOGETHER = 2048 };

/* The iterations seen so far, by loop and index. Those of loop k begin at begins[k]. */
struct seen {
    uint64_t begins[MOST_LOOPS + 1];
    uint8_t marks[MOST_TOGETHER];
};

static uint32_t number(const uint8_t *at) { return at[0] | (uint32_t)at[1] << 8 | (uint32_t)at[2] << 16 | (uint32_t)at[3] << 24; }

static void see(struct seen *seen, const struct call *call, struct iteration one) {
    if (one.loop >= (uint32_t)call->table.loops) breach(call, "a list has an iteration of no loop");
    const struct loop *loop = &call->table.loop[one.loop];
    if (one.index < loop->first || one.index > loop->last) breach(call, "a list has an index outside its loop");
    uint8_t *mark = &seen->marks[seen->begins[one.loop] + one.index - (uint64_t)loop->first];
    if (*mark) breach(call, "an iteration stands in two places of the lists");
    *mark = 1;
}

/* Where an iteration stands in its list's order: a later one has a higher pair. */
static void rank(const struct call *call, enum phase phase, struct iteration one, int64_t pair[2]) {
    pair[0] = phase == FUSED ? one.index + call->plan.shift[one.loop] : one.loop;
    pair[1] = phase == FUSED ? one.loop : one.index;
}

/* One list: each iteration is new, in order and in its loop's range, and the ranges have no others. */
static void one_list(struct call *call, struct seen *seen, enum phase phase) {
    static uint8_t list[8 * MOST_TOGETHER];
    uint8_t parts[VEMPALDI_RANGE_BYTES];
    expect(call, phase == FUSED ? FUSED_RANGES : PEELED_RANGES, 0);
    uint64_t ranges = called(call, call->entry, parts, sizeof parts) / 8, left = 0;
    answered(call);
    for (uint64_t k = 0; k < ranges; k++) left += number(parts + 8 * k + 4) - number(parts + 8 * k);
    expect(call, phase == FUSED ? FUSED_LIST : PEELED_LIST, 0);
    uint64_t length = called(call, call->entry, list, sizeof list) / 8;
    answered(call);
    if (length != left) breach(call, "the ranges have not as many iterations as the list");
    int64_t before[2] = {-1, -1}, now[2];
    for (uint64_t n = 0; n < length; n++) {
        struct iteration one = {number(list + 8 * n), number(list + 8 * n + 4)};
        see(seen, call, one);
        rank(call, phase, one, now);
        if (now[0] < before[0] || (now[0] == before[0] && now[1] <= before[1])) breach(call, "a list is out of its order");
        memcpy(before, now, sizeof before);
        const uint8_t *part = parts + 8 * one.loop;
        if (one.loop >= ranges || one.index < number(part) || one.index >= number(part + 4)) breach(call, "a list leaves its ranges");
    }
}

void lists_together(struct call *call) {
    static struct seen seen;
    if (call->verdict[0] || call->planned || iterations_of(&call->table) > MOST_TOGETHER) return;
    memset(&seen, 0, sizeof seen);
    for (int k = 0; k < call->table.loops; k++)
        seen.begins[k + 1] = seen.begins[k] + (uint64_t)(call->table.loop[k].last - call->table.loop[k].first + 1);
    for (call->processor = 0; call->processor < call->settings.processors; call->processor++) {
        one_list(call, &seen, FUSED);
        one_list(call, &seen, PEELED);
    }
    if (memchr(seen.marks, 0, seen.begins[call->table.loops])) breach(call, "an iteration stands in no list");
}
