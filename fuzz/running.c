/* Iterations on a memory: the plain run, and a step of a processor. */
#include "model.h"

#include <string.h>

static double applied(uint32_t operation, double left, double right) {
    switch (operation) {
    case 1: return left + right;
    case 2: return left - right;
    case 3: return left * right;
    default: return left / right;
    }
}

static double *element(const struct table *table, struct reference at, uint32_t index, double *memory) {
    return &memory[table->begins[at.array] + index + at.offset];
}

/* A result as it is stored. */
static void store(double *at, double result) {
    static const uint64_t not_a_number = 0x7ff8000000000000u;
    if (result != result) memcpy(at, &not_a_number, 8);
    else *at = result;
}

/* A statement stores where the next one begins, or at the row's end. */
void perform(const struct table *table, struct iteration iteration, double *memory) {
    const struct loop *loop = &table->loop[iteration.loop];
    double waiting[8], *to = NULL;
    int count = 0;
    for (int i = 0; i < row_length(loop); i++) {
        const struct item *item = &loop->row[i];
        if (item->kind == 7) {
            if (to) store(to, waiting[0]);
            to = element(table, item->at, iteration.index, memory), count = 0;
        } else if (item->kind == 3) waiting[count++] = *element(table, item->at, iteration.index, memory);
        else if (item->kind == 4) waiting[count++] = (double)item->value;
        else if (item->value == 5) waiting[count - 1] = -waiting[count - 1];
        else count--, waiting[count - 1] = applied(item->value, waiting[count - 1], waiting[count]);
    }
    store(to, waiting[0]);
}

void run_plainly(const struct table *table, double *memory) {
    for (uint32_t k = 0; k < (uint32_t)table->loops; k++)
        for (int64_t i = table->loop[k].first; i <= table->loop[k].last; i++) perform(table, (struct iteration){k, (uint32_t)i}, memory);
}

static int barrier_open(const struct plan *plan, const uint32_t counts[MOST_PROCESSORS]) {
    for (uint32_t b = 0; b < plan->processors; b++)
        if (counts[b] < list_length(plan, FUSED, b)) return 0;
    return 1;
}

int in_order(const struct plan *plan, const uint32_t counts[MOST_PROCESSORS]) {
    int open = barrier_open(plan, counts);
    for (uint32_t b = 0; b < MOST_PROCESSORS; b++) {
        if (b >= plan->processors) {
            if (counts[b] > 0) return 0;
        } else if (counts[b] > list_length(plan, FUSED, b) + (open ? list_length(plan, PEELED, b) : 0)) {
            return 0;
        }
    }
    return 1;
}

void step_once(const struct plan *plan, uint32_t processor, uint32_t counts[MOST_PROCESSORS], double *memory, uint32_t report[3]) {
    uint64_t done = counts[processor], fused = list_length(plan, FUSED, processor);
    int open = barrier_open(plan, counts), past = done >= fused;
    struct walk walk = walk_from(plan, past ? PEELED : FUSED, processor);
    struct iteration one = {0, 0};
    int more = !past || open;
    for (uint64_t n = past ? done - fused + 1 : done + 1; more && n > 0; n--) more = next_of(&walk, &one);
    if (!more) {
        report[0] = open ? FINISHED : WAITING, report[1] = report[2] = 0;
        return;
    }
    perform(plan->table, one, memory);
    counts[processor]++;
    report[0] = PERFORMED, report[1] = one.loop, report[2] = one.index;
}

uint64_t idle_of(const struct plan *plan, const uint8_t *order, size_t length) {
    uint64_t done[MOST_PROCESSORS] = {0}, fused[MOST_PROCESSORS], peeled[MOST_PROCESSORS], idle = 0, left = 0;
    for (uint32_t b = 0; b < plan->processors; b++) {
        fused[b] = list_length(plan, FUSED, b), peeled[b] = list_length(plan, PEELED, b);
        left += fused[b];
    }
    for (size_t i = 0; i < length; i++) {
        uint32_t b = order[i];
        if (b >= plan->processors || done[b] >= fused[b] + (left ? 0 : peeled[b])) idle++;
        else left -= done[b]++ < fused[b];
    }
    return idle;
}
