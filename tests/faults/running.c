/* Faults in the plain run, a step and a run. */
#include <stdlib.h>
#include <string.h>

#include "faults.h"

/* A memory as it was before a call. */
static double *copy_of(const double *memory, size_t length) {
    double *copy = malloc(length * sizeof *copy + 1);
    if (!copy) abort();
    if (length) memcpy(copy, memory, length * sizeof *copy);
    return copy;
}

static void put_back(double *memory, const double *before, size_t length) {
    if (length) memcpy(memory, before, length * sizeof *memory);
}

/* Stored results that are not numbers get the other sign. */
static void other_sign(double *memory, const double *before, size_t length) {
    for (size_t i = 0; i < length; i++) {
        uint64_t now, then;
        memcpy(&now, memory + i, 8);
        memcpy(&then, before + i, 8);
        if (now == 0x7ff8000000000000u && then != now) ((uint8_t *)(memory + i))[7] |= 0x80;
    }
}

/* The table with its last loop one iteration shorter, run from the same memory. */
static void without_last(const uint8_t *table, size_t length, double *memory, const double *before, size_t numbers) {
    uint8_t shorter[VEMPALDI_TABLE_BYTES];
    uint64_t answer[4];
    size_t last = 0;
    memcpy(shorter, table, length);
    for (const uint8_t *at = table; *at != 6; at = behind(at))
        if (*at == 2) last = (size_t)(at - table);
    if (number_at(table + last + 1) == number_at(table + last + 5)) return;
    put_at(shorter + last + 5, number_at(table + last + 5) - 1);
    put_back(memory, before, numbers);
    real_vempaldi_plain_run(shorter, length, memory, numbers, answer);
}

static size_t elements_of(const uint8_t *table, size_t length) {
    uint8_t facts[VEMPALDI_FACTS_BYTES];
    uint64_t answer[4];
    return real_vempaldi_facts(table, length, facts, sizeof facts, answer) ? number_at(facts + 8) : 0;
}

/* The plain run with all values of an iteration worked out before any is stored. */
static void plain_values_first(const uint8_t *table, double *memory, const double *before, size_t numbers) {
    static _Thread_local struct loop loops[MOST_LOOPS];
    int count = take_loops(table, loops);
    put_back(memory, before, numbers);
    for (int k = 0; k < count; k++)
        for (int64_t i = loops[k].first; i <= loops[k].last; i++) values_first(table, (uint32_t)k, (uint32_t)i, memory, numbers);
}

/* The same table with other statements, run from the same memory. */
static void plain_restated(const uint8_t *table, size_t length, double *memory, const double *before, size_t numbers) {
    uint8_t other[VEMPALDI_TABLE_BYTES];
    uint64_t answer[4];
    put_back(memory, before, numbers);
    length = restated("plain", table, length, other);
    real_vempaldi_plain_run(other, length, memory, numbers, answer);
}

/* The plan of the table as it is, by hand, for a call that is given a table with other statements. */
static struct vempaldi_settings as_planned(const uint8_t *table, size_t length, struct vempaldi_settings settings) {
    uint64_t answer[4];
    if (settings.by_hand) return settings;
    settings.plan_length = (uint32_t)real_vempaldi_shifts_and_peels(table, length, settings.plan, sizeof settings.plan, answer);
    settings.by_hand = 1;
    return settings;
}

/* What a step that performed an iteration is to leave, by a wrong way to run its statements; `before` is the memory as the step found it, and
 * `was` the counts. */
static void step_restated(const uint8_t *table, size_t length, struct vempaldi_settings settings, uint32_t processor, const uint32_t was[64],
                          const uint32_t report[3], double *memory, const double *before, size_t numbers) {
    uint8_t other[VEMPALDI_TABLE_BYTES];
    uint32_t counts[64], told[3];
    uint64_t answer[4];
    put_back(memory, before, numbers);
    if (fault("step-values-first")) {
        values_first(table, report[1], report[2], memory, numbers);
        return;
    }
    memcpy(counts, was, sizeof counts);
    settings = as_planned(table, length, settings);
    length = restated("step", table, length, other);
    real_vempaldi_step(other, length, settings, processor, counts, memory, numbers, told, answer);
}

void vempaldi_plain_run(const uint8_t *table, size_t table_length, double *memory, size_t memory_length, uint64_t answer[4]) {
    double *before = copy_of(memory, memory_length);
    table_length = length_in("plain", table_length), memory_length = low_of("plain-memory-16-bits", memory_length);
    real_vempaldi_plain_run(table, table_length, memory, memory_length, answer);
    if (fault("plain-longer-memory") && answer[0] == 12 && memory_length > elements_of(table, table_length))
        real_vempaldi_plain_run(table, table_length, memory, elements_of(table, table_length), answer);
    if (fault("plain-last-missing") && !answer[0]) without_last(table, table_length, memory, before, memory_length);
    int restate = fault("plain-statements-falling") || fault("plain-first-statement-alone");
    if (restate && !answer[0]) plain_restated(table, table_length, memory, before, memory_length);
    if (fault("plain-values-first") && !answer[0]) plain_values_first(table, memory, before, memory_length);
    if (fault("plain-nan-sign") || fault("all-nan-sign")) other_sign(memory, before, memory_length);
    free(before);
}

/* A step with 15 told before 12. */
static int wrong_state(const uint8_t *table, size_t length, struct vempaldi_settings settings, uint32_t processor,
                       const uint32_t counts[64]) {
    size_t elements = elements_of(table, length);
    double *memory = calloc(elements + 1, sizeof *memory);
    uint32_t own[64], report[3];
    uint64_t answer[4];
    if (!memory) abort();
    memcpy(own, counts, sizeof own);
    real_vempaldi_step(table, length, settings, processor, own, memory, elements, report, answer);
    free(memory);
    return answer[0] == 15;
}

/* Whether a step that is accepted would be 15 by the lists of the own plan. */
static int state_of_own(const uint8_t *table, size_t length, struct vempaldi_settings settings, uint32_t processor, const uint32_t counts[64],
                        const double *memory, size_t numbers) {
    double *copy = copy_of(memory, numbers);
    uint32_t own[64], report[3];
    uint64_t answer[4];
    memcpy(own, counts, sizeof own);
    real_vempaldi_step(table, length, settings, processor, own, copy, numbers, report, answer);
    free(copy);
    settings.by_hand = 0;
    return !answer[0] && wrong_state(table, length, settings, processor, counts);
}

/* Faults in what is told of a step that was accepted; `found` is the report as the call found it. */
static void told_wrong(uint32_t counts[64], uint32_t processor, uint32_t report[3], const uint32_t found[3]) {
    if (fault("step-index-16-bits")) report[2] &= 0xffff;
    if (fault("step-count-16-bits")) counts[processor] &= 0xffff;
    if (fault("step-count-19-bits")) counts[processor] &= 0x7ffff;
    if (fault("step-waiting-leaves") && report[0] == VEMPALDI_WAITING) memcpy(report + 1, found + 1, 8);
    if (fault("step-finished-leaves") && report[0] == VEMPALDI_FINISHED) memcpy(report + 1, found + 1, 8);
    if (fault("step-last-processor-stays") && processor == 63 && report[0] == VEMPALDI_ITERATION) counts[63]--;
    if (fault("step-waiting-as-finished") && report[0] == VEMPALDI_WAITING) report[0] = VEMPALDI_FINISHED;
    if (fault("step-reports-from-0")) report[0]--;
}

void vempaldi_step(const uint8_t *table, size_t table_length, struct vempaldi_settings settings, uint32_t processor, uint32_t counts[64],
                   double *memory, size_t memory_length, uint32_t report[3], uint64_t answer[4]) {
    double *before = copy_of(memory, memory_length);
    uint32_t processors = settings.processors, above = processors < 64 ? counts[63] : 0, found[3] = {report[0], report[1], report[2]}, was[64];
    memcpy(was, counts, sizeof was);
    table_length = length_in("step", table_length), settings = settings_in("step", table, table_length, settings);
    memory_length = low_of("step-memory-16-bits", memory_length);
    if (fault("step-processor-16-bits")) processor &= 0xffff;
    if (fault("step-takes-count-16-bits") && processor < 64) counts[processor] &= 0xffff;
    if (fault("step-last-count-not-looked-at") && processors < 64) counts[63] = 0;
    if (fault("step-state-of-own") && state_of_own(table, table_length, settings, processor, counts, memory, memory_length)) {
        refuse(answer, 15);
        free(before);
        return;
    }
    real_vempaldi_step(table, table_length, settings, processor, counts, memory, memory_length, report, answer);
    mistell_plan("step", settings, processor, answer);
    if (fault("step-unmet-counts") && answer[0] == 20 && processor < 64) counts[processor]++;
    if (fault("step-last-count-not-looked-at") && processors < 64) counts[63] = above;
    if (fault("step-stores-nothing")) put_back(memory, before, memory_length);
    int restate = fault("step-statements-falling") || fault("step-first-statement-alone") || fault("step-values-first");
    if (restate && !answer[0] && report[0] == VEMPALDI_ITERATION)
        step_restated(table, table_length, settings, processor, was, report, memory, before, memory_length);
    if (!answer[0]) told_wrong(counts, processor, report, found);
    if (fault("step-refused-counts") && answer[0] == 10) counts[0]++;
    if (fault("step-refused-zeroes") && answer[0]) memset(report, 0, 12);
    if (fault("step-refused-reports") && answer[0]) memset(report, 0, 12), report[1] = 1;
    if (fault("step-state-before-memory") && answer[0] == 12 && wrong_state(table, table_length, settings, processor, counts))
        refuse(answer, 15);
    int plan = answer[0] == 19 || answer[0] == 20;
    if (fault("step-memory-before-plan") && plan && memory_length != elements_of(table, table_length)) refuse(answer, 12);
    if (fault("step-memory-before-line") && answer[0] == 17 && memory_length != elements_of(table, table_length)) refuse(answer, 12);
    if (fault("all-nan-sign")) other_sign(memory, before, memory_length);
    free(before);
}

uint64_t vempaldi_run(const uint8_t *table, size_t table_length, struct vempaldi_settings settings, const uint8_t *order,
                      size_t order_length, double *memory, size_t memory_length, uint64_t answer[4]) {
    double *before = copy_of(memory, memory_length);
    table_length = length_in("run", table_length), memory_length = low_of("run-memory-16-bits", memory_length);
    order_length = low_of("run-order-16-bits", order_length), settings = settings_in("run", table, table_length, settings);
    uint64_t idle = real_vempaldi_run(table, table_length, settings, order, order_length, memory, memory_length, answer);
    mistell_plan("run", settings, 0, answer);
    if (fault("run-unmet-writes") && answer[0] == 20 && memory_length) memory[0] = 0.5;
    if (fault("run-unmet-idle") && answer[0] == 20) idle = order_length;
    if (fault("run-idle-8-bits")) idle &= 0xff;
    if (fault("run-idle-16-bits")) idle &= 0xffff;
    if (fault("run-long-order") && order_length > 1000 && !answer[0]) idle++;
    if (fault("run-idle-one-more") && !answer[0]) idle++;
    if (fault("run-idle-of-wrong-numbers") && !answer[0]) {
        idle = 0;
        for (size_t i = 0; i < order_length; i++) idle += order[i] >= settings.processors;
    }
    int plan = answer[0] == 19 || answer[0] == 20;
    if (fault("run-memory-before-plan") && plan && memory_length != elements_of(table, table_length)) refuse(answer, 12);
    if (fault("run-memory-before-line") && answer[0] == 17 && memory_length != elements_of(table, table_length)) refuse(answer, 12);
    if (fault("run-stores-nothing")) put_back(memory, before, memory_length);
    int restate = fault("run-statements-falling") || fault("run-first-statement-alone");
    if (restate && !answer[0]) {
        uint8_t other[VEMPALDI_TABLE_BYTES];
        put_back(memory, before, memory_length);
        settings = as_planned(table, table_length, settings);
        size_t length = restated("run", table, table_length, other);
        real_vempaldi_run(other, length, settings, order, order_length, memory, memory_length, answer);
    }
    if (fault("run-writes-order") && order_length) ((uint8_t *)order)[0] ^= 1;
    if (fault("run-refused-writes") && answer[0] && memory_length) memory[0] = 0.5;
    if (fault("all-nan-sign")) other_sign(memory, before, memory_length);
    free(before);
    return idle;
}
