#include "river.h"
#include "vempaldi_builder.h"

#include <float.h>
#include <inttypes.h>
#include <stdio.h>
#include <stdlib.h>
#include <string.h>

#if FLT_EVAL_METHOD != 0
#error "the loops below have the library's bits only where each operation is rounded to binary64"
#endif

enum { H, Q, S, D, ARRAYS };

void stop_if_refused(const char *what, const uint64_t answer[4]) {
    static const char *const words[] = VEMPALDI_WORDS;
    if (answer[0] == VEMPALDI_ACCEPTED) return;
    const char *word = answer[0] < sizeof words / sizeof *words ? words[answer[0]] : "(of a later library)";
    fprintf(stderr, "%s: refused %" PRIu64 " %s, place %" PRIu64 "\n", what, answer[0], word, answer[1]);
    exit(1);
}

/* ---- the table: bodies are postfix ---- */

typedef struct vempaldi_builder builder;
static void loop(builder *b, uint32_t last, int to) { vempaldi_builder_open_loop(b, 1, last, to, 0); }
static void take(builder *b, int from, int offset) { vempaldi_builder_read(b, from, offset); }
static void constant(builder *b, int64_t value) { vempaldi_builder_constant(b, value); }
static void operation(builder *b, int code) { vempaldi_builder_operation(b, code); }

static void one_step(struct table *table, uint32_t sections) {
    const uint32_t last = sections - 2;
    builder built, *b = &built;
    vempaldi_builder_start(b);
    for (int q = 0; q < ARRAYS; q++) vempaldi_builder_array(b, sections);
    /* S[i] = (H[i-1] - H[i+1]) / 200 */
    loop(b, last, S), take(b, H, -1), take(b, H, 1), operation(b, VEMPALDI_SUBTRACT), constant(b, 200), operation(b, VEMPALDI_DIVIDE);
    /* Q[i] = Q[i] * 9 / 10 + S[i] * 40 */
    loop(b, last, Q), take(b, Q, 0), constant(b, 9), operation(b, VEMPALDI_MULTIPLY), constant(b, 10), operation(b, VEMPALDI_DIVIDE);
    take(b, S, 0), constant(b, 40), operation(b, VEMPALDI_MULTIPLY), operation(b, VEMPALDI_ADD);
    /* D[i] = (Q[i-1] + 2 * Q[i] + Q[i+1]) / 4 */
    loop(b, last, D), take(b, Q, -1), constant(b, 2), take(b, Q, 0), operation(b, VEMPALDI_MULTIPLY), operation(b, VEMPALDI_ADD);
    take(b, Q, 1), operation(b, VEMPALDI_ADD), constant(b, 4), operation(b, VEMPALDI_DIVIDE);
    /* H[i] = H[i] + (D[i-1] - D[i+1]) / 50 */
    loop(b, last, H), take(b, H, 0), take(b, D, -1), take(b, D, 1), operation(b, VEMPALDI_SUBTRACT), constant(b, 50);
    operation(b, VEMPALDI_DIVIDE), operation(b, VEMPALDI_ADD);
    if (vempaldi_builder_end(b) != VEMPALDI_BUILT) fprintf(stderr, "a number does not fit its field\n"), exit(1);
    memcpy(table->bytes, b->bytes, b->length);
    table->length = b->length;
}

void make_table(struct table *table, uint32_t sections, int steps) {
    struct table step;
    one_step(&step, sections);
    *table = step;
    for (int n = 1; n < steps; n++) {
        const struct table before = *table;
        uint64_t answer[4];
        table->length = vempaldi_join(before.bytes, before.length, step.bytes, step.length, table->bytes, sizeof table->bytes, answer);
        stop_if_refused("joining time steps", answer);
    }
}

/* ---- the plan: the library's numbers, four bytes each, little-endian ---- */

static uint32_t number(const uint8_t *numbers, int n) {
    const uint8_t *at = numbers + 4 * n;
    return at[0] | (uint32_t)at[1] << 8 | (uint32_t)at[2] << 16 | (uint32_t)at[3] << 24;
}

static void take_ranges(struct range *ranges, const uint8_t *numbers, int count, int beyond) {
    for (int n = 0; n < count; n++) {
        ranges[n].first = number(numbers, 2 * n);
        ranges[n].past = (ptrdiff_t)number(numbers, 2 * n + 1) + beyond;
    }
}

static void take_facts(struct plan *plan, const struct table *t) {
    uint8_t facts[VEMPALDI_FACTS_BYTES], amounts[VEMPALDI_AMOUNT_BYTES];
    uint64_t answer[4];
    vempaldi_facts(t->bytes, t->length, facts, sizeof facts, answer);
    stop_if_refused("facts", answer);
    plan->loops = (int)number(facts, 1);
    plan->elements = number(facts, 2);
    for (int q = 0; q < ARRAYS; q++) plan->array[q] = number(facts, 3 + 2 * q);
    take_ranges(plan->own, facts + 12 + 8 * ARRAYS, plan->loops, 1);
    vempaldi_shifts_and_peels(t->bytes, t->length, amounts, sizeof amounts, answer);
    stop_if_refused("shifts", answer);
    for (int k = 0; k < plan->loops; k++) plan->shift[k] = number(amounts, 2 * k);
    vempaldi_sweeps(t->bytes, t->length, amounts, sizeof amounts, answer);
    stop_if_refused("sweeps", answer);
    for (int n = 0; n < 2; n++) plan->sweeps[n] = number(amounts, n);
}

int make_plan(struct plan *plan, const struct table *t, struct vempaldi_settings settings) {
    uint8_t blocks[VEMPALDI_BLOCK_BYTES], ranges[VEMPALDI_RANGE_BYTES];
    uint64_t answer[4];
    take_facts(plan, t);
    plan->processors = (int)settings.processors;
    vempaldi_blocks(t->bytes, t->length, settings, blocks, sizeof blocks, answer);
    if (answer[0] == VEMPALDI_SHORT) return 0;
    stop_if_refused("blocks", answer);
    take_ranges(plan->block, blocks, plan->processors, 1);
    for (int b = 0; b < plan->processors; b++) {
        vempaldi_fused_ranges(t->bytes, t->length, settings, (uint32_t)b, ranges, sizeof ranges, answer);
        stop_if_refused("fused ranges", answer);
        take_ranges(plan->fused[b], ranges, plan->loops, 0);
        vempaldi_peeled_ranges(t->bytes, t->length, settings, (uint32_t)b, ranges, sizeof ranges, answer);
        stop_if_refused("peeled ranges", answer);
        take_ranges(plan->peeled[b], ranges, plan->loops, 0);
    }
    return 1;
}

struct rivers rivers_in(double *memory, const struct plan *plan, ptrdiff_t width) {
    return (struct rivers){memory + plan->array[H] * width, memory + plan->array[Q] * width, memory + plan->array[S] * width,
                           memory + plan->array[D] * width, width};
}

/* ---- the loops: the bodies of the table as C, with the table's operations in the table's order ---- */

static void slope(double *restrict s, const double *restrict h, ptrdiff_t w, ptrdiff_t from, ptrdiff_t past) {
    for (ptrdiff_t x = from; x < past; x++) s[x] = (h[x - w] - h[x + w]) / 200;
}
static void flow(double *restrict q, const double *restrict s, ptrdiff_t from, ptrdiff_t past) {
    for (ptrdiff_t x = from; x < past; x++) q[x] = q[x] * 9 / 10 + s[x] * 40;
}
static void smooth(double *restrict d, const double *restrict q, ptrdiff_t w, ptrdiff_t from, ptrdiff_t past) {
    for (ptrdiff_t x = from; x < past; x++) d[x] = (q[x - w] + 2 * q[x] + q[x + w]) / 4;
}
static void stage(double *restrict h, const double *restrict d, ptrdiff_t w, ptrdiff_t from, ptrdiff_t past) {
    for (ptrdiff_t x = from; x < past; x++) h[x] = h[x] + (d[x - w] - d[x + w]) / 50;
}

/* Loop k of the table over the indices that are in both ranges. */
static void run_loop(int k, const struct rivers *v, struct range a, struct range b) {
    const ptrdiff_t from = (a.first > b.first ? a.first : b.first) * v->width, past = (a.past < b.past ? a.past : b.past) * v->width;
    switch (k % STEP_LOOPS) {
    case 0: slope(v->S, v->H, v->width, from, past); break;
    case 1: flow(v->Q, v->S, from, past); break;
    case 2: smooth(v->D, v->Q, v->width, from, past); break;
    case 3: stage(v->H, v->D, v->width, from, past); break;
    }
}

void run_unfused(const struct plan *plan, const struct rivers *v, int rounds) {
#pragma omp parallel num_threads(plan->processors)
    for (int n = 0; n < rounds * plan->loops; n++) {
        const int k = n % plan->loops;
#pragma omp for schedule(static, 1)
        for (int b = 0; b < plan->processors; b++) run_loop(k, v, plan->own[k], plan->block[b]);
    }
}

/* The library lists these iterations by their sum, index plus shift, equal sums in loop order. Here a strip of sums runs whole, its loops
 * one after the other, so that the inner loops stay plain and each loop finds in the cache what the one before left there. Why is that
 * allowed? Let iteration i of loop j and iteration i + d of a later loop k meet at an element, one of them storing. The plain run has j's
 * first. Both are iterations of their loops, so this is a dependence of distance d, and k's shift is at least j's, and at least j's plus -d
 * where d < 0; hence (i + d) + shift k >= i + shift j: the sum of k's iteration is not below that of j's (proved: `contained` in
 * crates/rows/specs/Contained). References at which no iterations meet are no dependence and have no order to keep.
 * So j's stands in an earlier strip, or in the same one, where all of loop j runs before loop k: in both cases j's runs first. Iterations
 * of one loop never meet (ground 9), so a compiler may take several at once. Thus any two iterations of this part that meet keep the plain
 * run's order; and none of another processor meets one of this part before the barrier (proved: `ordered` in crates/rows/specs/Theorem), so
 * no lock is needed. */
void fused_part(const struct plan *plan, const struct rivers *v, int b, ptrdiff_t strip) {
    const struct range *part = plan->fused[b];
    ptrdiff_t sum = PTRDIFF_MAX, end = 0;
    for (int k = 0; k < plan->loops; k++) {
        if (part[k].past <= part[k].first) continue;
        if (part[k].first + plan->shift[k] < sum) sum = part[k].first + plan->shift[k];
        if (part[k].past + plan->shift[k] > end) end = part[k].past + plan->shift[k];
    }
    for (; sum < end; sum += strip)
        for (int k = 0; k < plan->loops; k++)
            run_loop(k, v, part[k], (struct range){sum - plan->shift[k], sum - plan->shift[k] + strip});
}

void peeled_part(const struct plan *plan, const struct rivers *v, int b) {
    for (int k = 0; k < plan->loops; k++) run_loop(k, v, plan->peeled[b][k], plan->own[k]);
}

/* An `omp for` ends in a barrier: the first is the plan's, the second parts one round from the next. Where OpenMP gives fewer threads than
 * there are processors in the plan, a thread has several blocks; the plan holds for any order among them. */
void run_fused(const struct plan *plan, const struct rivers *v, ptrdiff_t strip, int rounds) {
#pragma omp parallel num_threads(plan->processors)
    for (int round = 0; round < rounds; round++) {
#pragma omp for schedule(static, 1)
        for (int b = 0; b < plan->processors; b++) fused_part(plan, v, b, strip);
#pragma omp for schedule(static, 1)
        for (int b = 0; b < plan->processors; b++) peeled_part(plan, v, b);
    }
}
