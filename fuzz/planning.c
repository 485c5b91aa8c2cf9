/* Shifts, peels, plans by hand, blocks, ranges, lists, sweeps and the listing of a table. */
#include "model.h"

#include <stdio.h>
#include <string.h>

static int64_t greater(int64_t one, int64_t other) { return one > other ? one : other; }
static int64_t lesser(int64_t one, int64_t other) { return one < other ? one : other; }

/* How many elements of their array two references of two loops both reach; 0 and less where they reach none, the less the farther apart. */
static int64_t common_elements(const struct loop *one, struct reference in_one, const struct loop *other, struct reference in_other) {
    int64_t lowest = greater(one->first + in_one.offset, other->first + in_other.offset);
    return lesser(one->last + in_one.offset, other->last + in_other.offset) - lowest + 1;
}

/* Two references make a dependence where they reach a common element, and not both read it. */
enum { MOST_DISTANCES = MOST_IN_ROW * MOST_IN_ROW };

/* The distances of the dependences from loop j to loop k. Answers how many there are; counts the pairs of references by how they meet. */
static int distances(const struct table *table, int j, int k, int64_t out[MOST_DISTANCES], uint32_t pairs[MEETINGS]) {
    const struct loop *before = &table->loop[j], *behind = &table->loop[k];
    struct access from[MOST_IN_ROW], to[MOST_IN_ROW];
    int froms = accesses_of(before, from), tos = accesses_of(behind, to), count = 0;
    for (int a = 0; a < froms; a++)
        for (int b = 0; b < tos; b++) {
            if (from[a].at.array != to[b].at.array || (!from[a].stores && !to[b].stores)) continue;
            int64_t common = common_elements(before, from[a].at, behind, to[b].at);
            pairs[common < 0 ? APART : common == 0 ? NEXT : common == 1 ? ONCE : OFTEN]++;
            if (common > 0) out[count++] = from[a].at.offset - to[b].at.offset;
        }
    return count;
}

/* What the dependences from loop j give loop k: a chain that ends at j goes on by each of them. */
static void carry(struct plan *plan, int j, int k) {
    int64_t distance[MOST_DISTANCES];
    for (int i = distances(plan->table, j, k, distance, plan->pairs); i-- > 0;) {
        plan->shift[k] = greater(plan->shift[k], plan->shift[j] + greater(-distance[i], 0));
        plan->peel[k] = greater(plan->peel[k], plan->peel[j] + greater(distance[i], 0));
    }
}

void meet_all(struct plan *plan) {
    memset(plan->pairs, 0, sizeof plan->pairs);
    plan->threshold = 0;
    for (int k = 0; k < plan->table->loops; k++) {
        for (int j = 0; j < k; j++) carry(plan, j, k);
        plan->threshold = greater(plan->threshold, plan->shift[k] + plan->peel[k]);
    }
}

void find_amounts(const struct table *table, struct plan *plan) {
    memset(plan, 0, sizeof *plan);
    plan->table = table;
    meet_all(plan);
}

struct met met(const struct plan *plan, int j, int k) {
    int64_t distance[MOST_DISTANCES];
    uint32_t pairs[MEETINGS] = {0};
    struct met all = {1, 1};
    for (int i = distances(plan->table, j, k, distance, pairs); i-- > 0;) {
        all.by_shift &= plan->shift[k] - plan->shift[j] >= -distance[i] && plan->shift[k] >= plan->shift[j];
        all.by_peel &= plan->peel[k] - plan->peel[j] >= distance[i] && plan->peel[k] >= plan->peel[j];
    }
    return all;
}

static int64_t four_bytes(const uint8_t *at) { return at[0] + 256 * (at[1] + 256 * (at[2] + 256 * (int64_t)at[3])); }

void take_plan(struct plan *plan, uint32_t length, const uint8_t *bytes, uint64_t refusal[4]) {
    int loops = plan->table->loops;
    memset(refusal, 0, 4 * sizeof *refusal);
    refusal[0] = length == 8 * (uint32_t)loops ? 0 : 19;
    plan->threshold = 0;
    for (int k = 0; k < loops && !refusal[0]; k++) {
        plan->shift[k] = four_bytes(bytes + 8 * k), plan->peel[k] = four_bytes(bytes + 8 * k + 4);
        if (greater(plan->shift[k], plan->peel[k]) > MOST_AMOUNT) refusal[0] = 19;
        plan->threshold = greater(plan->threshold, plan->shift[k] + plan->peel[k]);
    }
    for (int j = 0; j < loops; j++)
        for (int k = j + 1; k < loops && !refusal[0]; k++) {
            struct met all = met(plan, j, k);
            if (!all.by_shift || !all.by_peel) refusal[0] = 20, refusal[1] = (uint64_t)j, refusal[2] = (uint64_t)k;
        }
}

/* Lines from `first` on, the last one perhaps only begun, dealt out to the blocks in turn: how many each gets. Answers how many there are. */
static uint32_t deal(int64_t first, int64_t last, uint32_t line, uint32_t processors, uint32_t shares[MOST_PROCESSORS]) {
    uint32_t lines = 0;
    memset(shares, 0, MOST_PROCESSORS * sizeof *shares);
    for (int64_t at = first; at <= last; at += line) shares[lines++ % processors]++;
    return lines;
}

uint64_t find_blocks(struct plan *plan, uint32_t processors, uint32_t line) {
    uint32_t shares[MOST_PROCESSORS];
    if (processors < 1 || processors > MOST_PROCESSORS) return 10;
    if (line < 1 || line > LONGEST_LINE) return 17;
    int64_t first = plan->table->loop[0].first, last = plan->table->loop[0].last;
    for (int k = 1; k < plan->table->loops; k++) {
        first = lesser(first, plan->table->loop[k].first);
        last = greater(last, plan->table->loop[k].last);
    }
    plan->indices = last - first + 1, plan->lines = deal(first, last, line, processors, shares);
    if (plan->lines < processors) return 11;
    int cut_short = 0;
    for (uint32_t b = 0; b < processors; b++) {
        int64_t size = shares[b] * line;
        plan->begin[b] = b ? plan->end[b - 1] + 1 : first;
        plan->end[b] = lesser(plan->begin[b] + size - 1, last);
        plan->uncut_short |= processors > 1 && size < plan->threshold;
        cut_short |= processors > 1 && plan->end[b] - plan->begin[b] + 1 < plan->threshold;
    }
    if (cut_short) return 11;
    plan->processors = processors;
    return 0;
}

struct range part_of(const struct plan *plan, enum phase phase, uint32_t processor, int k) {
    const struct loop *loop = &plan->table->loop[k];
    int front = processor == 0, back = processor + 1 == plan->processors;
    int64_t begin = plan->begin[processor], end = plan->end[processor], from, to;
    if (phase == FUSED) {
        from = front ? loop->first : greater(loop->first, begin + plan->peel[k]);
        to = back ? loop->last : lesser(loop->last, end - plan->shift[k]);
    } else {
        from = greater(loop->first, end - plan->shift[k] + 1);
        to = back ? from - 1 : lesser(loop->last, end + plan->peel[k]);
    }
    return from <= to ? (struct range){from, to + 1} : (struct range){0, 0};
}

uint64_t list_length(const struct plan *plan, enum phase phase, uint32_t processor) {
    int64_t all = 0;
    for (int k = 0; k < plan->table->loops; k++) {
        struct range part = part_of(plan, phase, processor, k);
        all += part.past - part.from;
    }
    return (uint64_t)all;
}

/* `loop` is the one to look at next. `at` is in a fused list the sum of index and shift, in a peeled one the index, or INT64_MAX where the
 * loop has not begun. */
struct walk walk_from(const struct plan *plan, enum phase phase, uint32_t processor) {
    struct walk walk = {plan, phase, processor, INT64_MAX, 0, 0};
    if (phase == PEELED) return walk;
    for (int k = 0; k < plan->table->loops; k++) {
        struct range part = part_of(plan, phase, processor, k);
        if (part.from == part.past) continue;
        walk.at = lesser(walk.at, part.from + plan->shift[k]);
        walk.past = greater(walk.past, part.past + plan->shift[k]);
    }
    return walk;
}

/* The least sum above `at` that some loop has. Sums can be far apart: a shift may be above all indices. */
static int64_t next_sum(const struct walk *walk) {
    int64_t least = walk->past;
    for (int k = 0; k < walk->plan->table->loops; k++) {
        struct range part = part_of(walk->plan, FUSED, walk->processor, k);
        int64_t next = greater(part.from + walk->plan->shift[k], walk->at + 1);
        if (next < part.past + walk->plan->shift[k]) least = lesser(least, next);
    }
    return least;
}

static int next_fused(struct walk *walk, struct iteration *iteration) {
    for (; walk->at < walk->past; walk->at = next_sum(walk), walk->loop = 0)
        while (walk->loop < walk->plan->table->loops) {
            int k = walk->loop++;
            struct range part = part_of(walk->plan, FUSED, walk->processor, k);
            int64_t index = walk->at - walk->plan->shift[k];
            if (index < part.from || index >= part.past) continue;
            *iteration = (struct iteration){(uint32_t)k, (uint32_t)index};
            return 1;
        }
    return 0;
}

static int next_peeled(struct walk *walk, struct iteration *iteration) {
    for (; walk->loop < walk->plan->table->loops; walk->loop++) {
        struct range part = part_of(walk->plan, PEELED, walk->processor, walk->loop);
        if (walk->at == INT64_MAX) walk->at = part.from;
        if (walk->at < part.past) {
            *iteration = (struct iteration){(uint32_t)walk->loop, (uint32_t)walk->at++};
            return 1;
        }
        walk->at = INT64_MAX;
    }
    return 0;
}

int next_of(struct walk *walk, struct iteration *iteration) {
    return walk->phase == FUSED ? next_fused(walk, iteration) : next_peeled(walk, iteration);
}

static uint32_t marked(const uint8_t marks[MOST_ARRAYS]) {
    uint32_t count = 0;
    for (int q = 0; q < MOST_ARRAYS; q++) count += marks[q];
    return count;
}

void sweeps_of(const struct table *table, uint32_t sweeps[2]) {
    uint8_t touched[MOST_ARRAYS] = {0}, written[MOST_ARRAYS] = {0};
    sweeps[0] = 0;
    for (int k = 0; k < table->loops; k++) {
        struct access all[MOST_IN_ROW];
        uint8_t own[MOST_ARRAYS] = {0}, stored[MOST_ARRAYS] = {0};
        for (int r = accesses_of(&table->loop[k], all); r-- > 0;) {
            own[all[r].at.array] = touched[all[r].at.array] = 1;
            if (all[r].stores) stored[all[r].at.array] = written[all[r].at.array] = 1;
        }
        sweeps[0] += marked(own) + marked(stored);
    }
    sweeps[1] = marked(touched) + marked(written);
}

/* A text that grows. */
struct text {
    char *out;
    size_t length, room;
};

static void line(struct text *text, const char *word, const int64_t *numbers, int count) {
    char one[128];
    int length = snprintf(one, sizeof one, "%s", word);
    for (int i = 0; i < count; i++) length += snprintf(one + length, sizeof one - (size_t)length, " %lld", (long long)numbers[i]);
    one[length++] = '\n';
    if (text->length + (size_t)length <= text->room) memcpy(text->out + text->length, one, (size_t)length);
    text->length += (size_t)length;
}

static void range_lines(struct text *text, const struct plan *plan, enum phase phase) {
    for (uint32_t b = 0; b < plan->processors; b++)
        for (int k = 0; k < plan->table->loops; k++) {
            struct range part = part_of(plan, phase, b, k);
            if (part.from == part.past) continue;
            line(text, phase == FUSED ? "fused" : "peeled", (int64_t[]){b, k, part.from, part.past - 1}, 4);
        }
}

size_t text_of(const struct plan *plan, char *out, size_t room) {
    struct text text = {out, 0, room};
    for (int k = 0; k < plan->table->loops; k++) line(&text, "loop", (int64_t[]){k, plan->shift[k], plan->peel[k]}, 3);
    for (uint32_t b = 0; b < plan->processors; b++) line(&text, "block", (int64_t[]){b, plan->begin[b], plan->end[b]}, 3);
    range_lines(&text, plan, FUSED);
    range_lines(&text, plan, PEELED);
    uint32_t sweeps[2];
    sweeps_of(plan->table, sweeps);
    line(&text, "sweeps", (int64_t[]){sweeps[0], sweeps[1]}, 2);
    return text.length;
}
