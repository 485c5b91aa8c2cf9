/* Faults in what makes a dependence: shifts and peels once more, from the table's bytes, by a wrong rule on the loops' bounds. */
#include <string.h>

#include "faults.h"

enum { MOST_ITERATIONS = 65536 };

struct found {
    int loops;
    struct loop loop[MOST_LOOPS];
    uint32_t shift[MOST_LOOPS], peel[MOST_LOOPS];
};

static int has(const struct loop *loop, int64_t index) { return loop->first <= index && index <= loop->last; }

/* How many iterations i of j have i + d in k; below 1 there are none. */
static int64_t common(const struct loop *j, const struct loop *k, int64_t d) {
    int64_t first = j->first > k->first - d ? j->first : k->first - d, last = j->last < k->last - d ? j->last : k->last - d;
    return last - first + 1;
}

/* Whether loops j and k make a dependence at distance d. */
typedef int rule(const struct loop *j, const struct loop *k, int64_t d);

static int not_asked(const struct loop *j, const struct loop *k, int64_t d) { return (void)j, (void)k, (void)d, 1; }
static int earlier_alone(const struct loop *j, const struct loop *k, int64_t d) { return (void)k, common(j, j, d) > 0; }
static int later_alone(const struct loop *j, const struct loop *k, int64_t d) { return (void)j, common(k, k, d) > 0; }
static int begin_alone(const struct loop *j, const struct loop *k, int64_t d) { return k->first - d <= j->last; }
static int end_alone(const struct loop *j, const struct loop *k, int64_t d) { return j->first <= k->last - d; }
static int other_sign(const struct loop *j, const struct loop *k, int64_t d) { return common(j, k, -d) > 0; }
static int ends_alone(const struct loop *j, const struct loop *k, int64_t d) { return has(k, j->first + d) || has(k, j->last + d); }
static int strictly(const struct loop *j, const struct loop *k, int64_t d) { return common(j, k, d) > 1; }
static int miss_by_one(const struct loop *j, const struct loop *k, int64_t d) { return common(j, k, d) > -1; }

static int farthest_not_asked(const struct loop *j, const struct loop *k, int64_t d) {
    return d == 510 || d == -510 || common(j, k, d) > 0;
}
static int right(const struct loop *j, const struct loop *k, int64_t d) { return common(j, k, d) > 0; }
static int far_strictly(const struct loop *j, const struct loop *k, int64_t d) {
    return common(j, k, d) > (d >= 300 || d <= -300);
}

/* The rule of the fault that is chosen, or none. */
static rule *chosen(const char *call) {
    static const struct {
        const char *name;
        rule *rule;
    } all[] = {{"bounds-not-asked", not_asked},
               {"earlier-bounds-alone", earlier_alone},
               {"later-bounds-alone", later_alone},
               {"late-begin-alone", begin_alone},
               {"early-end-alone", end_alone},
               {"other-sign", other_sign},
               {"ends-alone", ends_alone},
               {"strictly-less", strictly},
               {"miss-by-one", miss_by_one},
               {"farthest-not-asked", farthest_not_asked},
               {"far-strictly-less", far_strictly},
               {"first-destination-alone", right},
               {"first-reads-alone", right},
               {"further-as-reads", right}};
    for (size_t i = 0; i < sizeof all / sizeof *all; i++)
        if (fault_in(call, all[i].name)) return all[i].rule;
    return NULL;
}

static void raise_to(uint32_t *number, int64_t other) {
    if (other > *number) *number = (uint32_t)other;
}

/* Whether two references of two loops are to one array, and not both read it. */
static int joined(const struct loop *one, int a, const struct loop *other, int b) {
    return one->array[a] >= 0 && one->array[a] == other->array[b] && (one->stores[a] || other->stores[b]);
}

/* Without what the faults CALL-first-destination-alone, CALL-first-reads-alone and CALL-further-as-reads leave out or take for reads. */
static void leave_out(const char *call, struct found *found) {
    int stores = fault_in(call, "first-destination-alone"), reads = fault_in(call, "first-reads-alone"), taken = fault_in(call, "further-as-reads");
    for (int k = 0; k < found->loops; k++) {
        struct loop *loop = &found->loop[k];
        for (int r = 0; r < loop->references; r++) {
            if (loop->statement[r] == 0) continue;
            if (loop->stores[r] ? stores : reads) loop->array[r] = -1;
            if (taken) loop->stores[r] = 0;
        }
    }
}

/* What the pairs of references of j and k give k. */
static void carry(struct found *found, rule *meet, int j, int k) {
    const struct loop *one = &found->loop[j], *other = &found->loop[k];
    for (int a = 0; a < one->references; a++)
        for (int b = 0; b < other->references; b++) {
            int64_t d = one->offset[a] - other->offset[b];
            if (!joined(one, a, other, b) || !meet(one, other, d)) continue;
            raise_to(&found->shift[k], found->shift[j] + (d < 0 ? -d : 0));
            raise_to(&found->peel[k], found->peel[j] + (d > 0 ? d : 0));
        }
}

/* The largest totals of the chains that end at each iteration of each loop: shift and peel. */
static uint32_t ending[MOST_LOOPS][MOST_ITERATIONS][2];

/* The same for each iteration of k by itself: a dependence goes on a chain only from the iteration where the one before ended. */
static void carry_alone(struct found *found, int j, int k) {
    const struct loop *one = &found->loop[j], *other = &found->loop[k];
    for (int a = 0; a < one->references; a++)
        for (int b = 0; b < other->references; b++) {
            int64_t d = one->offset[a] - other->offset[b];
            if (!joined(one, a, other, b)) continue;
            for (int64_t i = other->first; i <= other->last; i++) {
                if (!has(one, i - d)) continue;
                const uint32_t *before = ending[j][i - d - one->first];
                uint32_t *behind = ending[k][i - other->first];
                raise_to(&behind[0], before[0] + (d < 0 ? -d : 0));
                raise_to(&behind[1], before[1] + (d > 0 ? d : 0));
                raise_to(&found->shift[k], behind[0]);
                raise_to(&found->peel[k], behind[1]);
            }
        }
}

void each_dependence(const uint8_t *table, int bounds_asked, dependence *each, void *own) {
    struct found found;
    found.loops = take_loops(table, found.loop);
    leave_out("check-plan", &found);
    for (int k = 0; k < found.loops; k++)
        for (int j = 0; j < k; j++) {
            const struct loop *one = &found.loop[j], *other = &found.loop[k];
            for (int a = 0; a < one->references; a++)
                for (int b = 0; b < other->references; b++) {
                    int64_t d = one->offset[a] - other->offset[b];
                    if (joined(one, a, other, b) && (!bounds_asked || common(one, other, d) > 0)) each(own, j, k, d);
                }
        }
}

/* Where a fault is chosen for the call: shifts and peels by it. */
static int misjudged(const char *call, const uint8_t *table, struct found *found) {
    rule *meet = chosen(call);
    if (!meet && !fault_in(call, "chain-of-iterations")) return 0;
    memset(found, 0, sizeof *found);
    found->loops = take_loops(table, found->loop);
    leave_out(call, found);
    for (int k = 0; k < found->loops; k++) {
        if (!meet) memset(ending[k], 0, sizeof ending[k]);
        for (int j = 0; j < k; j++)
            if (meet) carry(found, meet, j, k);
            else carry_alone(found, j, k);
    }
    return 1;
}

void misjudge_amounts(const uint8_t *table, uint8_t *out) {
    static struct found found;
    if (!misjudged("amounts", table, &found)) return;
    for (int k = 0; k < found.loops; k++) put_at(out + 8 * k, found.shift[k]), put_at(out + 8 * k + 4, found.peel[k]);
}

void misjudge_threshold(const uint8_t *table, uint8_t *out) {
    static struct found found;
    uint32_t threshold = 0;
    if (!misjudged("threshold", table, &found)) return;
    for (int k = 0; k < found.loops; k++) raise_to(&threshold, (int64_t)found.shift[k] + found.peel[k]);
    put_at(out, threshold);
}
