/* Faults in plans by hand: what a call takes for the plan, and the check of a plan once more, by a wrong rule. */
#include <string.h>

#include "faults.h"

void amounts_in_force(const uint8_t *table, size_t length, struct vempaldi_settings settings, uint8_t out[VEMPALDI_AMOUNT_BYTES]) {
    uint64_t answer[4];
    if (settings.by_hand) memcpy(out, settings.plan, VEMPALDI_AMOUNT_BYTES);
    else real_vempaldi_shifts_and_peels(table, length, out, VEMPALDI_AMOUNT_BYTES, answer);
}

/* Whether a call leaves out the plan by hand: one that is meant, or one that is 20. */
static int left_out(const char *call, const uint8_t *table, size_t length, struct vempaldi_settings settings) {
    uint64_t answer[4];
    int meant = fault("all-by-hand-ignored") || fault_in(call, "by-hand-ignored"), unmet = fault_in(call, "unmet-ignored");
    if (!meant && !unmet) return 0;
    real_vempaldi_check_plan(table, length, settings, answer);
    return (meant && answer[0] != 19 && answer[0] != 20) || (unmet && answer[0] == 20);
}

void mistell_plan(const char *call, struct vempaldi_settings settings, uint32_t processor, uint64_t answer[4]) {
    int bad = settings.processors < 1 || settings.processors > VEMPALDI_MOST_PROCESSORS || processor >= settings.processors;
    if (answer[0] != 19 && answer[0] != 20) return;
    if (fault_in(call, "later-unnamed")) answer[2] = 0;
    if (fault_in(call, "line-before-plan") && !bad && !line_in_range(settings.line)) refuse(answer, 17);
    if (fault_in(call, "processors-before-plan") && bad) refuse(answer, 10);
}

/* The numbers of a plan taken from other places, or otherwise than they stand there. */
static void misread_numbers(uint8_t plan[VEMPALDI_AMOUNT_BYTES]) {
    uint8_t as_given[VEMPALDI_AMOUNT_BYTES];
    memcpy(as_given, plan, sizeof as_given);
    for (int i = 0; i < VEMPALDI_AMOUNT_BYTES; i += 4) {
        uint32_t number = number_at(as_given + i);
        if (fault("all-plan-exchanged")) put_at(plan + i, number_at(as_given + (i ^ 4)));
        if (fault("all-plan-stride-4")) put_at(plan + i, number_at(as_given + i / 8 * 4 + i % 8));
        if (fault("all-plan-16-bits")) put_at(plan + i, number & 0xffff);
        if (fault("all-plan-14-bits")) put_at(plan + i, number & 0x3fff);
        if (fault("all-plan-highest") && number == UINT32_MAX) put_at(plan + i, 0);
        if (fault("all-plan-high-byte-first")) put_at(plan + i, __builtin_bswap32(number));
    }
}

struct vempaldi_settings misread_plan(const char *call, const uint8_t *table, size_t length, struct vempaldi_settings settings) {
    uint32_t right = (uint32_t)(8 * loops_of(table, length));
    if (fault("all-by-hand-8-bits")) settings.by_hand &= 0xff;
    if (fault("all-by-hand-16-bits")) settings.by_hand &= 0xffff;
    if (fault("all-by-hand-1-alone")) settings.by_hand = settings.by_hand == 1;
    if (fault("all-by-hand-unasked") && settings.plan_length == right) settings.by_hand = 1;
    if (!settings.by_hand) return settings;
    if (fault("all-plan-length-ignored") || (fault("all-plan-longer") && settings.plan_length > right)) settings.plan_length = right;
    if (fault("all-plan-length-8-bits")) settings.plan_length &= 0xff;
    if (fault("all-plan-whole-loops") && settings.plan_length / 8 == right / 8) settings.plan_length = right;
    misread_numbers(settings.plan);
    if (fault("all-plan-sixteenth") && right == VEMPALDI_AMOUNT_BYTES) memcpy(settings.plan + 120, settings.plan + 112, 8);
    if (left_out(call, table, length, settings)) settings.by_hand = 0;
    return settings;
}

/* The check of a plan by hand, and the pair of loops that it is to tell, if any. */
struct judged {
    const uint8_t *table;
    size_t length;
    struct vempaldi_settings settings;
    int loops, not_below_own, pair_found, pair[2];
    int64_t shift[MOST_LOOPS], peel[MOST_LOOPS], threshold, own_threshold;
};

static int64_t above_0(int64_t number) { return number > 0 ? number : 0; }

static int met(const struct judged *at, int j, int k, int64_t d) {
    int64_t shift = at->shift[k] - at->shift[j] - above_0(-d), peel = at->peel[k] - at->peel[j] - above_0(d);
    if (fault("check-plan-just-met-refused")) return shift > 0 && peel > 0;
    if (fault("check-plan-one-below")) return shift > -2 && peel > -2;
    if (fault("check-plan-shifts-alone")) return shift >= 0;
    if (fault("check-plan-peels-alone")) return peel >= 0;
    if (fault("check-plan-neighbours-alone") && k > j + 1) return 1;
    if (fault("check-plan-no-0-distance") && d == 0) return 1;
    if (fault("check-plan-without-earlier")) return at->shift[k] >= -d && at->peel[k] >= d;
    if (fault("check-plan-own-alone") && at->not_below_own) return 1;
    return shift >= 0 && peel >= 0;
}

/* Whether the pair j, k is to be told before the one found so far. */
static int before(const int pair[2], int j, int k) {
    if (fault("check-plan-last-pair")) return j > pair[0] || (j == pair[0] && k > pair[1]);
    if (fault("check-plan-later-first")) return k < pair[1] || (k == pair[1] && j < pair[0]);
    if (fault("check-plan-later-highest")) return j < pair[0] || (j == pair[0] && k > pair[1]);
    return j < pair[0] || (j == pair[0] && k < pair[1]);
}

static void judge(void *own, int j, int k, int64_t d) {
    struct judged *at = own;
    if (met(at, j, k, d) || (at->pair_found && !before(at->pair, j, k))) return;
    at->pair_found = 1, at->pair[0] = j, at->pair[1] = k;
}

static void begin(struct judged *at, const uint8_t *table, size_t length, struct vempaldi_settings settings) {
    uint8_t own[VEMPALDI_AMOUNT_BYTES];
    uint64_t answer[4];
    *at = (struct judged){.table = table, .length = length, .settings = settings, .not_below_own = 1};
    at->loops = (int)real_vempaldi_shifts_and_peels(table, length, own, sizeof own, answer) / 8;
    for (int k = 0; k < at->loops; k++) {
        int64_t shift = number_at(own + 8 * k), peel = number_at(own + 8 * k + 4);
        at->shift[k] = number_at(settings.plan + 8 * k), at->peel[k] = number_at(settings.plan + 8 * k + 4);
        at->not_below_own &= at->shift[k] >= shift && at->peel[k] >= peel;
        if (at->shift[k] + at->peel[k] > at->threshold) at->threshold = at->shift[k] + at->peel[k];
        if (shift + peel > at->own_threshold) at->own_threshold = shift + peel;
    }
    each_dependence(table, !fault("check-plan-bounds-not-asked"), judge, at);
}

/* Ground 19. */
static int no_plan(const struct judged *at) {
    int numbers = 2 * (fault("check-plan-looks-behind") ? MOST_LOOPS : at->loops) - fault("check-plan-last-not-asked");
    uint32_t most = VEMPALDI_MOST_AMOUNT + (uint32_t)fault("check-plan-10001") - (uint32_t)fault("check-plan-9999");
    if (at->settings.plan_length != 8 * (uint32_t)at->loops) return 1;
    for (int i = fault("check-plan-first-not-asked"); i < numbers; i++)
        if (number_at(at->settings.plan + 4 * i) > most) return 1;
    return 0;
}

/* Whether the ground is given, if it is the first that is asked. */
static int holds(const struct judged *at, int ground) {
    const struct vempaldi_settings *s = &at->settings;
    int in_range = s->processors >= 1 && s->processors <= 64;
    int64_t threshold = fault("check-plan-short-by-own") ? at->own_threshold : at->threshold;
    if (ground == 19) return no_plan(at);
    if (ground == 20) return at->pair_found;
    if (ground == 10) return !in_range;
    if (ground == 17) return !line_in_range(s->line);
    return in_range && line_in_range(s->line) && too_short(at->table, at->length, *s, threshold);
}

/* The order in which the grounds are asked. */
static const int *order(void) {
    static const int right[] = {19, 20, 10, 17, 11}, unmet_first[] = {20, 19, 10, 17, 11}, processors_first[] = {10, 19, 20, 17, 11},
                     processors_between[] = {19, 10, 20, 17, 11}, line_first[] = {17, 19, 20, 10, 11}, last[] = {10, 17, 11, 19, 20};
    if (fault("check-plan-unmet-first")) return unmet_first;
    if (fault("check-plan-processors-first")) return processors_first;
    if (fault("check-plan-processors-between")) return processors_between;
    if (fault("check-plan-line-first")) return line_first;
    return fault("check-plan-last") ? last : right;
}

/* The check of a plan by hand for a table that is accepted. Answers the threshold that is told. */
static uint64_t judged(const struct judged *at, uint64_t answer[4]) {
    refuse(answer, 0);
    for (int i = 0; i < 5 && !answer[0]; i++)
        if (holds(at, order()[i])) refuse(answer, (uint64_t)order()[i]);
    if (answer[0] == 20) answer[1] = (uint64_t)at->pair[0], answer[2] = (uint64_t)at->pair[1];
    return answer[0] ? 0 : (uint64_t)at->threshold;
}

/* Faults in what is told of a plan by hand. */
static uint64_t told_wrong(const struct judged *at, uint64_t told, uint64_t answer[4]) {
    uint64_t shift = 0, peel = 0, earlier = answer[1];
    if (fault("check-plan-pair-exchanged") && answer[0] == 20) answer[1] = answer[2], answer[2] = earlier;
    if (fault("check-plan-later-unnamed") && answer[0] == 20) answer[2] = 0;
    if (fault("check-plan-pair-in-19") && answer[0] == 19) answer[2] = 1;
    if (fault("check-plan-length-as-place") && answer[0] == 19) answer[1] = at->settings.plan_length;
    if (fault("check-plan-tells-refused") && answer[0] == 20) return (uint64_t)at->threshold;
    if (fault("check-plan-tells-short") && answer[0] == 11) return (uint64_t)at->threshold;
    if (answer[0]) return told;
    for (int k = 0; k < at->loops; k++) {
        if ((uint64_t)at->shift[k] > shift) shift = (uint64_t)at->shift[k];
        if ((uint64_t)at->peel[k] > peel) peel = (uint64_t)at->peel[k];
    }
    if (fault("check-plan-tells-own")) return (uint64_t)at->own_threshold;
    if (fault("check-plan-tells-two-loops")) return shift + peel;
    return fault("check-plan-tells-14-bits") ? told & 0x3fff : told;
}

uint64_t vempaldi_check_plan(const uint8_t *table, size_t table_length, struct vempaldi_settings settings, uint64_t answer[4]) {
    struct judged at;
    uint64_t fourth = answer[3];
    table_length = length_in("check-plan", table_length), settings = settings_in("check-plan", table, table_length, settings);
    uint64_t told = real_vempaldi_check_plan(table, table_length, settings, answer);
    int refused = answer[0] >= 1 && answer[0] <= 9;
    if (any_fault_in("check-plan") && !refused && settings.by_hand) {
        begin(&at, table, table_length, settings);
        told = told_wrong(&at, judged(&at, answer), answer);
    }
    /* It comes to nothing: the answer has a 0 there. */
    if (fault("check-plan-peeks") && !refused && (settings.by_hand ? settings.plan[VEMPALDI_AMOUNT_BYTES - 1] : settings.plan[0])) answer[3] = 0;
    if (fault("check-plan-none-as-0") && !refused && !settings.by_hand) told = 0;
    if (fault("check-plan-fourth-unwritten")) answer[3] = fourth;
    return told;
}
