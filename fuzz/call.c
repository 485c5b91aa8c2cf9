/* What is expected of an answer, breaches, and lent bytes between guards. */
#include "call.h"

#include <inttypes.h>
#include <stdio.h>
#include <stdlib.h>
#include <string.h>

enum { MOST_NAMED = 22, PATTERN = 4096, GROUNDS = 21 };

static const char *const names[ENTRIES] = {"check",      "join",        "check plan",   "facts",         "shifts and peels", "threshold",
                                           "sweeps",     "blocks",      "listing",      "fused list",    "peeled list",
                                           "fused ranges", "peeled ranges", "plain run", "step",         "run"};

static uint64_t given[ENTRIES][GROUNDS], with_pairs[MEETINGS];

/* How often check named a reference with 9, as the lower and as the higher of its pair, and how many of these pairs are of two destinations and of a
 * read before the destination. */
static uint64_t named[2][MOST_NAMED], two_stored, read_first;

/* Tables by the most statements of a loop, and grounds by which they are refused at the record of a further statement. */
static uint64_t with_statements[MOST_STATEMENTS + 2], statement_grounds[GROUNDS];

/* The library is not instrumented, so the fuzzer learns what is new from the answers. Without libFuzzer this is a plain array. */
#if defined(__clang__)
__attribute__((section("__libfuzzer_extra_counters")))
#endif
static uint8_t novel[ENTRIES * GROUNDS * 64];

void begin_call(struct call *call, const uint8_t *bytes, size_t length, struct vempaldi_settings settings) {
    call->bytes = bytes, call->length = length, call->processor = 0;
    read_table(bytes, length, &call->table, call->verdict);
    if (!call->verdict[0]) find_amounts(&call->table, &call->own);
    plan_call(call, settings);
}

void plan_call(struct call *call, struct vempaldi_settings settings) {
    call->settings = settings;
    if (call->verdict[0]) return;
    call->plan = call->own;
    memset(call->by_hand, 0, sizeof call->by_hand);
    if (settings.by_hand) take_plan(&call->plan, settings.plan_length, settings.plan, call->by_hand);
    call->planned = call->by_hand[0] ? call->by_hand[0] : find_blocks(&call->plan, settings.processors, settings.line);
}

void count_pairs(const struct call *call) {
    for (int kind = 0; kind < MEETINGS && !call->verdict[0]; kind++) with_pairs[kind] += call->own.pairs[kind] > 0;
}

void count_statements(const struct call *call) {
    with_statements[call->table.most_statements]++;
    if (call->verdict[0] && call->verdict[0] < 8 && call->table.at_statement) statement_grounds[call->verdict[0]]++;
}

/* A pair that check names with 9. */
static void count_named(const struct call *call) {
    struct access all[MOST_IN_ROW];
    uint64_t lower = call->answer[2], higher = call->answer[3];
    accesses_of(&call->table.loop[call->answer[1]], all);
    named[0][lower % MOST_NAMED]++, named[1][higher % MOST_NAMED]++;
    two_stored += all[lower].stores && all[higher].stores, read_first += !all[lower].stores;
}

/* Plans by what their blocks are like, and refusals with 11 by what alone makes them. */
static struct {
    uint64_t plans, lined, cut, shorter, few, by_cut;
} blocks;

void count_blocks(const struct call *call) {
    if (call->verdict[0] || (call->planned && call->planned != 11)) return;
    const struct plan *plan = &call->plan;
    if (call->planned) {
        blocks.few += plan->lines < call->settings.processors && plan->indices >= call->settings.processors;
        blocks.by_cut += plan->lines >= call->settings.processors && !plan->uncut_short;
        return;
    }
    uint32_t last = plan->processors - 1;
    blocks.plans++;
    blocks.lined += call->settings.line > 1;
    blocks.cut += plan->indices < (int64_t)plan->lines * call->settings.line;
    blocks.shorter += last > 0 && plan->end[last] - plan->begin[last] < plan->end[last - 1] - plan->begin[last - 1];
}

static void tell_blocks(void) {
    fprintf(stderr, "  plans: %" PRIu64 ", with lines of two iterations or more: %" PRIu64 ", with a last block that is cut: %" PRIu64,
            blocks.plans, blocks.lined, blocks.cut);
    fprintf(stderr, ", that is shorter than the one before: %" PRIu64 "\n", blocks.shorter);
    fprintf(stderr, "  11 of lines alone, not of indices: %" PRIu64 ", of the last block's cut alone: %" PRIu64 "\n", blocks.few,
            blocks.by_cut);
}

void expect(struct call *call, enum entry entry, uint64_t ground) {
    call->entry = entry;
    memcpy(call->expected, call->verdict, sizeof call->expected);
    if (!call->verdict[0] && ground == call->by_hand[0]) memcpy(call->expected, call->by_hand, sizeof call->expected);
    else if (!call->verdict[0]) call->expected[0] = ground;
    memset(call->answer, 0xee, sizeof call->answer);
}

uint64_t plan_ground(const struct call *call, int has_processor) {
    if (call->verdict[0]) return 0;
    if (call->by_hand[0]) return call->by_hand[0];
    if (has_processor && call->processor >= call->settings.processors) return 10;
    return call->planned;
}

void answered(struct call *call) {
    if (memcmp(call->answer, call->expected, sizeof call->answer)) breach(call, "another answer");
    uint64_t number = call->answer[0], place = call->answer[1], first = call->answer[2], second = call->answer[3];
    given[call->entry][number]++;
    if (call->entry == CHECK && number == 9) count_named(call);
    uint64_t which = number == 9 ? place % 2 * 32 + first % 4 * 8 + second % 8 : number == 20 ? place % 4 * 16 + first % 16 : place < 63 ? place : 63;
    novel[((unsigned)call->entry * GROUNDS + number) * 64 + which] = 1;
}

static void tell_answer(const char *what, const uint64_t answer[4]) {
    fprintf(stderr, "  %-8s", what);
    for (int i = 0; i < 4; i++) fprintf(stderr, " %" PRIu64, answer[i]);
    fprintf(stderr, "\n");
}

void breach(const struct call *call, const char *what) {
    fprintf(stderr, "BREACH in %s: %s\n  processors %u, line %u, processor %u\n", names[call->entry], what, call->settings.processors,
            call->settings.line, call->processor);
    uint32_t kept = call->settings.plan_length < VEMPALDI_AMOUNT_BYTES ? call->settings.plan_length : VEMPALDI_AMOUNT_BYTES;
    if (call->settings.by_hand) fprintf(stderr, "  by hand %u, a plan of %u bytes: ", call->settings.by_hand, call->settings.plan_length);
    for (uint32_t i = 0; i < kept && call->settings.by_hand; i++) fprintf(stderr, "%02x", call->settings.plan[i]);
    if (call->settings.by_hand) fprintf(stderr, "\n");
    tell_answer("answer", call->answer);
    tell_answer("expected", call->expected);
    fprintf(stderr, "  table    ");
    for (size_t i = 0; i < call->length; i++) fprintf(stderr, "%02x", call->bytes[i]);
    fprintf(stderr, "\n");
    abort();
}

static void tell_statements(void) {
    fprintf(stderr, "  tables by the most statements of a loop:");
    for (int count = 0; count < MOST_STATEMENTS + 2; count++) fprintf(stderr, " %d:%" PRIu64, count, with_statements[count]);
    fprintf(stderr, "\n  grounds at the record of a further statement:");
    for (int n = 0; n < GROUNDS; n++)
        if (statement_grounds[n]) fprintf(stderr, " %d:%" PRIu64, n, statement_grounds[n]);
    fprintf(stderr, "\n");
}

void tell(void) {
    fprintf(stderr, "fuzz: calls by ground (0 accepted):\n");
    for (int e = 0; e < ENTRIES; e++) {
        fprintf(stderr, "  %-16s", names[e]);
        for (int n = 0; n < GROUNDS; n++)
            if (given[e][n]) fprintf(stderr, " %d:%" PRIu64, n, given[e][n]);
        fprintf(stderr, "\n");
    }
    for (int which = 0; which < 2; which++) {
        fprintf(stderr, "  references that check named with 9 as the %s:", which ? "higher" : "lower");
        for (int number = 0; number < MOST_NAMED; number++)
            if (named[which][number]) fprintf(stderr, " %d:%" PRIu64, number, named[which][number]);
        fprintf(stderr, "\n");
    }
    fprintf(stderr, "  of these pairs, of two destinations: %" PRIu64 ", of a read before the destination: %" PRIu64 "\n", two_stored, read_first);
    tell_statements();
    fprintf(stderr, "  tables with references that are apart, miss by one, meet once, meet often:");
    for (int kind = 0; kind < MEETINGS; kind++) fprintf(stderr, " %" PRIu64, with_pairs[kind]);
    fprintf(stderr, "\n");
    tell_blocks();
    tell_plans();
}

/* Bytes of which none is like its neighbours. */
static const uint8_t *pattern(void) {
    static uint8_t bytes[PATTERN];
    if (bytes[0] == 0)
        for (size_t k = 0; k < PATTERN; k++) bytes[k] = (uint8_t)(k * 7 + 13);
    return bytes;
}

uint8_t *lend(struct lent *lent, size_t size) {
    size_t whole = size + 2 * GUARD;
    lent->all = malloc(whole);
    lent->wanted = malloc(whole);
    if (!lent->all || !lent->wanted) abort();
    for (size_t i = 0; i < whole; i += PATTERN) memcpy(lent->all + i, pattern(), whole - i < PATTERN ? whole - i : PATTERN);
    lent->size = size;
    found(lent);
    return lent->all + GUARD;
}

uint8_t *wanted_in(const struct lent *lent) { return lent->wanted + GUARD; }

void found(struct lent *lent) { memcpy(lent->wanted, lent->all, lent->size + 2 * GUARD); }

void compare(const struct call *call, const struct lent *lent, const char *what) {
    if (memcmp(lent->all, lent->wanted, lent->size + 2 * GUARD)) breach(call, what);
}

void give_back(struct lent *lent) {
    free(lent->all);
    free(lent->wanted);
}
