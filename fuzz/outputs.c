/* Check, the check of a plan, join, and every call that writes numbers or text: answer, count and bytes are the model's, the bytes behind them
 * as found. */
#include "call.h"

#include <string.h>

/* The longest text is one by hand: sixteen loops in 64 blocks, indices of five digits, shifts and peels of three, and all ranges there. It is
 * worked out here, not the header's number. */
enum { MOST_LISTED = 4096, LONGEST_TEXT = 49780 };

/* What a call is to write. */
struct output {
    size_t length;
    uint8_t bytes[8 * MOST_LISTED > LONGEST_TEXT ? 8 * MOST_LISTED : LONGEST_TEXT];
};

static void put(struct output *out, int64_t number) {
    for (int i = 0; i < 4; i++) out->bytes[out->length++] = (uint8_t)((uint64_t)number >> 8 * i);
}

static void facts(const struct table *table, struct output *out) {
    put(out, table->arrays);
    put(out, table->loops);
    put(out, table->elements);
    for (int q = 0; q < table->arrays; q++) put(out, table->begins[q]), put(out, table->lengths[q]);
    for (int k = 0; k < table->loops; k++) put(out, table->loop[k].first), put(out, table->loop[k].last);
}

static void amounts(const struct plan *plan, struct output *out) {
    for (int k = 0; k < plan->table->loops; k++) put(out, plan->shift[k]), put(out, plan->peel[k]);
}

static void sweeps(const struct table *table, struct output *out) {
    uint32_t both[2];
    sweeps_of(table, both);
    put(out, both[0]), put(out, both[1]);
}

static void blocks(const struct plan *plan, struct output *out) {
    for (uint32_t b = 0; b < plan->processors; b++) put(out, plan->begin[b]), put(out, plan->end[b]);
}

static void list(const struct call *call, enum phase phase, struct output *out) {
    struct walk walk = walk_from(&call->plan, phase, call->processor);
    struct iteration one;
    while (next_of(&walk, &one)) put(out, one.loop), put(out, one.index);
}

static void ranges(const struct call *call, enum phase phase, struct output *out) {
    for (int k = 0; k < call->table.loops; k++) {
        struct range part = part_of(&call->plan, phase, call->processor, k);
        put(out, part.from), put(out, part.past);
    }
}

/* What an accepted call writes. */
static void write_output(const struct call *call, enum entry entry, struct output *out) {
    out->length = 0;
    switch (entry) {
    case FACTS: facts(&call->table, out); return;
    case SHIFTS_AND_PEELS: amounts(&call->own, out); return;
    case THRESHOLD: put(out, call->own.threshold); return;
    case SWEEPS: sweeps(&call->table, out); return;
    case BLOCKS: blocks(&call->plan, out); return;
    case FUSED_LIST: list(call, FUSED, out); return;
    case PEELED_LIST: list(call, PEELED, out); return;
    case FUSED_RANGES: ranges(call, FUSED, out); return;
    case PEELED_RANGES: ranges(call, PEELED, out); return;
    default: out->length = text_of(&call->plan, (char *)out->bytes, sizeof out->bytes);
    }
}

uint64_t called(struct call *call, enum entry entry, uint8_t *out, size_t room) {
    const uint8_t *t = call->bytes;
    size_t n = call->length;
    struct vempaldi_settings s = call->settings;
    uint32_t q = call->processor;
    switch (entry) {
    case FACTS: return vempaldi_facts(t, n, out, room, call->answer);
    case SHIFTS_AND_PEELS: return vempaldi_shifts_and_peels(t, n, out, room, call->answer);
    case THRESHOLD: return vempaldi_threshold(t, n, out, room, call->answer);
    case SWEEPS: return vempaldi_sweeps(t, n, out, room, call->answer);
    case BLOCKS: return vempaldi_blocks(t, n, s, out, room, call->answer);
    case FUSED_LIST: return vempaldi_fused_list(t, n, s, q, out, room, call->answer);
    case PEELED_LIST: return vempaldi_peeled_list(t, n, s, q, out, room, call->answer);
    case FUSED_RANGES: return vempaldi_fused_ranges(t, n, s, q, out, room, call->answer);
    case PEELED_RANGES: return vempaldi_peeled_ranges(t, n, s, q, out, room, call->answer);
    default: return vempaldi_listing(t, n, s, out, room, call->answer);
    }
}

/* One call with an output of `room` bytes that is refused with `ground`, or else is to write `right`. */
static void with_room(struct call *call, enum entry entry, uint64_t ground, size_t room, const struct output *right) {
    struct lent out;
    uint8_t *lent = lend(&out, room);
    expect(call, entry, ground ? ground : right->length > room ? 13 : 0);
    /* A pointer may be anything where its length is 0. */
    uint64_t written = called(call, entry, room ? lent : NULL, room);
    answered(call);
    size_t wanted = call->expected[0] ? 0 : right->length;
    if (written != wanted) breach(call, "another count of bytes than it is to write");
    memcpy(wanted_in(&out), right->bytes, wanted);
    compare(call, &out, "another output, or bytes behind it changed");
    give_back(&out);
}

/* Any room, exactly enough, one byte too few, and some more than enough. */
static void with_rooms(struct call *call, enum entry entry, size_t any, int has_processor) {
    static struct output right;
    uint64_t ground = entry < BLOCKS ? 0 : plan_ground(call, has_processor);
    right.length = 0;
    if (!call->verdict[0] && !ground) write_output(call, entry, &right);
    with_room(call, entry, ground, any, &right);
    with_room(call, entry, ground, right.length, &right);
    with_room(call, entry, ground, right.length + 9, &right);
    if (right.length) with_room(call, entry, ground, right.length - 1, &right);
}

void check(struct call *call) {
    expect(call, CHECK, 0);
    vempaldi_check(call->bytes, call->length, call->answer);
    answered(call);
}

void check_plan(struct call *call) {
    expect(call, CHECK_PLAN, plan_ground(call, 0));
    uint64_t threshold = vempaldi_check_plan(call->bytes, call->length, call->settings, call->answer);
    answered(call);
    if (threshold != (call->expected[0] ? 0 : (uint64_t)call->plan.threshold)) breach(call, "another threshold");
}

/* Left's arrays and loops, right's loops, and the end; or 14, 4. */
static uint64_t joined(const struct call *left, const struct call *right, struct output *out) {
    const struct table *one = &left->table, *other = &right->table;
    out->length = 0;
    if (left->verdict[0] || right->verdict[0]) return 0;
    size_t lengths = sizeof one->lengths[0] * (size_t)one->arrays;
    if (one->arrays != other->arrays || memcmp(one->lengths, other->lengths, lengths)) return 14;
    if (one->loops + other->loops > MOST_LOOPS) return 4;
    memcpy(out->bytes, left->bytes, one->end_at);
    memcpy(out->bytes + one->end_at, right->bytes + other->loops_at, right->length - other->loops_at);
    out->length = one->end_at + right->length - other->loops_at;
    return 0;
}

/* A table to join with: mostly one over the same arrays, else the same table or any other. */
static size_t make_other(const struct call *left, struct cursor *bytes, uint8_t *other) {
    uint32_t way = take(bytes, 1) % 4;
    if (way < 2 && !left->verdict[0]) return make_over(bytes, left->table.lengths, left->table.arrays, other);
    if (way < 3) return make_table(bytes, other);
    size_t length = left->length < MOST_MADE ? left->length : MOST_MADE;
    if (length) memcpy(other, left->bytes, length);
    return length;
}

void join(const struct call *left, struct cursor *bytes) {
    static struct call right;
    static struct output wanted;
    static uint8_t other[MOST_MADE + 65536];
    size_t length = make_other(left, bytes, other), behind = bytes_behind(bytes);
    memset(other + length, 0, behind);
    length += behind;
    begin_call(&right, other, length, left->settings);
    check(&right);
    uint64_t ground = joined(left, &right, &wanted);
    size_t rooms[] = {VEMPALDI_TABLE_BYTES, take(bytes, 2) % 300, wanted.length, wanted.length ? wanted.length - 1 : 0};
    for (int i = 0; i < 4; i++) {
        struct lent out;
        uint8_t *lent = lend(&out, rooms[i]);
        expect(&right, JOIN, ground ? ground : wanted.length > rooms[i] ? 13 : 0);
        /* The left table's refusal comes before the right one's. */
        if (left->verdict[0]) memcpy(right.expected, left->verdict, sizeof right.expected);
        uint64_t written = vempaldi_join(left->bytes, left->length, other, length, lent, rooms[i], right.answer);
        answered(&right);
        size_t count = right.expected[0] ? 0 : wanted.length;
        if (written != count) breach(&right, "another count of bytes than it is to write");
        memcpy(wanted_in(&out), wanted.bytes, count);
        compare(&right, &out, "another output, or bytes behind it changed");
        give_back(&out);
    }
}

/* A processor's lists and ranges. A list that is too long to be written here has too little room. */
static void of_processor(struct call *call, uint32_t processor, size_t any) {
    static struct output untold;
    call->processor = processor;
    int planned = !call->verdict[0] && !plan_ground(call, 1);
    for (enum entry entry = FUSED_LIST; entry <= PEELED_RANGES; entry++) {
        enum phase phase = entry == FUSED_LIST ? FUSED : PEELED;
        untold.length = planned && entry < FUSED_RANGES ? 8 * list_length(&call->plan, phase, processor) : 0;
        if (untold.length > 8 * MOST_LISTED) with_room(call, entry, 0, any % 700, &untold);
        else with_rooms(call, entry, any, 1);
    }
}

void outputs(struct call *call, struct cursor *bytes) {
    size_t any = take(bytes, 2) % 700 + (seldom(bytes, 64) ? 65536 : 0);
    for (enum entry entry = FACTS; entry <= LISTING; entry++) with_rooms(call, entry, any, 0);
    of_processor(call, take(bytes, 1) % 8 ? take(bytes, 1) % 8 : wide(bytes, take(bytes, 1) % 4), any);
    if (!call->verdict[0] && !call->planned) of_processor(call, take(bytes, 1) % call->settings.processors, take(bytes, 1));
}
