/* Faults in several statements of a loop: how they are counted, named by 9, joined, swept and run. */
#include <stdlib.h>
#include <string.h>

#include "faults.h"

const uint8_t *behind(const uint8_t *at) {
    static const size_t bodies[] = VEMPALDI_BODY_LENGTHS;
    return at + 1 + bodies[*at];
}

static void add_reference(struct loop *loop, const uint8_t *at, int stores, int statement) {
    int r = loop->references++;
    loop->array[r] = at[0], loop->offset[r] = (int16_t)(at[1] | at[2] << 8);
    loop->stores[r] = stores, loop->statement[r] = statement;
}

int take_loops(const uint8_t *table, struct loop loops[MOST_LOOPS]) {
    int count = 0, statement = 0;
    for (const uint8_t *at = table; *at != 6; at = behind(at)) {
        if (*at == 2) {
            loops[count] = (struct loop){.first = number_at(at + 1), .last = number_at(at + 5)};
            add_reference(&loops[count++], at + 9, 1, statement = 0);
        } else if (*at == 7) {
            add_reference(&loops[count - 1], at + 1, 1, ++statement);
        } else if (*at == 3) {
            add_reference(&loops[count - 1], at + 1, 0, statement);
        }
    }
    return count;
}

/* Whether two different iterations meet by references a and b, one of which stores. */
static int collide(const struct loop *loop, int a, int b) {
    int64_t distance = loop->offset[a] > loop->offset[b] ? loop->offset[a] - loop->offset[b] : loop->offset[b] - loop->offset[a];
    return loop->array[a] == loop->array[b] && (loop->stores[a] || loop->stores[b]) && distance > 0 && distance <= loop->last - loop->first;
}

/* Whether the fault that is chosen looks at the pair at all. */
static int looked_at(const struct loop *loop, int lower, int higher) {
    if (fault("check-stores-not-compared")) return !loop->stores[lower] || !loop->stores[higher];
    if (fault("check-first-destination-alone")) return lower == 0;
    if (fault("check-read-before-not-compared")) return loop->stores[lower];
    if (fault("check-one-statement-alone")) return loop->statement[lower] == loop->statement[higher];
    return 1;
}

/* The pair of a loop by the fault that is chosen. Answers whether there is one. */
static int pair_of(const struct loop *loop, int pair[2]) {
    int found = 0, by_higher = fault("check-pair-by-higher"), highest = fault("check-pair-highest-higher");
    for (int lower = 0; lower < loop->references; lower++)
        for (int higher = lower + 1; higher < loop->references; higher++) {
            if (!collide(loop, lower, higher) || !looked_at(loop, lower, higher)) continue;
            int better = !found || (by_higher && higher < pair[1]) || (highest && lower == pair[0]);
            if (better) found = 1, pair[0] = lower, pair[1] = higher;
        }
    return found;
}

/* A reference's number among the reads alone, or a destination's among the destinations. */
static int number_among(const struct loop *loop, int reference) {
    int before = 0;
    for (int r = 0; r < reference; r++) before += loop->stores[r] == loop->stores[reference];
    return before;
}

void misname(const uint8_t *table, uint64_t answer[4]) {
    static const char *const names[] = {"check-stores-not-compared", "check-first-destination-alone", "check-read-before-not-compared",
                                        "check-one-statement-alone", "check-pair-by-higher", "check-pair-highest-higher",
                                        "check-reads-alone-numbered"};
    static _Thread_local struct loop loops[MOST_LOOPS];
    int chosen = 0, pair[2];
    for (size_t i = 0; i < sizeof names / sizeof *names; i++) chosen |= fault(names[i]);
    if (!chosen || answer[0] != 9) return;
    int count = take_loops(table, loops);
    refuse(answer, 0);
    for (int k = 0; k < count && !answer[0]; k++) {
        if (!pair_of(&loops[k], pair)) continue;
        int alone = fault("check-reads-alone-numbered");
        answer[0] = 9, answer[1] = (uint64_t)k;
        for (int i = 0; i < 2; i++) answer[2 + i] = (uint64_t)(alone ? number_among(&loops[k], pair[i]) : pair[i]);
    }
}

/* What the table without the bytes from `from` to one before `past` is answered, its places counted in the whole one. */
static void check_without(const uint8_t *table, size_t length, size_t from, size_t past, uint64_t answer[4]) {
    uint8_t *other = malloc(length + 1);
    if (!other) abort();
    memcpy(other, table, from);
    memcpy(other + from, table + past, length - past);
    real_vempaldi_check(other, length - (past - from), answer);
    if (answer[0] >= 1 && answer[0] <= 8 && answer[1] >= from) answer[1] += past - from;
    free(other);
}

/* Where the row of items from a place on ends. */
static size_t items_end(const uint8_t *table, size_t length, size_t at) {
    while (at < length && table[at] >= 3 && table[at] <= 5 && (size_t)(behind(table + at) - table) <= length) at = (size_t)(behind(table + at) - table);
    return at;
}

void miscount(const uint8_t *table, size_t length, uint64_t answer[4]) {
    size_t place = answer[1], loop = 0, last = 0;
    if (answer[0] != 4 || place >= length) return;
    for (const uint8_t *at = table; at < table + place; at = behind(at)) {
        if (*at == 2) loop = last = (size_t)(at - table);
        if (*at == 7) last = (size_t)(at - table);
    }
    /* A fifth statement is let pass with its body. */
    if (fault("check-fifth-accepted") && table[place] == 7 && place + 4 <= length)
        check_without(table, length, place, items_end(table, length, place + 4), answer);
    /* The items are counted anew with each statement: those of the ones before are left out. */
    if (fault("check-items-anew") && table[place] >= 3 && table[place] <= 5 && last > loop)
        check_without(table, length, loop + 12, last + 4, answer);
}

uint64_t without_statements(uint8_t *out, uint64_t written) {
    uint64_t kept = 0;
    for (uint64_t at = 0; at < written;) {
        uint64_t record = (uint64_t)(behind(out + at) - (out + at)), drop = out[at] == 7;
        memmove(out + kept, out + at, drop ? 0 : record);
        kept += drop ? 0 : record;
        at += record;
    }
    return kept;
}

void sweep_first(const uint8_t *table, uint8_t *out) {
    static _Thread_local struct loop loops[MOST_LOOPS];
    uint32_t before = 0, all_touched = 0, all_written = 0;
    for (int k = 0, count = take_loops(table, loops); k < count; k++) {
        uint32_t touched = 0, written = 0;
        for (int r = 0; r < loops[k].references && loops[k].statement[r] == 0; r++) {
            touched |= 1u << loops[k].array[r];
            if (loops[k].stores[r]) written |= 1u << loops[k].array[r];
        }
        before += (uint32_t)(__builtin_popcount(touched) + __builtin_popcount(written));
        all_touched |= touched, all_written |= written;
    }
    put_at(out, before);
    put_at(out + 4, (uint32_t)(__builtin_popcount(all_touched) + __builtin_popcount(all_written)));
}

/* A loop's statements as they stand in the bytes: where each one's destination and its items are. */
struct stated {
    int count;
    const uint8_t *loop, *to[4], *items[5];
};

/* The statements of the loop at `at`. Answers where its bytes end. */
static const uint8_t *take_statements(const uint8_t *at, struct stated *stated) {
    stated->loop = at, stated->to[0] = at + 9, stated->items[0] = behind(at), stated->count = 1;
    for (at = behind(at); *at != 2 && *at != 6; at = behind(at))
        if (*at == 7) stated->to[stated->count] = at + 1, stated->items[stated->count++] = behind(at);
    return stated->items[stated->count] = at;
}

/* Where the items of a statement end. */
static const uint8_t *items_past(const struct stated *stated, int n) {
    return n + 1 < stated->count ? stated->to[n + 1] - 1 : stated->items[stated->count];
}

static void append(uint8_t *own, size_t *length, const uint8_t *from, size_t count) {
    memcpy(own + *length, from, count);
    *length += count;
}

/* Statement n of a loop as its first, or as a further one. */
static void append_statement(uint8_t *own, size_t *length, const struct stated *stated, int n, int first) {
    append(own, length, first ? stated->loop : (const uint8_t[]){7}, first ? 9 : 1);
    append(own, length, stated->to[n], 3);
    append(own, length, stated->items[n], (size_t)(items_past(stated, n) - stated->items[n]));
}

size_t restated(const char *call, const uint8_t *table, size_t table_length, uint8_t own[VEMPALDI_TABLE_BYTES]) {
    int falling = fault_in(call, "statements-falling"), alone = fault_in(call, "first-statement-alone");
    const uint8_t *at = table;
    size_t length = 0;
    struct stated stated;
    (void)table_length;
    for (; *at == 1; at = behind(at)) append(own, &length, at, 5);
    while (*at == 2) {
        at = take_statements(at, &stated);
        for (int n = 0; n < (alone ? 1 : stated.count); n++)
            append_statement(own, &length, &stated, falling ? stated.count - 1 - n : n, n == 0);
    }
    append(own, &length, at, 1);
    return length;
}

/* The one number that statement n stores in an iteration: a table of this statement and this iteration alone is run on a copy. */
static double value_of(const uint8_t *table, const struct stated *stated, int n, uint32_t index, const double *memory, size_t numbers, size_t *stored) {
    uint8_t own[VEMPALDI_TABLE_BYTES];
    size_t length = 0, begin = 0;
    uint64_t answer[4];
    double *copy = malloc(numbers * sizeof *copy + 1), value;
    if (!copy) abort();
    memcpy(copy, memory, numbers * sizeof *copy);
    for (int q = 0; *table == 1; table = behind(table), q++) {
        append(own, &length, table, 5);
        if (q < stated->to[n][0]) begin += number_at(table + 1);
    }
    size_t loop = length;
    append_statement(own, &length, stated, n, 1);
    put_at(own + loop + 1, index), put_at(own + loop + 5, index);
    append(own, &length, (const uint8_t[]){6}, 1);
    real_vempaldi_plain_run(own, length, copy, numbers, answer);
    *stored = begin + index + (size_t)(int64_t)(int16_t)(stated->to[n][1] | stated->to[n][2] << 8);
    value = copy[*stored];
    free(copy);
    return value;
}

void values_first(const uint8_t *table, uint32_t loop, uint32_t index, double *memory, size_t memory_length) {
    const uint8_t *at = table;
    struct stated stated;
    double values[4];
    size_t stored[4];
    while (*at == 1) at = behind(at);
    for (uint32_t k = 0; k <= loop; k++) at = take_statements(at, &stated);
    for (int n = 0; n < stated.count; n++) values[n] = value_of(table, &stated, n, index, memory, memory_length, &stored[n]);
    for (int n = 0; n < stated.count; n++) memcpy(&memory[stored[n]], &values[n], 8);
}
