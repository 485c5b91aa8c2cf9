/* Reads a table from its bytes, or finds the first ground that it meets. */
#include "model.h"

#include <string.h>

/* What has been read so far. */
struct reading {
    const uint8_t *record;
    size_t left;
    int waiting;
    struct table *table;
};

static int64_t number(const uint8_t *at) {
    return at[0] | (int64_t)at[1] << 8 | (int64_t)at[2] << 16 | (int64_t)at[3] << 24;
}

static struct reference reference(const uint8_t *at) {
    int64_t offset = at[1] | (int64_t)at[2] << 8;
    return (struct reference){at[0], offset < 32768 ? offset : offset - 65536};
}

static struct loop *open_loop(const struct reading *at) { return &at->table->loop[at->table->loops - 1]; }

/* A kind that stands where it may: arrays before loops; items, further statements and the end behind some loop. */
static int kind_in_order(const struct reading *at) {
    int kind = at->record[0], loops = at->table->loops;
    return kind == 1 ? loops == 0 : kind == 2 || (kind >= 3 && kind <= 7 && loops > 0);
}

static int crowded(const struct reading *at) {
    switch (at->record[0]) {
    case 1: return at->table->arrays == MOST_ARRAYS;
    case 2: return at->table->loops == MOST_LOOPS;
    case 6: return 0;
    case 7: return open_loop(at)->statements == MOST_STATEMENTS;
    default: return open_loop(at)->items == MOST_ITEMS;
    }
}

/* 5 or 3 of a reference. */
static uint64_t reference_ground(const struct reading *at, struct reference one) {
    if (one.array >= at->table->arrays) return 5;
    return one.offset < -255 || one.offset > 255 ? 3 : 0;
}

static int reaches_outside(const struct table *table, int64_t first, int64_t last, struct reference one) {
    return first + one.offset < 0 || last + one.offset >= table->lengths[one.array];
}

static uint64_t array_record(struct reading *at) {
    struct table *table = at->table;
    int64_t length = number(at->record + 1);
    if (length < 1 || length > 65536) return 3;
    if (table->elements + length > 262144) return 4;
    table->lengths[table->arrays] = length;
    table->begins[table->arrays++] = table->elements;
    table->elements += length;
    return 0;
}

/* A statement begins, with its destination from these bytes: 5, 3 or 7 of it. */
static uint64_t begin_statement(struct reading *at, struct loop *loop, const uint8_t *bytes) {
    struct item one = {7, reference(bytes), 0};
    uint64_t ground = reference_ground(at, one.at);
    if (ground) return ground;
    if (reaches_outside(at->table, loop->first, loop->last, one.at)) return 7;
    loop->row[row_length(loop)] = one;
    loop->statements++;
    at->waiting = 0;
    return 0;
}

static uint64_t loop_record(struct reading *at) {
    struct loop one = {number(at->record + 1), number(at->record + 5), 0, 0, {{0}}};
    if (one.first > one.last || one.last > 131071) return 3;
    uint64_t ground = begin_statement(at, &one, at->record + 9);
    if (ground == 0) at->table->loop[at->table->loops++] = one;
    return ground;
}

static uint64_t item_record(struct reading *at) {
    struct loop *loop = open_loop(at);
    struct item one = {at->record[0], {0, 0}, 0};
    uint64_t ground = 0;
    if (one.kind == 3) {
        one.at = reference(at->record + 1);
        ground = reference_ground(at, one.at);
    } else if (one.kind == 4) {
        one.value = (uint32_t)number(at->record + 1);
    } else {
        one.value = at->record[1];
        ground = one.value < 1 || one.value > 5 ? 3 : 0;
    }
    if (ground) return ground;
    int needs = one.kind < 5 ? 0 : one.value == 5 ? 1 : 2;
    if (at->waiting < needs || at->waiting - needs == 8) return 6;
    if (one.kind == 3 && reaches_outside(at->table, loop->first, loop->last, one.at)) return 7;
    at->waiting += 1 - needs;
    loop->row[row_length(loop)] = one;
    loop->items++;
    return 0;
}

/* What is left to ask of a record that is there as a whole. */
static uint64_t body_ground(struct reading *at) {
    switch (at->record[0]) {
    case 1: return array_record(at);
    case 2: return loop_record(at);
    case 6: return 0;
    case 7: return begin_statement(at, open_loop(at), at->record + 1);
    default: return item_record(at);
    }
}

/* The ground of the record at hand, 0 if it is right. */
static uint64_t record_ground(struct reading *at) {
    /* Typed here once more, not the header's, which is looked at by this too. */
    static const size_t bodies[] = {0, 4, 11, 3, 4, 1, 0, 3};
    if (at->left == 0) return 1;
    int kind = at->record[0];
    if (!kind_in_order(at)) return 2;
    if ((kind == 2 || kind == 6 || kind == 7) && at->table->loops > 0 && at->waiting != 1) return 6;
    if (crowded(at)) return 4;
    if (at->left - 1 < bodies[kind]) return 1;
    uint64_t ground = body_ground(at);
    if (ground == 0) at->record += 1 + bodies[kind], at->left -= 1 + bodies[kind];
    return ground;
}

int accesses_of(const struct loop *loop, struct access out[MOST_IN_ROW]) {
    int count = 0;
    for (int i = 0; i < row_length(loop); i++)
        if (loop->row[i].kind == 3 || loop->row[i].kind == 7) out[count++] = (struct access){loop->row[i].at, loop->row[i].kind == 7};
    return count;
}

/* Whether two iterations touch an element by these, and one stores it. They are tried one by one; a loop that is long enough to make this slow meets
 * within the first few. */
static int meet(const struct loop *loop, struct access one, struct access other) {
    if (!one.stores && !other.stores) return 0;
    if (one.at.array != other.at.array || one.at.offset == other.at.offset) return 0;
    for (int64_t i = loop->first; i <= loop->last; i++) {
        int64_t n = i + one.at.offset - other.at.offset;
        if (n >= loop->first && n <= loop->last) return 1;
    }
    return 0;
}

/* 9 with the lowest loop of which two iterations meet, and the least pair of its references by which they do. */
static void find_serial(const struct table *table, uint64_t answer[4]) {
    struct access all[MOST_IN_ROW];
    for (int k = 0; k < table->loops; k++) {
        int count = accesses_of(&table->loop[k], all);
        for (int lower = 0; lower < count; lower++)
            for (int higher = lower + 1; higher < count; higher++) {
                if (!meet(&table->loop[k], all[lower], all[higher])) continue;
                answer[0] = 9, answer[1] = (uint64_t)k, answer[2] = (uint64_t)lower, answer[3] = (uint64_t)higher;
                return;
            }
    }
}

/* What is counted of statements, before the record at hand is tested. */
static void note_statement(struct reading *at) {
    struct table *table = at->table;
    int kind = at->left > 0 ? at->record[0] : 0, own = 0;
    table->at_statement = kind == 7;
    if (kind == 2) own = 1;
    if (kind == 7 && table->loops > 0) own = open_loop(at)->statements + 1;
    if (own > table->most_statements) table->most_statements = own;
}

void read_table(const uint8_t *bytes, size_t length, struct table *table, uint64_t answer[4]) {
    struct reading at = {bytes, length, 0, table};
    memset(answer, 0, 4 * sizeof *answer);
    table->arrays = table->loops = 0, table->elements = 0, table->loops_at = 0;
    table->most_statements = table->at_statement = 0;
    for (int ended = 0; !ended;) {
        size_t place = length - at.left;
        ended = at.left > 0 && at.record[0] == 6;
        if (at.left > 0 && at.record[0] == 1) table->loops_at = place + 5;
        table->end_at = place;
        note_statement(&at);
        answer[0] = record_ground(&at);
        answer[1] = answer[0] ? place : 0;
        if (answer[0]) return;
    }
    if (at.left > 0) answer[0] = 8, answer[1] = length - at.left;
    else find_serial(table, answer);
}

uint64_t iterations_of(const struct table *table) {
    uint64_t all = 0;
    for (int k = 0; k < table->loops; k++) all += (uint64_t)(table->loop[k].last - table->loop[k].first + 1);
    return all;
}
