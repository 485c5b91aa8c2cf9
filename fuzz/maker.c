/* Tables made from an input's bytes: near enough to right that deep code is reached, with every kind of flaw now and then. */
#include "maker.h"

#include <string.h>

uint64_t mixed(uint64_t number) {
    number += 0x9e3779b97f4a7c15u;
    number = (number ^ number >> 30) * 0xbf58476d1ce4e5b9u;
    number = (number ^ number >> 27) * 0x94d049bb133111ebu;
    return number ^ number >> 31;
}

struct cursor cursor_of(const uint8_t *data, size_t size) {
    struct cursor bytes = {data, size, 0, size, 0};
    for (size_t i = 0; i < size; i++) bytes.lot = mixed(bytes.lot ^ data[i]);
    bytes.large = seldom(&bytes, 256);
    return bytes;
}

int seldom(struct cursor *bytes, uint32_t times) {
    bytes->lot = mixed(bytes->lot);
    return bytes->lot % times == 0;
}

uint32_t take(struct cursor *bytes, int count) {
    uint32_t value = 0;
    for (int i = 0; i < count; i++) {
        uint8_t byte;
        if (bytes->left) {
            byte = *bytes->data++;
            bytes->left--;
            bytes->drawn = mixed(bytes->drawn ^ byte);
        } else {
            byte = (uint8_t)(bytes->drawn = mixed(bytes->drawn));
        }
        value |= (uint32_t)byte << 8 * i;
    }
    return value;
}

uint32_t wide(struct cursor *bytes, uint32_t low) {
    static const uint32_t above[] = {1u << 8, 1u << 16, 1u << 24, 1u << 31};
    uint32_t way = take(bytes, 1) % 8;
    return way < 4 ? low + above[way] : take(bytes, 4);
}

/* A number from low to high; now and then the byte is a flaw and gives one just outside. */
static int64_t between(struct cursor *bytes, int64_t low, int64_t high, int flaws) {
    if (flaws && take(bytes, 1) == 255) return take(bytes, 1) % 2 ? low - 1 : high + 1;
    return high <= low ? low : low + (int64_t)(take(bytes, 2) % (uint32_t)(high - low + 1));
}

/* How full a table is: as it comes, or with loops of 31 or 32 items over reads and constants, over constants alone (the longest tables), or
 * over reads of all arrays in turn (the most sweeps, and references with the highest numbers). */
enum fullness { ANY, MIXED, CONSTANTS, IN_TURN };

/* One more than a loop may have. */
enum { MOST_MADE_STATEMENTS = 5 };

/* An array, and the offset at which it is stored. */
struct stored {
    int64_t array, offset;
};

struct making {
    struct cursor *bytes;
    uint8_t *out;
    size_t length;
    int flaws, arrays;
    enum fullness full;
    int64_t lengths[17];
    /* By how much all indices are above the elements that they reach at offset 0; so they may be above an array's last. */
    int64_t moved;
    /* Whether the loops have some of the last indices alone. */
    int at_end;
    /* The bounds of the loop at hand, where its statements store, and how many reads it has so far. */
    int64_t first, last, reads;
    int near, statements;
    struct stored stored[MOST_MADE_STATEMENTS];
};

static void put(struct making *made, uint32_t value, int count) {
    for (int i = 0; i < count && made->length < MOST_MADE - 64; i++) made->out[made->length++] = (uint8_t)(value >> 8 * i);
}

static void make_arrays(struct making *made) {
    struct cursor *bytes = made->bytes;
    uint32_t shape = take(bytes, 1);
    made->full = !bytes->large && seldom(bytes, 64) ? (enum fullness)(1 + take(bytes, 1) % 3) : ANY;
    made->arrays = made->full ? 16 : (int)between(bytes, 1, bytes->large ? 3 : shape % 8 ? 4 : 16, made->flaws);
    if (made->arrays < 0) made->arrays = 0;
    int64_t longest = made->full ? 16384 : bytes->large || shape >= 240 ? 65536 : shape >= 200 ? 600 : 40;
    /* One length for all makes plans for several processors likely. */
    int64_t common = bytes->large || shape % 8 == 7 ? longest : between(bytes, 1, longest, 0);
    for (int q = 0; q < made->arrays; q++) {
        made->lengths[q] = made->full || bytes->large || shape % 2 ? common : between(bytes, 1, longest, made->flaws);
        put(made, 1, 1);
        put(made, (uint32_t)made->lengths[q], 4);
    }
}

/* Where the loop at hand stores this array; any of its destinations where it does not. */
static struct stored stored_of(struct making *made, int64_t q, int *own) {
    for (int n = 0; n < made->statements; n++)
        if (made->stored[n].array == q) return *own = 1, made->stored[n];
    *own = 0;
    return made->stored[made->statements > 1 ? take(made->bytes, 1) % (uint32_t)made->statements : 0];
}

/* A reference to an array at an offset that keeps the indices inside it. Where there is none, and mostly where the loop stores the array, it is to
 * what the loop stores, for most others would meet 7 or 9. */
static struct stored reference_to(struct making *made, int64_t q) {
    int64_t length = q >= 0 && q < made->arrays ? made->lengths[q] : 1, low = -made->near, high = made->near;
    if (low < -made->first) low = -made->first;
    if (high > length - 1 - made->last) high = length - 1 - made->last;
    struct stored one = {q, low <= high ? between(made->bytes, low, high, made->flaws) : 0};
    int own;
    struct stored stored = stored_of(made, q, &own);
    /* Full tables and loops of several statements have many references that could meet, of which all but few must not. */
    uint32_t times = made->full ? 64 : made->statements > 1 ? 24 : 8;
    return (low > high || own) && take(made->bytes, 1) % times ? stored : one;
}

static void put_reference(struct making *made, struct stored one) {
    put(made, (uint32_t)one.array, 1);
    put(made, (uint32_t)(one.offset - made->moved), 2);
}

static void read_item(struct making *made) {
    int64_t q = made->full == IN_TURN ? (made->stored[0].array + ++made->reads) % 16 : between(made->bytes, 0, made->arrays - 1, made->flaws);
    put(made, 3, 1);
    put_reference(made, reference_to(made, q));
}

/* Item i of a full body: two numbers, then an operation and a number in turn; a last item that would be a number negates. */
static void full_item(struct making *made, int i, int items) {
    if (i > 0 && i % 2 == 0) {
        put(made, 5, 1);
        put(made, (uint32_t)between(made->bytes, 1, 4, made->flaws), 1);
    } else if (i > 0 && i == items - 1) {
        put(made, 5 | 5 << 8, 2);
    } else if (made->full == IN_TURN || (made->full == MIXED && take(made->bytes, 1) % 3)) {
        read_item(made);
    } else {
        put(made, 4, 1);
        put(made, take(made->bytes, 4), 4);
    }
}

static void make_item(struct making *made, int *waiting, int left) {
    struct cursor *bytes = made->bytes;
    int push = *waiting < 8 && *waiting <= left && (*waiting < 2 || take(bytes, 1) % 2);
    if (made->flaws && take(bytes, 1) == 254) push = !push;
    if (!push) {
        int negate = *waiting == 1 || (*waiting - 1 <= left && take(bytes, 1) % 6 == 0);
        put(made, 5, 1);
        put(made, negate ? 5 : (uint32_t)between(bytes, 1, 4, made->flaws), 1);
        *waiting -= !negate;
    } else if (take(bytes, 1) % 3) {
        read_item(made);
        ++*waiting;
    } else {
        put(made, 4, 1);
        put(made, take(bytes, 4), 4);
        ++*waiting;
    }
}

/* One statement in half of all loops, else up to four, and as a flaw five. */
static int statements_of(struct making *made) {
    uint32_t way = take(made->bytes, 1);
    if (made->flaws && way >= 240) return MOST_MADE_STATEMENTS;
    return way % 2 ? 1 : 1 + (int)(way / 2 % 4);
}

/* The destinations of all statements are drawn before any body, so that reads can keep clear of them. A further one is mostly another array, at times
 * the same place once more. */
static void make_destinations(struct making *made, struct stored first) {
    int count = statements_of(made);
    made->stored[0] = first, made->statements = 1, made->reads = 0;
    while (made->statements < count) {
        struct stored next = reference_to(made, between(made->bytes, 0, made->arrays - 1, made->flaws));
        made->stored[made->statements++] = next;
    }
}

/* A destination, as a flaw of no array or at an offset that is just out of range. */
static struct stored flawed(struct making *made, struct stored one) {
    uint32_t way = made->flaws ? take(made->bytes, 1) : 0;
    if (way >= 252) one.array = made->arrays + (int64_t)(way - 252) * 40;
    else if (way >= 248) one.offset = (way % 2 ? 256 : -256) + made->moved;
    return one;
}

/* A statement's items, of so many that are left for this and the ones behind it. Full bodies have an odd number of items, which is as many operands as
 * fit. Answers how many items it has. */
static int make_body(struct making *made, int left, int statements) {
    int items = left / statements, waiting = 0;
    if (statements > 1 && !made->full) items = 1 + (int)(take(made->bytes, 1) % (uint32_t)(left - statements + 1));
    if (made->full && statements > 1 && items % 2 == 0) items++;
    for (int i = 0; i < items; i++)
        if (made->full) full_item(made, i, items);
        else make_item(made, &waiting, items - i - 1);
    return items;
}

static void make_loop(struct making *made, int near) {
    struct cursor *bytes = made->bytes;
    int64_t q = made->arrays ? (int64_t)(take(bytes, 1) % (uint32_t)made->arrays) : 0, length = made->arrays ? made->lengths[q] : 1;
    int64_t margin = near < length / 3 ? near : length / 3, first = margin, last = length - 1 - margin;
    if (made->at_end && last - first > 16) first = last - 16;
    uint32_t times = made->full ? 16 : 4;
    if (take(bytes, 1) % times == 0) first = between(bytes, first, last, made->flaws);
    if (take(bytes, 1) % times == 0) last = between(bytes, first, last, made->flaws);
    made->first = first, made->last = last, made->near = near;
    make_destinations(made, (struct stored){q, between(bytes, -margin, margin, made->flaws)});
    put(made, 2, 1);
    put(made, (uint32_t)(first + made->moved), 4);
    put(made, (uint32_t)(last + made->moved), 4);
    put_reference(made, made->stored[0]);
    int items = made->full ? 31 + (int)(take(bytes, 1) % 2) : (int)between(bytes, 1, take(bytes, 1) % 8 ? 7 : 32, made->flaws);
    if (items < made->statements) items = made->statements;
    /* As a flaw, one item too many over all statements, or some. */
    if (made->flaws && made->statements > 1 && take(bytes, 1) >= 240) items = 33 + (int)(take(bytes, 1) % 4);
    for (int n = 0; n < made->statements; n++) {
        if (n > 0) put(made, 7, 1), put_reference(made, flawed(made, made->stored[n]));
        items -= make_body(made, items, made->statements - n);
    }
}

/* Some loops over the arrays, and the end. */
static size_t make_loops(struct making *made) {
    struct cursor *bytes = made->bytes;
    int near = take(bytes, 1) % 8 ? (int)(take(bytes, 1) % 4) : 255;
    uint32_t way = take(bytes, 1);
    made->moved = (way % 4 == 0) == bytes->large ? 0 : 255 - near;
    /* Lists over long arrays are mostly too long to be asked for whole. */
    made->at_end = way / 4 % (made->lengths[0] > 4096 && !made->full ? 2 : 16) == 0;
    int loops = made->full ? (way / 64 % 2 ? 16 : 8) : (int)between(bytes, 1, take(bytes, 1) % 8 ? 4 : 16, made->flaws);
    /* As a flaw, a further statement before any loop. */
    if (made->flaws && take(bytes, 1) >= 250) put(made, 7, 1), put(made, take(bytes, 1) % 3, 3);
    for (int k = 0; k < loops; k++) make_loop(made, near);
    put(made, 6, 1);
    return made->length;
}

size_t make_table(struct cursor *bytes, uint8_t *out) {
    struct making made = {.bytes = bytes, .out = out, .flaws = take(bytes, 1) % 4 == 0 && !bytes->large};
    make_arrays(&made);
    return make_loops(&made);
}

size_t make_over(struct cursor *bytes, const int64_t *lengths, int arrays, uint8_t *out) {
    struct making made = {.bytes = bytes, .out = out, .arrays = arrays};
    if (arrays == 16 && seldom(bytes, 4)) made.full = (enum fullness)(1 + take(bytes, 1) % 3);
    for (int q = 0; q < arrays; q++) {
        made.lengths[q] = lengths[q];
        put(&made, 1, 1);
        put(&made, (uint32_t)lengths[q], 4);
    }
    return make_loops(&made);
}

static size_t damaged(struct cursor *bytes, uint8_t *out, size_t length) {
    size_t at = length ? take(bytes, 2) % length : 0;
    switch (take(bytes, 1) % 4) {
    case 0: return at;
    case 1:
        if (length) out[at] = (uint8_t)(take(bytes, 1) % 2 ? take(bytes, 1) % 9 : take(bytes, 1));
        return length;
    case 2:
        memmove(out + at + 1, out + at, length - at);
        out[at] = (uint8_t)(take(bytes, 1) % 9);
        return length + 1;
    default:
        out[length] = (uint8_t)take(bytes, 1);
        return length + 1;
    }
}

size_t bytes_behind(struct cursor *bytes) { return seldom(bytes, 128) ? 65536 : 0; }

size_t any_table(struct cursor *bytes, uint8_t *out) {
    uint32_t way = take(bytes, 1);
    if (way % 8 == 0 && !bytes->large) {
        size_t length = bytes->left < MOST_MADE ? bytes->left : MOST_MADE;
        for (size_t i = 0; i < length; i++) out[i] = (uint8_t)take(bytes, 1);
        return length;
    }
    size_t length = make_table(bytes, out);
    return way % 8 == 1 ? damaged(bytes, out, length) : length;
}
