/* One input, any bytes: a table (as it comes, or made from the bytes and then perhaps damaged), numbers of processors, lengths of a line,
 * plans by hand, orders, counts, lengths of memories and outputs. Every exported function is called with them. What must hold whatever the input is:
 *
 * - all four numbers of an answer, the count of bytes written, the bytes, the memory, the counts, the report and the idle count are what
 *   the model (model.h) says from the table's bytes; no call of the library is measured by another one;
 * - guard bytes on both sides of everything lent stay, and so do the inputs;
 * - a refused call leaves what it was lent as found, an accepted one the bytes past its output; each output is asked for with too little
 *   room, with just enough and with more;
 * - the lists of all processors have every iteration of every loop once, each in its order, and the ranges have the same iterations;
 * - a complete row of steps, and a run in any order, leave the memory that the loops leave one after the other, bit for bit;
 * - a table that is changed in its place gets its own answer: nothing is kept between calls;
 * - a report of an accepted step is 1, 2 or 3; the library's version is the header's; the header's own functions make the settings that they say.
 *
 * A breach prints the call and the table, and aborts. */
#include <inttypes.h>
#include <stdio.h>
#include <stdlib.h>
#include <string.h>

#include "call.h"

static uint64_t inputs;

/* The table with another byte, at the same place and as long; then as it was. Nothing is kept from one call to the next. */
static void another_byte(struct call *call, uint8_t *table, struct cursor *bytes) {
    static struct call other;
    size_t at = take(bytes, 2) % call->length;
    uint8_t kept = table[at];
    table[at] ^= (uint8_t)(1 + take(bytes, 1) % 255);
    begin_call(&other, table, call->length, call->settings);
    check(&other);
    check_plan(&other);
    table[at] = kept;
    check(call);
    check_plan(call);
}

/* A line's length: one iteration, few, since most tables are short, any in range, one at an end of a range, or one out of it. A large input
 * has one in range. */
static uint32_t any_line(struct cursor *bytes) {
    static const uint32_t ends[] = {0, 1, 2, 63, 64, 65, 1u << 31, UINT32_MAX};
    uint32_t way = take(bytes, 1);
    if (bytes->large || way >= 224) return 1 + way % 64;
    if (way < 96) return 1;
    if (way < 192) return 2 + way % 6;
    return way < 208 ? ends[way % 8] : wide(bytes, 1 + way % 8);
}

int LLVMFuzzerTestOneInput(const uint8_t *data, size_t size) {
    static struct call call;
    struct cursor bytes = cursor_of(data, size);
    uint8_t made[MOST_MADE];
    uint32_t p = take(&bytes, 1);
    size_t size_made = any_table(&bytes, made), length = size_made + bytes_behind(&bytes);
    /* Exactly as many bytes as the table has, so that a look past its end is seen by a memory checker. */
    uint8_t *table = calloc(length ? length : 1, 1);
    if (!table) abort();
    memcpy(table, made, size_made);
    if (bytes.large) p = 1 + p % 3;
    else if (seldom(&bytes, size_made > 1000 ? 2 : 16)) p = p % 2 ? 64 : 48 + p % 16;
    else p = p < 224 ? p % 9 : p < 239 ? p - 160 : p < 240 ? UINT32_MAX : wide(&bytes, 1 + p % 8);
    begin_call(&call, length ? table : NULL, length, (struct vempaldi_settings){.processors = p, .line = any_line(&bytes)});
    plan_call(&call, any_plan(&call, &bytes));
    count_statements(&call);
    count_pairs(&call);
    count_blocks(&call);
    count_plan(&call);
    check(&call);
    check_plan(&call);
    if (length) another_byte(&call, table, &bytes);
    if (vempaldi_version() != VEMPALDI_VERSION) breach(&call, "the library's version is not the header's");
    join(&call, &bytes);
    lists_together(&call);
    outputs(&call, &bytes);
    memories(&call, &bytes);
    by_header(&call, &bytes);
    if (memcmp(table, made, size_made)) breach(&call, "the table itself changed");
    free(table);
    inputs++;
    return 0;
}

static void tell_all(void) {
    fprintf(stderr, "fuzz: %" PRIu64 " inputs\n", inputs);
    tell();
}

int LLVMFuzzerInitialize(int *count, char ***words) {
    (void)count, (void)words;
    atexit(tell_all);
    return 0;
}
