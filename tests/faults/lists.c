/* Faults in lists and ranges. */
#include <sched.h>
#include <string.h>

#include "faults.h"

/* The output goes through one place that all calls share. */
static void through_shared(uint8_t *out, uint64_t written) {
    static uint8_t shared[1 << 16];
    if (written > sizeof shared) return;
    memcpy(shared, out, written);
    sched_yield();
    memcpy(out, shared, written);
}

static void exchange(uint8_t *one, uint8_t *other) {
    uint8_t kept[8];
    memcpy(kept, one, 8);
    memcpy(one, other, 8);
    memcpy(other, kept, 8);
}

/* The loop of the last iteration of a fused list, from the ranges: the highest sum of index and shift, and of equal ones the last loop. */
static uint64_t last_loop(const uint8_t *amounts, const uint8_t *ranges, uint64_t loops) {
    uint64_t best = 0, highest = 0;
    for (uint64_t k = 0; k < loops; k++) {
        uint64_t past = number_at(ranges + 8 * k + 4), sum = past + number_at(amounts + 8 * k);
        if (past && sum >= highest) highest = sum, best = k;
    }
    return best;
}

/* The ranges without the last iteration of the list. */
static void shorten(const uint8_t *amounts, uint8_t *ranges, uint64_t loops) {
    uint8_t *part = ranges + 8 * last_loop(amounts, ranges, loops);
    if (number_at(part + 4) == 0) return;
    put_at(part + 4, number_at(part + 4) - 1);
    if (number_at(part) == number_at(part + 4)) memset(part, 0, 8);
}

/* Where an iteration stands by the shifts: its sum, and among equal ones its loop. */
static uint64_t rank(const uint8_t *shifts, const uint8_t *one) {
    uint64_t loop = number_at(one);
    return 16 * (number_at(one + 4) + (uint64_t)number_at(shifts + 8 * loop)) + loop;
}

/* The iterations in the order that they would have by the loops' own shifts. */
static void reorder(const uint8_t *table, size_t table_length, uint8_t *out, uint64_t written) {
    uint8_t own[VEMPALDI_AMOUNT_BYTES];
    uint64_t answer[4];
    if (written > 8 * 2048) return;
    real_vempaldi_shifts_and_peels(table, table_length, own, sizeof own, answer);
    for (uint64_t at = 8; at < written; at += 8)
        for (uint64_t i = at; i > 0 && rank(own, out + i - 8) > rank(own, out + i); i -= 8) exchange(out + i - 8, out + i);
}

uint64_t vempaldi_fused_list(const uint8_t *table, size_t table_length, struct vempaldi_settings settings, uint32_t processor,
                             uint8_t *out, size_t out_length, uint64_t answer[4]) {
    table_length = length_in("fused-list", table_length), settings = settings_in("fused-list", table, table_length, settings);
    out_length = low_of("fused-list-room-16-bits", out_length);
    if (fault("fused-list-processor-16-bits")) processor &= 0xffff;
    uint64_t written = real_vempaldi_fused_list(table, table_length, settings, processor, out, out_length, answer);
    mistell_plan("fused-list", settings, processor, answer);
    if (answer[0]) return written;
    if (fault("list-index-16-bits")) mask(out, written, 0xffff);
    if (fault("list-long-wrong") && written > 8 * 4096) out[8 * 4096] ^= 1;
    if (fault("list-entry-doubled") && written >= 16) memcpy(out + written - 8, out + written - 16, 8);
    if (fault("list-order-of-own")) reorder(table, table_length, out, written);
    if (fault("list-neighbours-exchanged") && written >= 16) exchange(out, out + 8);
    if ((fault("list-entry-missing") || fault("list-and-ranges-shorter")) && written >= 8) written -= 8;
    if (fault("list-through-shared-bytes")) through_shared(out, written);
    return written;
}

uint64_t vempaldi_peeled_list(const uint8_t *table, size_t table_length, struct vempaldi_settings settings, uint32_t processor,
                              uint8_t *out, size_t out_length, uint64_t answer[4]) {
    table_length = length_in("peeled-list", table_length), settings = settings_in("peeled-list", table, table_length, settings);
    if (fault("peeled-list-processor-16-bits")) processor &= 0xffff;
    if (fault("list-of-next-processor") && processor + 1 < settings.processors) processor++;
    uint64_t written = real_vempaldi_peeled_list(table, table_length, settings, processor, out, out_length, answer);
    mistell_plan("peeled-list", settings, processor, answer);
    for (uint64_t at = 8; at < written && fault("list-of-copies"); at += 8) memcpy(out + at, out, 8);
    return written;
}

/* 17 or 11 told before 10 of the processor. */
static void told_early(const uint8_t *table, size_t table_length, struct vempaldi_settings settings, uint64_t answer[4]) {
    uint8_t blocks[VEMPALDI_BLOCK_BYTES];
    uint64_t plan[4];
    real_vempaldi_blocks(table, table_length, settings, blocks, sizeof blocks, plan);
    if (fault("ranges-short-before-processor") && plan[0] == 11) refuse(answer, 11);
    if (fault("ranges-line-before-processor") && plan[0] == 17) refuse(answer, 17);
}

/* Whether a plan by hand has a number that fourteen bits are needed for. */
static int tall(struct vempaldi_settings settings, uint64_t length) {
    for (uint64_t at = 0; settings.by_hand && at < length; at += 4)
        if (number_at(settings.plan + at) >= 1 << 13) return 1;
    return 0;
}

uint64_t vempaldi_fused_ranges(const uint8_t *table, size_t table_length, struct vempaldi_settings settings, uint32_t processor,
                               uint8_t *out, size_t out_length, uint64_t answer[4]) {
    table_length = length_in("fused-ranges", table_length), settings = settings_in("fused-ranges", table, table_length, settings);
    if (fault("fused-ranges-processor-16-bits")) processor &= 0xffff;
    uint64_t written = real_vempaldi_fused_ranges(table, table_length, settings, processor, out, out_length, answer);
    mistell_plan("fused-ranges", settings, processor, answer);
    if (fault("ranges-16-bits")) mask(out, written, 0xffff);
    if (answer[0] == 10) told_early(table, table_length, settings, answer);
    if (fault("list-and-ranges-shorter") && !answer[0]) {
        uint8_t amounts[VEMPALDI_AMOUNT_BYTES];
        amounts_in_force(table, table_length, settings, amounts);
        shorten(amounts, out, written / 8);
    }
    if (fault("ranges-tall-wrong") && !answer[0] && settings.processors > 1 && tall(settings, written)) put_at(out, number_at(out) + 1);
    if (fault("ranges-last-included") && !answer[0] && number_at(out + 4)) put_at(out + 4, number_at(out + 4) - 1);
    return written;
}

uint64_t vempaldi_peeled_ranges(const uint8_t *table, size_t table_length, struct vempaldi_settings settings, uint32_t processor,
                                uint8_t *out, size_t out_length, uint64_t answer[4]) {
    table_length = length_in("peeled-ranges", table_length), settings = settings_in("peeled-ranges", table, table_length, settings);
    if (fault("peeled-ranges-processor-16-bits")) processor &= 0xffff;
    uint64_t written = real_vempaldi_peeled_ranges(table, table_length, settings, processor, out, out_length, answer);
    mistell_plan("peeled-ranges", settings, processor, answer);
    for (uint64_t at = 0; at < written; at += 8) {
        int empty = number_at(out + at + 4) == 0;
        if (fault("ranges-empty-not-0") && empty) put_at(out + at, 1), put_at(out + at + 4, 1);
        if (fault("ranges-begin-one-later") && !empty) put_at(out + at, number_at(out + at) + 1);
    }
    return written;
}
