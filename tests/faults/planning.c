/* Faults in facts, amounts, sweeps, blocks (lines.c has more) and the listing. */
#include <string.h>

#include "faults.h"

uint64_t vempaldi_facts(const uint8_t *table, size_t table_length, uint8_t *out, size_t out_length, uint64_t answer[4]) {
    table_length = length_in("facts", table_length);
    uint64_t written = real_vempaldi_facts(table, table_length, out, out_length, answer);
    if (answer[0]) return written;
    uint64_t loops_at = 12 + 8 * (uint64_t)number_at(out);
    if (fault("facts-bounds-16-bits")) mask(out + loops_at, written - loops_at, 0xffff);
    if (fault("facts-writes-table")) ((uint8_t *)table)[table_length - 1] ^= 0x80;
    uint32_t arrays = number_at(out);
    for (uint32_t q = 0; q < arrays && fault("facts-first-and-length-exchanged"); q++) {
        uint32_t first = number_at(out + 12 + 8 * q);
        put_at(out + 12 + 8 * q, number_at(out + 16 + 8 * q));
        put_at(out + 16 + 8 * q, first);
    }
    if (fault("facts-last-index-past")) put_at(out + written - 4, number_at(out + written - 4) + 1);
    if (fault("facts-elements-of-first-array")) put_at(out + 8, number_at(out + 16));
    return written;
}

uint64_t vempaldi_shifts_and_peels(const uint8_t *table, size_t table_length, uint8_t *out, size_t out_length, uint64_t answer[4]) {
    table_length = length_in("amounts", table_length);
    uint64_t written = real_vempaldi_shifts_and_peels(table, table_length, out, out_length, answer);
    if (fault("amounts-11-bits")) mask(out, written, 0x7ff);
    if (fault("amounts-all-0") && !answer[0]) memset(out, 0, written);
    if (!answer[0]) misjudge_amounts(table, out);
    return written;
}

/* The largest shift and the largest peel, of whatever loops. */
static uint32_t of_two_loops(const uint8_t *table, size_t table_length) {
    uint8_t amounts[VEMPALDI_AMOUNT_BYTES];
    uint64_t answer[4], written = real_vempaldi_shifts_and_peels(table, table_length, amounts, sizeof amounts, answer);
    uint32_t shift = 0, peel = 0;
    for (uint64_t i = 0; i < written; i += 8) {
        if (number_at(amounts + i) > shift) shift = number_at(amounts + i);
        if (number_at(amounts + i + 4) > peel) peel = number_at(amounts + i + 4);
    }
    return shift + peel;
}

uint64_t vempaldi_threshold(const uint8_t *table, size_t table_length, uint8_t *out, size_t out_length, uint64_t answer[4]) {
    table_length = length_in("threshold", table_length);
    uint64_t written = real_vempaldi_threshold(table, table_length, out, out_length, answer);
    if (answer[0]) return written;
    if (fault("threshold-12-bits")) mask(out, written, 0xfff);
    if (fault("threshold-byte-behind") && out_length > written) out[written] ^= 1;
    if (fault("threshold-of-two-loops")) put_at(out, of_two_loops(table, table_length));
    misjudge_threshold(table, out);
    return written;
}

uint64_t vempaldi_sweeps(const uint8_t *table, size_t table_length, uint8_t *out, size_t out_length, uint64_t answer[4]) {
    table_length = length_in("sweeps", table_length);
    uint64_t written = real_vempaldi_sweeps(table, table_length, out, out_length, answer);
    if (answer[0]) return written;
    if (fault("sweeps-before-8-bits")) mask(out, 4, 0xff);
    if (fault("sweeps-byte-past-room")) out[out_length] ^= 1;
    if (fault("sweeps-count-one-less")) written--;
    if (fault("sweeps-first-statement-alone")) sweep_first(table, out);
    return written;
}

uint64_t vempaldi_blocks(const uint8_t *table, size_t table_length, struct vempaldi_settings settings, uint8_t *out, size_t out_length,
                         uint64_t answer[4]) {
    table_length = length_in("blocks", table_length), settings = settings_in("blocks", table, table_length, settings);
    if (fault("blocks-processors-16-bits")) settings.processors &= 0xffff;
    if (fault("blocks-line-0") && settings.line == 0) settings.line = 1;
    if (fault("blocks-line-highest") && settings.line == UINT32_MAX) settings.line = 1;
    if (fault("blocks-line-64-refused") && settings.line == 64) settings.line = 65;
    uint64_t written = real_vempaldi_blocks(table, table_length, settings, out, out_length, answer);
    written = misalign(table, table_length, settings, out, out_length, answer, written);
    mistell_plan("blocks", settings, 0, answer);
    if (fault("blocks-16-bits")) mask(out, written, 0xffff);
    if (fault("blocks-refusal-writes") && answer[0] && out_length) out[0] ^= 1;
    if (fault("blocks-buffer-before-plan") && (answer[0] == 19 || answer[0] == 20) && out_length < 8) refuse(answer, 13);
    if (fault("blocks-buffer-before-short") && answer[0] == 11 && out_length < 8 * settings.processors) refuse(answer, 13);
    return written;
}

/* The text without its last line but one. */
static uint64_t line_less(uint8_t *out, uint64_t written) {
    uint64_t last = written - 1, before;
    while (out[last - 1] != '\n') last--;
    for (before = last - 1; before > 0 && out[before - 1] != '\n';) before--;
    memmove(out + before, out + last, written - last);
    return written - (last - before);
}

/* The text with the lines of the loops as the own plan has them, whose numbers are no longer. */
static uint64_t own_loops(const uint8_t *table, size_t table_length, struct vempaldi_settings settings, uint8_t *out, uint64_t written) {
    static _Thread_local uint8_t own[VEMPALDI_LISTING_BYTES];
    uint64_t answer[4], lines, behind;
    settings.by_hand = 0;
    real_vempaldi_listing(table, table_length, settings, own, sizeof own, answer);
    for (lines = 0; own[lines] != 'b';) lines++;
    for (behind = 0; out[behind] != 'b';) behind++;
    memcpy(out, own, lines);
    memmove(out + lines, out + behind, written - behind);
    return written - (behind - lines);
}

uint64_t vempaldi_listing(const uint8_t *table, size_t table_length, struct vempaldi_settings settings, uint8_t *out, size_t out_length,
                          uint64_t answer[4]) {
    uint32_t processors = settings.processors;
    table_length = length_in("listing", table_length), settings = settings_in("listing", table, table_length, settings);
    if (fault("listing-just-fits-refused") && out_length) out_length--;
    uint64_t written = real_vempaldi_listing(table, table_length, settings, out, out_length, answer);
    mistell_plan("listing", settings, 0, answer);
    if (fault("listing-loops-of-own") && !answer[0]) written = own_loops(table, table_length, settings, out, written);
    if (fault("listing-plan-before-serial") && answer[0] == 9 && settings.by_hand && settings.plan_length % 8) refuse(answer, 19);
    if (fault("listing-long-wrong") && written > 30000) out[30000] ^= 1;
    if (fault("listing-line-missing") && !answer[0]) written = line_less(out, written);
    if (fault("listing-processors-before-serial") && answer[0] == 9 && (processors < 1 || processors > 64)) refuse(answer, 10);
    if (fault("listing-line-before-serial") && answer[0] == 9 && !line_in_range(settings.line)) refuse(answer, 17);
    return written;
}
