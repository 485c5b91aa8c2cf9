/* Faults in version, check and join. */
#include <string.h>

#include "faults.h"

uint32_t vempaldi_version(void) { return real_vempaldi_version() - (uint32_t)fault("version-of-another"); }

/* The last answer, for a table of the same length at the same place. */
static int remembered(const uint8_t *table, size_t length, uint64_t answer[4]) {
    static const uint8_t *last;
    static size_t last_length;
    static uint64_t last_answer[4];
    if (last == table && last_length == length) {
        memcpy(answer, last_answer, sizeof last_answer);
        return 1;
    }
    real_vempaldi_check(table, length, answer);
    last = table, last_length = length;
    memcpy(last_answer, answer, sizeof last_answer);
    return 0;
}

/* Whether the references that 9 names are as far from each other as the loop's bounds allow, and that is 255 or more. */
static int farthest(const uint8_t *table, const uint64_t answer[4]) {
    static _Thread_local struct loop loops[MOST_LOOPS];
    take_loops(table, loops);
    const struct loop *loop = &loops[answer[1]];
    int64_t distance = loop->offset[answer[2]] - loop->offset[answer[3]];
    if (distance < 0) distance = -distance;
    return distance >= 255 && distance == loop->last - loop->first;
}

void vempaldi_check(const uint8_t *table, size_t table_length, uint64_t answer[4]) {
    uint64_t fourth = answer[3];
    table_length = length_in("check", table_length);
    if (fault("check-remembers") && remembered(table, table_length, answer)) return;
    real_vempaldi_check(table, table_length, answer);
    if (fault("check-fourth-unwritten")) answer[3] = fourth;
    if (fault("check-tail-place") && answer[0] == 8) answer[1]--;
    if (fault("check-farthest-accepted") && answer[0] == 9 && farthest(table, answer)) refuse(answer, 0);
    if (fault("check-place-10-bits")) answer[1] &= 0x3ff;
    if (fault("check-reference-21-as-20") && answer[0] == 9 && answer[3] == 21) answer[3] = 20;
    if (fault("check-reference-above-13") && answer[0] == 9 && answer[3] > 13) answer[3] = 13;
    if (fault("check-higher-reference") && answer[0] == 9) answer[3]++;
    misname(table, answer);
    miscount(table, table_length, answer);
    if (fault("check-serial-accepted") && answer[0] == 9) refuse(answer, 0);
    /* It comes to nothing: the accepted answer has a 0 there. */
    if (fault("check-looks-past") && table_length && ((const volatile uint8_t *)table)[table_length] && !answer[0]) answer[2] = 0;
}

uint64_t vempaldi_join(const uint8_t *left, size_t left_length, const uint8_t *right, size_t right_length, uint8_t *out,
                       size_t out_length, uint64_t answer[4]) {
    left_length = length_in("join-left", left_length), right_length = length_in("join-right", right_length);
    uint64_t written = real_vempaldi_join(left, left_length, right, right_length, out, out_length, answer);
    if (fault("join-long-wrong") && written > 1500) out[1500] ^= 1;
    if (fault("join-statements-dropped") && !answer[0]) written = without_statements(out, written);
    if (fault("join-right-first") && !answer[0])
        written = real_vempaldi_join(right, right_length, left, left_length, out, out_length, answer);
    if (fault("join-count-one-more") && !answer[0]) written++;
    if (fault("join-refusal-writes") && answer[0] && out_length) out[0] ^= 1;
    if (fault("join-crowd-before-unlike") && answer[0] == 14)
        if (loops_of(left, left_length) + loops_of(right, right_length) > 16) refuse(answer, 4);
    return written;
}
