/* Faults in blocks on whole lines: blocks once more, from the table's facts, by a wrong rule; and 17 told in a wrong place of the order. */
#include <string.h>

#include "faults.h"

/* A table's indices and threshold, and what is wrong. */
struct rule {
    int64_t first, last, threshold;
    int from_0, rounded_down, longer_last, not_cut, uncut_asked, indices_asked;
};

static int chosen(struct rule *rule) {
    rule->from_0 = fault("blocks-lines-from-0"), rule->rounded_down = fault("blocks-lines-rounded-down");
    rule->longer_last = fault("blocks-longer-last"), rule->not_cut = fault("blocks-last-not-cut");
    rule->uncut_asked = fault("blocks-short-if-uncut"), rule->indices_asked = fault("blocks-short-of-indices");
    return rule->from_0 || rule->rounded_down || rule->longer_last || rule->not_cut || rule->uncut_asked || rule->indices_asked;
}

static void take_facts(struct rule *rule, const uint8_t *table, size_t length, int64_t threshold) {
    uint8_t facts[VEMPALDI_FACTS_BYTES];
    uint64_t answer[4], written = real_vempaldi_facts(table, length, facts, sizeof facts, answer);
    rule->threshold = threshold, rule->first = INT64_MAX, rule->last = 0;
    for (uint64_t at = 12 + 8 * (uint64_t)number_at(facts); at < written; at += 8) {
        if (number_at(facts + at) < rule->first) rule->first = number_at(facts + at);
        if (number_at(facts + at + 4) > rule->last) rule->last = number_at(facts + at + 4);
    }
}

/* First and last index of each block. Answers whether 11 is given. */
static int blocks_by(const struct rule *rule, int64_t processors, int64_t line, uint8_t out[VEMPALDI_BLOCK_BYTES]) {
    int64_t next = rule->from_0 ? rule->first - rule->first % line : rule->first, indices = rule->last - next + 1;
    int64_t lines = rule->rounded_down ? indices / line : (indices + line - 1) / line, left = lines % processors;
    int is_short = (rule->indices_asked ? rule->last - rule->first + 1 : lines) < processors;
    for (int64_t b = 0; b < processors; b++) {
        int64_t begin = next > rule->first ? next : rule->first, own = lines / processors;
        own += rule->longer_last ? b >= processors - left : b < left;
        next += own * line;
        int64_t end = b + 1 < processors || rule->not_cut ? next - 1 : rule->last;
        if (processors > 1 && (rule->uncut_asked ? next - 1 : end) - begin + 1 < rule->threshold) is_short = 1;
        put_at(out + 8 * b, (uint32_t)begin), put_at(out + 8 * b + 4, (uint32_t)end);
    }
    return is_short;
}

/* 17 told where it should not be, or another ground told for it. */
static void order_wrong(const uint8_t *table, size_t length, struct vempaldi_settings settings, size_t room, uint64_t answer[4]) {
    uint8_t out[VEMPALDI_BLOCK_BYTES];
    uint64_t longest[4];
    if (fault("blocks-line-before-processors") && answer[0] == 10 && !line_in_range(settings.line)) refuse(answer, 17);
    if (answer[0] != 17) return;
    if (fault("blocks-line-as-place")) answer[1] = settings.line;
    settings.line = VEMPALDI_LONGEST_LINE;
    real_vempaldi_blocks(table, length, settings, out, sizeof out, longest);
    if (fault("blocks-short-before-line") && longest[0] == 11) refuse(answer, 11);
    if (fault("blocks-buffer-before-line") && room < 8 * settings.processors) refuse(answer, 13);
    if (fault("blocks-line-as-short")) refuse(answer, 11);
}

int too_short(const uint8_t *table, size_t length, struct vempaldi_settings settings, int64_t threshold) {
    struct rule rule = {0};
    uint8_t blocks[VEMPALDI_BLOCK_BYTES];
    take_facts(&rule, table, length, threshold);
    return blocks_by(&rule, settings.processors, settings.line, blocks);
}

/* The threshold of the plan in force: that with one processor is always accepted. */
static int64_t threshold_of(const uint8_t *table, size_t length, struct vempaldi_settings settings) {
    uint64_t answer[4];
    settings.processors = settings.line = 1;
    return (int64_t)real_vempaldi_check_plan(table, length, settings, answer);
}

uint64_t misalign(const uint8_t *table, size_t table_length, struct vempaldi_settings settings, uint8_t *out, size_t out_length,
                  uint64_t answer[4], uint64_t written) {
    struct rule rule;
    uint8_t blocks[VEMPALDI_BLOCK_BYTES];
    int accepts_65 = fault("blocks-line-65") && settings.line == 65;
    order_wrong(table, table_length, settings, out_length, answer);
    if ((!chosen(&rule) && !accepts_65) || (answer[0] && answer[0] != 11 && (answer[0] != 17 || !accepts_65))) return written;
    take_facts(&rule, table, table_length, threshold_of(table, table_length, settings));
    refuse(answer, blocks_by(&rule, settings.processors, settings.line, blocks) ? 11 : 8 * settings.processors > out_length ? 13 : 0);
    if (answer[0]) return 0;
    memcpy(out, blocks, 8 * settings.processors);
    return 8 * settings.processors;
}
