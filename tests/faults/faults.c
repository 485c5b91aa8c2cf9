/* Which fault is chosen, and what several of them need. */
#include "faults.h"

#include <stdio.h>
#include <stdlib.h>
#include <string.h>

static const char *chosen_fault(void) {
    static const char *chosen;
    if (!chosen) chosen = getenv("VEMPALDI_FAULT");
    if (!chosen) chosen = "";
    return chosen;
}

int fault(const char *name) { return strcmp(chosen_fault(), name) == 0; }

int any_fault_in(const char *call) { return strncmp(chosen_fault(), call, strlen(call)) == 0; }

size_t low_of(const char *name, size_t length) { return fault(name) ? length & 0xffff : length; }

int fault_in(const char *call, const char *name) {
    char whole[64];
    snprintf(whole, sizeof whole, "%s-%s", call, name);
    return fault(whole);
}

size_t length_in(const char *call, size_t length) { return fault_in(call, "length-16-bits") ? length & 0xffff : length; }

int line_in_range(uint32_t line) { return line >= 1 && line <= VEMPALDI_LONGEST_LINE; }

struct vempaldi_settings settings_in(const char *call, const uint8_t *table, size_t length, struct vempaldi_settings settings) {
    if (line_in_range(settings.line) && (fault("all-line-ignored") || fault_in(call, "line-ignored"))) settings.line = 1;
    if (fault_in(call, "line-8-bits")) settings.line &= 0xff;
    return misread_plan(call, table, length, settings);
}

void mask(uint8_t *out, uint64_t written, uint32_t bits) {
    for (uint64_t at = 0; at + 4 <= written; at += 4) put_at(out + at, number_at(out + at) & bits);
}

uint32_t number_at(const uint8_t *at) { return at[0] | (uint32_t)at[1] << 8 | (uint32_t)at[2] << 16 | (uint32_t)at[3] << 24; }

void put_at(uint8_t *at, uint32_t number) {
    for (int i = 0; i < 4; i++) at[i] = (uint8_t)(number >> 8 * i);
}

uint64_t loops_of(const uint8_t *table, size_t table_length) {
    uint8_t out[VEMPALDI_AMOUNT_BYTES];
    uint64_t answer[4];
    return real_vempaldi_shifts_and_peels(table, table_length, out, sizeof out, answer) / 8;
}

void refuse(uint64_t answer[4], uint64_t ground) {
    memset(answer, 0, 4 * sizeof *answer);
    answer[0] = ground;
}
