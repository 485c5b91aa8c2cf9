/* Plans the loop table of a file for a number of processors, and runs the plan on a memory in which every element is its own index within
 * its array, beside the plain run:
 *
 *     cc example.c $(pkg-config --cflags --libs build/vempaldi.pc) -o example && ./example ../example.table 2
 *
 * A second number is how many iterations a line has, 1 where there is none. The numbers behind it are a plan by hand, shift and peel of each loop
 * in table order, as in ./example ../example.table 2 1  0 0  2 1.
 * The exit status is 0 where the memories have the same bits, 1 where a call is refused, 2 where the arguments or the file are no good. */
#include <inttypes.h>
#include <stdio.h>
#include <stdlib.h>
#include <string.h>

#include "vempaldi.h"

static uint8_t table[VEMPALDI_DECIDING_BYTES];
static uint8_t text[VEMPALDI_LISTING_BYTES];
static uint8_t facts[VEMPALDI_FACTS_BYTES];

static uint32_t number(const uint8_t *at) {
    return at[0] | (uint32_t)at[1] << 8 | (uint32_t)at[2] << 16 | (uint32_t)at[3] << 24;
}

/* The facts are three numbers, then two for each array and two for each loop. */
static uint32_t fact(uint32_t n) { return number(facts + 4 * n); }

static void stop_if_refused(const char *what, const uint64_t answer[4]) {
    static const char *const words[] = VEMPALDI_WORDS;
    if (answer[0] == VEMPALDI_ACCEPTED) return;
    const char *word = answer[0] < sizeof words / sizeof *words ? words[answer[0]] : "unknown";
    fprintf(stderr, "%s: refused %" PRIu64 " %s, place %" PRIu64, what, answer[0], word, answer[1]);
    if (answer[0] == VEMPALDI_SERIAL) fprintf(stderr, ", references %" PRIu64 " and %" PRIu64, answer[2], answer[3]);
    if (answer[0] == VEMPALDI_UNMET) fprintf(stderr, ", loop %" PRIu64, answer[2]);
    fprintf(stderr, "\n");
    exit(1);
}

/* The library takes any number and refuses those that are no P or W; what is no number, or none of 32 bits, is for the caller to find. */
static uint32_t read_number(const char *name, const char *word) {
    uint64_t value = 0;
    size_t digits = strspn(word, "0123456789");
    for (size_t i = 0; i < digits && value <= UINT32_MAX; i++) value = 10 * value + (uint64_t)(word[i] - '0');
    if (digits == 0 || word[digits] || value > UINT32_MAX) {
        fprintf(stderr, "example: %s is a number from 0 to 4294967295, not '%s'\n", name, word);
        exit(2);
    }
    return (uint32_t)value;
}

/* The numbers of a plan, four bytes each. Those for which there is no room are counted only: such a plan is refused by its length. */
static struct vempaldi_settings with_plan(struct vempaldi_settings settings, int count, char **word) {
    uint8_t plan[VEMPALDI_AMOUNT_BYTES] = {0};
    for (int i = 0; i < count; i++) {
        uint32_t value = read_number(i % 2 ? "a peel" : "a shift", word[i]);
        for (int n = 0; n < 4 && 4 * i + n < VEMPALDI_AMOUNT_BYTES; n++) plan[4 * i + n] = (uint8_t)(value >> 8 * n);
    }
    return vempaldi_with_plan(settings, plan, 4 * (size_t)count);
}

/* No byte past those that decide changes an answer, so the file may be of any length. */
static size_t read_table(const char *name) {
    FILE *file = fopen(name, "rb");
    size_t length = file ? fread(table, 1, sizeof table, file) : 0;
    if (!file || ferror(file)) {
        fprintf(stderr, "example: cannot read '%s'\n", name);
        exit(2);
    }
    fclose(file);
    return length;
}

static double *own_index(void) {
    double *memory = malloc(fact(2) * sizeof *memory);
    if (!memory) {
        fprintf(stderr, "example: no room for %" PRIu32 " elements\n", fact(2));
        exit(2);
    }
    for (uint32_t q = 0; q < fact(0); q++)
        for (uint32_t i = 0; i < fact(4 + 2 * q); i++) memory[fact(3 + 2 * q) + i] = i;
    return memory;
}

static void print_plan(size_t length, struct vempaldi_settings settings) {
    uint64_t answer[4];
    uint64_t written = vempaldi_listing(table, length, settings, text, sizeof text, answer);
    stop_if_refused("listing", answer);
    fwrite(text, 1, written, stdout);
    uint64_t threshold = vempaldi_check_plan(table, length, settings, answer);
    stop_if_refused("check plan", answer);
    printf("threshold %" PRIu64 "\n", threshold);
}

/* Steps the processors from the highest down until none performs an iteration. The result is how many were performed. */
static unsigned long step_all(size_t length, struct vempaldi_settings settings, double *memory) {
    uint32_t counts[VEMPALDI_MOST_PROCESSORS] = {0}, report[3] = {VEMPALDI_NO_REPORT, 0, 0};
    unsigned long performed = 0, before;
    uint64_t answer[4];
    do {
        before = performed;
        for (uint32_t b = settings.processors; b-- > 0;) {
            vempaldi_step(table, length, settings, b, counts, memory, fact(2), report, answer);
            stop_if_refused("step", answer);
            if (report[0] == VEMPALDI_ITERATION) performed++;
        }
    } while (performed > before);
    return performed;
}

/* The last array's first numbers. */
static void print_last(const double *memory) {
    uint32_t last = fact(0) - 1, from = fact(3 + 2 * last), length = fact(4 + 2 * last);
    printf("last array:");
    for (uint32_t i = 0; i < length && i < 12; i++) printf(" %.3f", memory[from + i]);
    printf("\n");
}

int main(int count, char **word) {
    if (count < 3) {
        fprintf(stderr, "usage: example FILE P [W [SHIFT PEEL]..]\n");
        return 2;
    }
    struct vempaldi_settings settings = vempaldi_for(read_number("P", word[2]));
    if (count >= 4) settings.line = read_number("W", word[3]);
    if (count >= 5) settings = with_plan(settings, count - 4, word + 4);
    size_t length = read_table(word[1]);
    uint64_t answer[4];
    vempaldi_facts(table, length, facts, sizeof facts, answer);
    stop_if_refused("facts", answer);
    print_plan(length, settings);

    double *plain = own_index(), *stepped = own_index();
    vempaldi_plain_run(table, length, plain, fact(2), answer);
    stop_if_refused("plain run", answer);
    unsigned long performed = step_all(length, settings, stepped);
    int same = memcmp(plain, stepped, fact(2) * sizeof *plain) == 0;
    printf("%lu iterations on %" PRIu32 " elements, %s\n", performed, fact(2),
           same ? "same bits as the plain run" : "NOT the bits of the plain run");
    print_last(stepped);
    free(plain);
    free(stepped);
    return same ? 0 : 1;
}
