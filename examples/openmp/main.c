/* Checks and times the loops of river.c (README.md says how to build it).
 *
 *     river                                  checks bit by bit: unfused and fused loops against the library's plain run
 *     river --broken shifts|peels|barrier    the same with that part of the plan left out, which the checks must find
 *     river --time [SECTIONS RIVERS]         times the fused loops beside the unfused ones
 *     river --table SECTIONS STEPS           writes the table to the standard output
 *
 * Exit status: 0, or 1 where bits differ or a call is refused, 2 for usage and memory. */
#include <omp.h>
#include <stdio.h>
#include <stdlib.h>
#include <string.h>

#include "river.h"

enum fault { NONE, SHIFTS, PEELS, BARRIER };
enum { ROUNDS = 3, TIMED_STEPS = 4, TURNS = 15, WHOLE = 131072 /* no block has more indices, so this is one strip */ };

static double *room(size_t count) {
    double *memory = malloc(count * sizeof *memory);
    if (!memory) perror("memory"), exit(2);
    return memory;
}

/* Numbers that use all of their bits, so that one operation more, less or in another order shows. */
static void fill(double *memory, size_t count) {
    uint64_t state = 14;
    for (size_t n = 0; n < count; n++) {
        state = state * 6364136223846793005u + 1442695040888963407u;
        memory[n] = (double)(state >> 11) / 9007199254740992.0; /* 53 bits, below 1 */
    }
}

/* The library's plain run, ROUNDS times, of each river by itself. */
static void run_plain(const struct table *table, const struct plan *plan, double *memory, ptrdiff_t width) {
    double *river = room(plan->elements);
    uint64_t answer[4];
    for (ptrdiff_t r = 0; r < width; r++) {
        for (size_t n = 0; n < plan->elements; n++) river[n] = memory[n * width + r];
        for (int round = 0; round < ROUNDS; round++) {
            vempaldi_plain_run(table->bytes, table->length, river, plan->elements, answer);
            stop_if_refused("plain run", answer);
        }
        for (size_t n = 0; n < plan->elements; n++) memory[n * width + r] = river[n];
    }
    free(river);
}

/* Without a barrier some runs go wrong and others don't. Here threads take an order that goes wrong in every run: each processor does its
 * peeled part before the next one begins. */
static void run_checked(struct plan *plan, const struct rivers *v, ptrdiff_t strip, enum fault fault) {
    if (fault == SHIFTS) memset(plan->shift, 0, sizeof plan->shift);
    if (fault == PEELS) memset(plan->peeled, 0, sizeof plan->peeled);
    if (fault != BARRIER) {
        run_fused(plan, v, strip, ROUNDS);
        return;
    }
    for (int round = 0; round < ROUNDS; round++)
        for (int b = 0; b < plan->processors; b++) fused_part(plan, v, b, strip), peeled_part(plan, v, b);
}

/* Blocks on lines of so many indices. */
static struct vempaldi_settings in_lines(int threads, uint32_t line) {
    struct vempaldi_settings settings = vempaldi_for((uint32_t)threads);
    settings.line = line;
    return settings;
}

/* 1 to 8 threads, or as many as the table allows: the unfused loops, and the fused ones with four strip lengths. The result is how many
 * runs did not leave the plain run's bits. */
static int check_size(int steps, uint32_t sections, ptrdiff_t width, uint32_t line, enum fault fault) {
    static const ptrdiff_t strips[] = {1, 5, 32, WHOLE};
    struct table table;
    struct plan plan;
    int runs = 0, wrong = 0, threads = 1;
    make_table(&table, sections, steps);
    for (; threads <= 8 && make_plan(&plan, &table, in_lines(threads, line)); threads++) {
        const size_t count = plan.elements * (size_t)width, bytes = count * sizeof(double);
        double *plain = room(count), *memory = room(count);
        const struct rivers rivers = rivers_in(memory, &plan, width);
        fill(plain, count);
        run_plain(&table, &plan, plain, width);
        fill(memory, count);
        run_unfused(&plan, &rivers, ROUNDS);
        runs++, wrong += memcmp(plain, memory, bytes) != 0;
        for (size_t s = 0; s < sizeof strips / sizeof *strips; s++) {
            fill(memory, count);
            run_checked(&plan, &rivers, strips[s], fault);
            runs++, wrong += memcmp(plain, memory, bytes) != 0;
        }
        free(plain), free(memory);
    }
    printf("%2d loops, %4u sections, rivers: %td, lines of %u, threads: 1 to %d, runs: %d, wrong: %d\n", STEP_LOOPS * steps,
           (unsigned)sections, width, (unsigned)line, threads - 1, runs, wrong);
    return wrong;
}

/* One time step has the threshold 4 and four have 22: 8 blocks need 32 or 176 indices, so with a section less 7 threads are the most. In lines
 * of 8, 31 and 32 indices are 4 lines, so 4 threads are the most; 175 and 176 are 22 lines, of which the last of 7 blocks has 3 and the last of
 * 8 would have 2, so 7 threads are the most. Lines are tried on one river, of which 8 numbers are a cache line of 64 bytes. */
static int check(enum fault fault) {
    int wrong = 0;
    for (int steps = 1; steps <= 4; steps += 3)
        for (int way = 0; way < 3; way++) {
            const ptrdiff_t width = way == 1 ? 7 : 1;
            const uint32_t line = way == 2 ? 8 : 1;
            wrong += check_size(steps, steps == 1 ? 33 : 177, width, line, fault);
            wrong += check_size(steps, steps == 1 ? 34 : 178, width, line, fault);
            wrong += check_size(steps, 1013, width, line, fault);
        }
    printf(wrong ? "NOT the bits of the plain run: %d runs\n" : "all have the bits of the plain run\n", wrong);
    return wrong != 0;
}

/* The best time of the unfused loops and of the fused ones, in milliseconds, taken by turns on the same memory. */
static void time_both(const struct plan *plan, const struct rivers *rivers, ptrdiff_t strip, int rounds, double best[2]) {
    best[0] = best[1] = 1e9;
    for (int turn = 0; turn < 2 * TURNS; turn++) {
        const double begin = omp_get_wtime();
        if (turn % 2) run_fused(plan, rivers, strip, rounds);
        else run_unfused(plan, rivers, rounds);
        const double taken = (omp_get_wtime() - begin) * 1e3;
        if (taken < best[turn % 2]) best[turn % 2] = taken;
    }
}

/* For each strip length: both leave the same bits, and how long each takes. */
static int time_plan(const struct table *table, int threads, double *const memory[2], ptrdiff_t width) {
    static const ptrdiff_t strips[] = {8, 64, 512, WHOLE};
    struct plan plan;
    double best[2];
    if (!make_plan(&plan, table, in_lines(threads, 1))) return printf("%7d  %5d  the blocks are too short\n", threads, plan.loops), 0;
    const struct rivers rivers = rivers_in(memory[0], &plan, width), others = rivers_in(memory[1], &plan, width);
    const size_t count = plan.elements * (size_t)width;
    const int rounds = TIMED_STEPS * STEP_LOOPS / plan.loops;
    for (size_t s = 0; s < sizeof strips / sizeof *strips; s++) {
        fill(memory[0], count), fill(memory[1], count);
        run_unfused(&plan, &rivers, rounds), run_fused(&plan, &others, strips[s], rounds);
        if (memcmp(memory[0], memory[1], count * sizeof(double)) != 0) return puts("NOT the same bits"), 1;
        time_both(&plan, &rivers, strips[s], rounds, best);
        printf("%7d  %5d  %2u to %u  %6td  %10.2f  %8.2f  %5.2f\n", threads, plan.loops, (unsigned)plan.sweeps[0], (unsigned)plan.sweeps[1],
               strips[s], best[0], best[1], best[0] / best[1]);
    }
    return 0;
}

static int time_all(uint32_t sections, ptrdiff_t width) {
    const size_t count = (size_t)4 * sections * width;
    double *const memory[2] = {room(count), room(count)};
    struct table table;
    int wrong = 0;
    fflush(stdout);
    if (system("lscpu | grep -E '^(Model name|CPU\\(s\\)|L[123]d? cache)'") != 0) puts("no lscpu: the sizes of the caches are not known");
    printf("4 arrays, %u sections, %td rivers: %.1f MiB. %d time steps, the best of %d times; ratio: unfused / fused\n", (unsigned)sections,
           width, (double)count * sizeof(double) / (1 << 20), TIMED_STEPS, TURNS);
    printf("threads  loops   sweeps   strip  unfused ms  fused ms  ratio\n");
    for (int threads = 1; threads <= omp_get_num_procs() && threads <= VEMPALDI_MOST_PROCESSORS; threads *= 2)
        for (int steps = 1; steps <= TIMED_STEPS; steps *= 2) {
            make_table(&table, sections, steps);
            wrong += time_plan(&table, threads, memory, width);
        }
    free(memory[0]), free(memory[1]);
    return wrong != 0;
}

/* A number from 1 to 1,000,000 and nothing behind it, or 0. What the library refuses is left to it. */
static int number_in(const char *word) {
    char *end;
    const long value = strtol(word, &end, 10);
    return *end || value < 1 || value > 1000000 ? 0 : (int)value;
}

int main(int count, char **word) {
    static const char *const faults[] = {"none", "shifts", "peels", "barrier"};
    const int left = count == 4 ? number_in(word[2]) : 0, right = count == 4 ? number_in(word[3]) : 0;
    if (count == 1) return check(NONE);
    for (int fault = SHIFTS; count == 3 && fault <= BARRIER; fault++)
        if (!strcmp(word[1], "--broken") && !strcmp(word[2], faults[fault])) return check(fault);
    if (count == 2 && !strcmp(word[1], "--time")) return time_all(65536, 64);
    if (left && right && !strcmp(word[1], "--time")) return time_all(left, right);
    if (left && right && !strcmp(word[1], "--table")) {
        struct table table;
        make_table(&table, left, right);
        return fwrite(table.bytes, 1, table.length, stdout) == table.length ? 0 : 2;
    }
    fprintf(stderr, "usage: river [--broken shifts|peels|barrier | --time [SECTIONS RIVERS] | --table SECTIONS STEPS]\n");
    return 2;
}
