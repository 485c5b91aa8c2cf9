/* A river's time steps on OpenMP threads, fused by a plan of the library. river.c has the table, the plan and the loops: what a code
 * generator would write. main.c checks them bit by bit and times them. */
#ifndef RIVER_H
#define RIVER_H

#include <stddef.h>

#include "vempaldi.h"

enum { MOST_LOOPS = 16, STEP_LOOPS = 4 };

/* The indices first to past - 1; none where past is not above first. */
struct range {
    ptrdiff_t first, past;
};

struct table {
    uint8_t bytes[VEMPALDI_TABLE_BYTES];
    size_t length;
};

/* Everything that the loops below ask the library for, in numbers. */
struct plan {
    int loops, processors;
    uint32_t elements, array[4], sweeps[2];                        /* all elements; the first of H, Q, S, D; sweeps before and after */
    struct range own[MOST_LOOPS], block[VEMPALDI_MOST_PROCESSORS]; /* a loop's own bounds; a processor's block */
    ptrdiff_t shift[MOST_LOOPS];
    struct range fused[VEMPALDI_MOST_PROCESSORS][MOST_LOOPS], peeled[VEMPALDI_MOST_PROCESSORS][MOST_LOOPS];
};

/* `width` rivers side by side: element i of river r is at i * width + r of its array. So a loop over the indices first to past - 1 is, for
 * all rivers at once, one sweep from first * width to past * width - 1, and an offset of 1 is `width` further. */
struct rivers {
    double *H, *Q, *S, *D;
    ptrdiff_t width;
};

/* Ends the program where a call was refused. */
void stop_if_refused(const char *what, const uint64_t answer[4]);

/* The table of `steps` time steps joined, 1 to 4 (a table has at most 16 loops), on `sections` sections: examples/river.txt in bytes. */
void make_table(struct table *table, uint32_t sections, int steps);

/* The plan for these processors and lines. 0 where the blocks would be too short for the plan (ground 11): then take fewer processors, or
 * shorter lines. */
int make_plan(struct plan *plan, const struct table *table, struct vempaldi_settings settings);

/* The rivers that lie in a memory of plan->elements * width numbers. */
struct rivers rivers_in(double *memory, const struct plan *plan, ptrdiff_t width);

/* What people have without a plan: each loop parallel, a barrier after each. `rounds` times. */
void run_unfused(const struct plan *plan, const struct rivers *rivers, int rounds);

/* The plan: strips of the fused loop, a barrier, the peeled parts. `rounds` times. */
void run_fused(const struct plan *plan, const struct rivers *rivers, ptrdiff_t strip, int rounds);

/* What one processor runs before the barrier and past it. */
void fused_part(const struct plan *plan, const struct rivers *rivers, int processor, ptrdiff_t strip);
void peeled_part(const struct plan *plan, const struct rivers *rivers, int processor);

#endif
