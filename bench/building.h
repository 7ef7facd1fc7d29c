/* The two calls that begin from a plan: whether the library and (a) agree, their times, and the table of these. */
#ifndef BENCH_BUILDING_H
#define BENCH_BUILDING_H

#include "plans.h"

/* The median seconds of one call on a plan, of the library and of (a). */
struct built {
    enum picture picture;
    uint32_t side, darts;
    double seconds[2][BUILDINGS];
};

/* Small plans of every shape, each slice long enough or one number short, and sizes outside the limits: both leave the same. */
void building_agree(void);

/* The sizes of one picture, smallest first: whether both leave the same, and what start and contract leave; then the times. */
void building_measure(enum picture picture, int sides, struct built *built);

/* One row for each plan and call, of all pictures one after the other. */
void building_print(const struct built *built, int sides);

/* What the figures must show of each call, and whether they do. */
void building_judge(const struct built *built, int sides);

#endif
