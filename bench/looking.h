/* The successor at a level: whether the library, (a) and unfolding agree, the times of one lookup, and the table of these. */
#ifndef BENCH_LOOKING_H
#define BENCH_LOOKING_H

#include "plans.h"

/* The levels that are looked up: the base, one in the middle and the top. */
enum { LOOKED_LEVELS = 3 };

/* The library and (a) look up; the library unfolds to the same level. */
enum way { BY_LIBRARY, BY_PLAIN, BY_UNFOLDING, WAYS };

/* The median seconds of one call, and how many gone darts a lookup passes on the mean. */
struct looked {
    enum picture picture;
    bool random;
    uint32_t side, darts, level, top, passed;
    double seconds[WAYS];
};

/* Small maps, ends and slices of every kind: the library and (a) leave the same, each answer of the call among them. */
void looking_agree(void);

/* The sizes of one picture and order, smallest first, LOOKED_LEVELS figures each: whether all agree; then the times. */
void looking_measure(enum picture picture, bool random, int sides, struct looked *looked);

/* One row for each pyramid and level. */
void looking_print(const struct looked *looked, int count);

/* What the figures of the largest pyramids must show, and whether they do. */
void looking_judge(const struct looked *looked, int count);

#endif
