/* Stitch plans of N by N cells: a vertex for each cell, an edge between neighbours. */
#ifndef BENCH_PLANS_H
#define BENCH_PLANS_H

#include <stdbool.h>

#include "calls.h"

/* The calls that begin from a plan are measured on the last picture too. */
enum picture { THREE_CODES, ONE_CODE, PICTURES, TWO_CODES = PICTURES, ALL_PICTURES };

extern const char *const picture_names[ALL_PICTURES];

/* A plan's base table, and the kernel that contracts equal codes: in each zone a spanning tree, by rising edge. */
struct plan {
    enum picture picture;
    bool random;
    uint32_t side, darts, edges;
    uint32_t *table, *kernel;
    size_t kernel_length;
};

/* The plan of a picture, its edges numbered in order or, with fixed seed, at random. */
struct plan plan_make(enum picture picture, bool random, uint32_t side);
void plan_free(struct plan *plan);

/* The codes of a picture, one a cell, lowest course first and each from the left. */
void plan_codes(enum picture picture, uint32_t side, uint8_t *codes);

/* A number below `bound`, from a generator that gives the same numbers in each run. */
uint32_t plan_random(uint64_t *seed, uint32_t bound);

#endif
