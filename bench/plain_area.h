/* (a) The work area of the plain version: its four parts, and what is done in them. */
#ifndef BENCH_PLAIN_AREA_H
#define BENCH_PLAIN_AREA_H

#include <stdbool.h>

#include "calls.h"

/* The kind of an operation is the last bit of its history number. */
enum kind { REMOVE = 0, CONTRACT = 1, NEITHER = 2 };

/* Four parts of D numbers each. In `before`, D stands for a gone dart and D + 1 for one not yet known. */
struct area {
    uint32_t darts;
    uint32_t *map, *before, *forest, *history;
};

/* How a run of operations went: 0 and the operations there are then, or the answer that stopped it. */
struct ran {
    uint32_t number, operations;
    size_t place;
};

static inline uint32_t partner(uint32_t dart) {
    return dart ^ 1;
}

static inline bool survives(struct area area, uint32_t dart) {
    return area.before[dart] < area.darts;
}

/* The root of x; each number passed is hung under its grandparent. */
static inline uint32_t find(uint32_t *forest, uint32_t x) {
    while (forest[x] != x) {
        forest[x] = forest[forest[x]];
        x = forest[x];
    }
    return x;
}

/* Hangs the higher root under the lower; whether the two were apart. */
static inline bool join(uint32_t *forest, uint32_t x, uint32_t y) {
    uint32_t u = find(forest, x), v = find(forest, y);
    if (u == v) return false;
    if (u < v) forest[v] = u;
    else forest[u] = v;
    return true;
}

uint32_t area_fit(const struct lent *lent, uint32_t darts);
struct area area_over(const struct lent *lent, uint32_t darts);
void area_clear(struct area area);
bool area_relink(struct area area, uint32_t operations);
uint32_t area_test_base(struct area area, const uint32_t *table, uint32_t *beside);
bool area_take_back(struct area area, uint32_t operations, uint32_t count);
struct ran area_run(struct area area, uint32_t operations, const uint32_t *kernel, size_t length);
bool area_contract(struct area area, uint32_t operations, uint32_t edge);
bool area_remove(struct area area, uint32_t operations, uint32_t edge);
struct ran area_sweep(struct area area, uint32_t operations);
void area_store(struct area area, struct lent *lent, uint32_t operations);
uint32_t area_level(struct area area, struct lent *lent, struct ran ran, uint32_t *falls, size_t place[2]);

uint32_t area_label(struct area area, enum kind kind);
uint32_t area_label_base(struct area area, enum kind kind);
uint32_t area_count_base(struct area area, enum kind kind);
bool area_shape(const uint32_t *history, const struct state *state);
bool area_check(struct area area, const struct lent *lent, enum kind coming);
bool area_check_laid(struct area area, struct state *state);

#endif
