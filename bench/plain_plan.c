/* (a) The two calls on a plan in plain C: the same steps as the library, with no proof. */
#include <string.h>

#include "plain_area.h"

enum { MOST_CELLS = 128 };

/* The plan's grid; `along` is the number of edges along the courses, which come before the upright ones. */
struct grid {
    uint32_t wales, courses, along;
};

/* The darts of the cell k in wale x of course y; the even one of an edge is at the left or lower cell. */
static inline uint32_t rightward(uint32_t y, uint32_t k) {
    return 2 * (k - y);
}

static inline uint32_t upward(struct grid grid, uint32_t k) {
    return 2 * (grid.along + k);
}

static inline uint32_t leftward(uint32_t y, uint32_t k) {
    return 2 * (k - y) - 1;
}

static inline uint32_t downward(struct grid grid, uint32_t k) {
    return 2 * (grid.along + k - grid.wales) + 1;
}

/* The dart after the one that goes right: up, left, down, skipping what is missing. The other three go on in the same round. */
static inline uint32_t after_right(struct grid grid, uint32_t x, uint32_t y, uint32_t k) {
    if (y + 1 < grid.courses) return upward(grid, k);
    if (x > 0) return leftward(y, k);
    if (y > 0) return downward(grid, k);
    return rightward(y, k);
}

static inline uint32_t after_up(struct grid grid, uint32_t x, uint32_t y, uint32_t k) {
    if (x > 0) return leftward(y, k);
    if (y > 0) return downward(grid, k);
    if (x + 1 < grid.wales) return rightward(y, k);
    return upward(grid, k);
}

static inline uint32_t after_left(struct grid grid, uint32_t x, uint32_t y, uint32_t k) {
    if (y > 0) return downward(grid, k);
    if (x + 1 < grid.wales) return rightward(y, k);
    if (y + 1 < grid.courses) return upward(grid, k);
    return leftward(y, k);
}

static inline uint32_t after_down(struct grid grid, uint32_t x, uint32_t y, uint32_t k) {
    if (x + 1 < grid.wales) return rightward(y, k);
    if (y + 1 < grid.courses) return upward(grid, k);
    if (x > 0) return leftward(y, k);
    return downward(grid, k);
}

/* The base's table: the edges along the courses, course by course, then the upright ones by their lower cells. */
static void lay_base(uint32_t *table, struct grid grid) {
    uint32_t *next = table;
    for (uint32_t y = 0, k = 0; y < grid.courses; y++, k++)
        for (uint32_t x = 0; x + 1 < grid.wales; x++, k++) {
            *next++ = after_right(grid, x, y, k);
            *next++ = after_left(grid, x + 1, y, k + 1);
        }
    for (uint32_t y = 0, k = 0; y + 1 < grid.courses; y++)
        for (uint32_t x = 0; x < grid.wales; x++, k++) {
            *next++ = after_up(grid, x, y, k);
            *next++ = after_down(grid, x, y + 1, k + grid.wales);
        }
}

/* One pass over the edges by rising number: each with one code at both ends is contracted, unless it is refused. How many were. */
static uint32_t contract_codes(struct area area, struct grid grid, const uint8_t *codes) {
    uint32_t edge = 0, taken = 0;
    for (uint32_t y = 0, k = 0; y < grid.courses; y++, k++)
        for (uint32_t x = 0; x + 1 < grid.wales; x++, k++, edge++)
            if (codes[k] == codes[k + 1]) taken += area_contract(area, taken, edge);
    for (uint32_t k = 0; k < grid.wales * (grid.courses - 1); k++, edge++)
        if (codes[k] == codes[k + grid.wales]) taken += area_contract(area, taken, edge);
    return taken;
}

/* Answers 15 and 2, which both calls judge first; where there is none, the grid and its darts. */
static uint32_t fit_plan(struct lent *lent, uint32_t wales, uint32_t courses, size_t length, struct grid *grid, uint32_t *darts) {
    if (wales < 1 || wales > MOST_CELLS || courses < 1 || courses > MOST_CELLS || wales * courses == 1) return 15;
    *grid = (struct grid){wales, courses, (wales - 1) * courses};
    *darts = 2 * (grid->along + wales * (courses - 1));
    return length < wales * courses ? 2 : area_fit(lent, *darts);
}

/* A vertex for each cell; a face inside each four cells, and one outside. */
static void number_base(struct lent *lent, struct grid grid, uint32_t darts) {
    lent->state.darts = darts;
    lent->state.vertices = grid.wales * grid.courses;
    lent->state.faces = (grid.wales - 1) * (grid.courses - 1) + 1;
}

static uint32_t base(struct lent *lent, uint32_t wales, uint32_t courses, const uint8_t *codes, size_t length, size_t place[2]) {
    struct grid grid;
    uint32_t darts, number = fit_plan(lent, wales, courses, length, &grid, &darts);
    (void)codes;
    place[0] = place[1] = 0;
    memset(&lent->state, 0, sizeof lent->state);
    if (number != 0) return number;
    lay_base(lent->table, grid);
    area_clear(area_over(lent, darts));
    number_base(lent, grid, darts);
    return 0;
}

/* The base is laid in the work area, and its first kernel taken there. */
static uint32_t areas(struct lent *lent, uint32_t wales, uint32_t courses, const uint8_t *codes, size_t length, size_t place[2]) {
    struct grid grid;
    uint32_t darts, number = fit_plan(lent, wales, courses, length, &grid, &darts);
    place[0] = place[1] = 0;
    memset(&lent->state, 0, sizeof lent->state);
    if (number != 0) return number;
    struct area area = area_over(lent, darts);
    lay_base(area.map, grid);
    area_relink(area, 0);
    area_label_base(area, CONTRACT);
    uint32_t taken = contract_codes(area, grid, codes);
    if (taken > 0) number_base(lent, grid, darts);
    number = area_level(area, lent, (struct ran){0, taken, 0}, &lent->state.vertices, place);
    area_clear(area);
    return number;
}

plan_call *const plain_builds[BUILDINGS] = {base, areas};
