/* Stitch plans of N by N cells, in the numbering of samples/: edges along the courses first, then the upright ones. */
#include "plans.h"

#include <stdlib.h>

const char *const picture_names[ALL_PICTURES] = {"three codes", "one code", "two codes"};

enum direction { RIGHT, UP, LEFT, DOWN, DIRECTIONS };

/* The code of a cell. Three codes: a brief with seat 0, waist band 1 above, and leg bands 2 in the lower corners. Two codes: either at random. */
static uint32_t code(enum picture picture, uint32_t side, uint32_t x, uint32_t y) {
    uint32_t leg = 3 * side / 8, nearer = x < side - 1 - x ? x : side - 1 - x;
    uint64_t seed = y * side + x;
    if (picture == ONE_CODE) return 0;
    if (picture == TWO_CODES) return plan_random(&seed, 2);
    if (y >= side - side / 8) return 1;
    return nearer + y < leg ? 2 : 0;
}

/* The dart that leaves a cell in a direction, or D at the rim. The even dart is at the left, or below. */
static uint32_t dart(uint32_t side, uint32_t x, uint32_t y, enum direction direction) {
    uint32_t upright = side * (side - 1), none = 4 * upright;
    switch (direction) {
    case RIGHT: return x + 1 < side ? 2 * (y * (side - 1) + x) : none;
    case LEFT: return x > 0 ? 2 * (y * (side - 1) + x - 1) + 1 : none;
    case UP: return y + 1 < side ? 2 * (upright + y * side + x) : none;
    default: return y > 0 ? 2 * (upright + (y - 1) * side + x) + 1 : none;
    }
}

uint32_t plan_random(uint64_t *seed, uint32_t bound) {
    uint64_t z = *seed += 0x9e3779b97f4a7c15;
    z = (z ^ (z >> 30)) * 0xbf58476d1ce4e5b9;
    z = (z ^ (z >> 27)) * 0x94d049bb133111eb;
    return (uint32_t)((z ^ (z >> 31)) % bound);
}

static uint32_t *numbers(size_t count) {
    uint32_t *all = calloc(count, sizeof *all);
    if (all == NULL) abort();
    return all;
}

/* Each dart's number: as above, or with edges shuffled and each edge's darts exchanged or not. */
static uint32_t *names(const struct plan *plan) {
    uint32_t *name = numbers(plan->darts);
    uint64_t seed = plan->side;
    for (uint32_t e = 0; e < plan->edges; e++) {
        uint32_t other = plan->random ? plan_random(&seed, e + 1) : e;
        name[2 * e] = name[2 * other];
        name[2 * other] = 2 * e + (plan->random ? plan_random(&seed, 2) : 0);
    }
    for (uint32_t e = 0; e < plan->edges; e++) name[2 * e + 1] = name[2 * e] ^ 1;
    return name;
}

/* Round each cell: right, up, left, down, as present. `cell` gets the cell of each dart. */
static void turn_round(struct plan *plan, const uint32_t *name, uint32_t *cell) {
    uint32_t side = plan->side;
    for (uint32_t c = 0; c < side * side; c++) {
        uint32_t found[DIRECTIONS], count = 0;
        for (enum direction d = RIGHT; d < DIRECTIONS; d++) {
            uint32_t x = dart(side, c % side, c / side, d);
            if (x < plan->darts) found[count++] = name[x];
        }
        for (uint32_t i = 0; i < count; i++) {
            plan->table[found[i]] = found[(i + 1) % count];
            cell[found[i]] = c;
        }
    }
}

static uint32_t root(uint32_t *zone, uint32_t c) {
    while (zone[c] != c) c = zone[c] = zone[zone[c]];
    return c;
}

/* Each edge, by rising number, that joins two cells of one code and of zones that are apart so far. */
static void choose_kernel(struct plan *plan, const uint32_t *cell) {
    uint32_t side = plan->side, *zone = numbers(side * side);
    for (uint32_t c = 0; c < side * side; c++) zone[c] = c;
    for (uint32_t e = 0; e < plan->edges; e++) {
        uint32_t a = cell[2 * e], b = cell[2 * e + 1];
        if (code(plan->picture, side, a % side, a / side) != code(plan->picture, side, b % side, b / side)) continue;
        if (root(zone, a) == root(zone, b)) continue;
        zone[root(zone, a)] = root(zone, b);
        plan->kernel[plan->kernel_length++] = e;
    }
    free(zone);
}

struct plan plan_make(enum picture picture, bool random, uint32_t side) {
    uint32_t edges = 2 * side * (side - 1);
    struct plan plan = {picture, random, side, 2 * edges, edges, numbers(2 * edges), numbers(edges), 0};
    uint32_t *name = names(&plan), *cell = numbers(plan.darts);
    turn_round(&plan, name, cell);
    choose_kernel(&plan, cell);
    free(name);
    free(cell);
    return plan;
}

void plan_free(struct plan *plan) {
    free(plan->table);
    free(plan->kernel);
}

void plan_codes(enum picture picture, uint32_t side, uint8_t *codes) {
    for (uint32_t c = 0; c < side * side; c++) codes[c] = (uint8_t)code(picture, side, c % side, c / side);
}
