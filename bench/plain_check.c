/* (a) Is it a pyramid? Decided in the work area by the local tests and two forests. */
#include <string.h>

#include "plain_area.h"

/* One tree for each face or vertex of the survivors, with the lowest dart as root. How many there are. At the base no dart is gone. */
static inline uint32_t label(struct area area, enum kind kind, bool base) {
    uint32_t flip = kind == REMOVE, count = 0;
    for (uint32_t x = 0; x < area.darts; x++) area.forest[x] = x;
    for (uint32_t i = 0; i < area.darts; i++) {
        if ((!base && !survives(area, i)) || area.forest[i] != i) continue;
        count++;
        for (uint32_t x = area.map[i ^ flip]; x != i; x = area.map[x ^ flip]) area.forest[x] = i;
    }
    return count;
}

uint32_t area_label(struct area area, enum kind kind) {
    return label(area, kind, false);
}

uint32_t area_label_base(struct area area, enum kind kind) {
    return label(area, kind, true);
}

/* The number of the base's faces or vertices, each marked in the forest's part by walking round it: no tree is needed. */
uint32_t area_count_base(struct area area, enum kind kind) {
    uint32_t flip = kind == REMOVE, count = 0;
    memset(area.forest, 0, area.darts * sizeof *area.forest);
    for (uint32_t i = 0; i < area.darts; i++) {
        uint32_t x = i;
        if (area.forest[i] != 0) continue;
        count++;
        do {
            area.forest[x] = 1;
            x = area.map[x ^ flip];
        } while (x != i);
    }
    return count;
}

/* Tests 16 and 17 on the base: its faces or vertices are labelled and counted, and the darts of each operation of a kind are joined, first to last; no
 * where they were together. */
static bool replay(struct area area, uint32_t operations, enum kind kind, uint32_t *count) {
    *count = label(area, kind, true);
    for (uint32_t i = 0; i < operations; i++) {
        uint32_t h = area.history[i];
        if (h % 2 == kind && !join(area.forest, h / 2, partner(h / 2))) return false;
    }
    return true;
}

static uint32_t contractions(struct area area, uint32_t operations) {
    uint32_t count = 0;
    for (uint32_t i = 0; i < operations; i++) count += area.history[i] % 2;
    return count;
}

/* The ends rise to the number of operations, are zero past the levels, and each level has one kind. */
bool area_shape(const uint32_t *history, const struct state *state) {
    uint32_t from = 0;
    if (state->levels > MOST_LEVELS) return false;
    for (uint32_t i = state->levels; i < MOST_LEVELS; i++)
        if (state->ends[i] != 0) return false;
    for (uint32_t i = 0; i < state->levels; i++) {
        uint32_t end = state->ends[i];
        if (end <= from || end > state->operations) return false;
        for (uint32_t j = from + 1; j < end; j++)
            if ((history[j] ^ history[from]) % 2 != 0) return false;
        from = end;
    }
    return from == state->operations;
}

/* Contractions alone: no face has gone, so that the faces are counted at the present level, which has fewer darts, before anything is taken back. */
static bool decide_contracted(struct area area, uint32_t operations, uint32_t numbers[2]) {
    numbers[REMOVE] = area_label(area, REMOVE);
    if (!area_take_back(area, operations, operations) || !replay(area, operations, CONTRACT, &numbers[CONTRACT])) return false;
    numbers[CONTRACT] -= operations;
    return true;
}

/* Both forests are built, the coming kernel's last. By kind, the numbers of the present level: the base's faces and vertices, of which each removal and
 * each contraction took one away. */
static bool decide(struct area area, const struct state *state, enum kind coming, uint32_t numbers[2]) {
    uint32_t n = state->operations, contracted = contractions(area, n);
    enum kind last = coming == REMOVE ? REMOVE : CONTRACT, first = 1 - last;
    if (!area_shape(area.history, state)) return false;
    if (contracted == n && coming != REMOVE) return decide_contracted(area, n, numbers);
    if (!area_take_back(area, n, n)) return false;
    if (!replay(area, n, first, &numbers[first]) || !replay(area, n, last, &numbers[last])) return false;
    numbers[REMOVE] -= n - contracted;
    numbers[CONTRACT] -= contracted;
    return true;
}

/* Table and history copied into the work area, with the dart before each survivor: tests 1 to 5. */
static bool load(struct area area, const struct lent *lent) {
    uint32_t n = lent->state.operations;
    memcpy(area.map, lent->table, area.darts * sizeof *area.map);
    memcpy(area.history, lent->history, n * sizeof *area.history);
    return area_relink(area, n);
}

/* Whether what is lent is a pyramid, and stores its numbers. The work area then holds its map, and its forest judges the coming kernel. */
bool area_check(struct area area, const struct lent *lent, enum kind coming) {
    uint32_t numbers[2];
    if (lent->state.operations > area.darts / 2) return false;
    if (!load(area, lent) || !decide(area, &lent->state, coming, numbers)) return false;
    return numbers[CONTRACT] == lent->state.vertices && numbers[REMOVE] == lent->state.faces && load(area, lent);
}

/* The same of a map and a history that stand in the work area, as the reader leaves them. Their numbers are put into the state. */
bool area_check_laid(struct area area, struct state *state) {
    uint32_t numbers[2];
    if (state->operations > area.darts / 2) return false;
    if (!area_relink(area, state->operations) || !decide(area, state, NEITHER, numbers)) return false;
    state->vertices = numbers[CONTRACT];
    state->faces = numbers[REMOVE];
    return true;
}
