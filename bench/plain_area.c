/* (a) Operations in the work area: loaded, taken back, judged and done. */
#include <string.h>

#include "plain_area.h"

/* Answers 1 and 2, which every call judges first. */
uint32_t area_fit(const struct lent *lent, uint32_t darts) {
    if (darts == 0 || darts % 2 != 0 || darts > MOST_DARTS) return 1;
    if (lent->table_length < darts || lent->history_length < darts / 2) return 2;
    return lent->work_length < 4 * (size_t)darts ? 2 : 0;
}

/* The four parts of the lent work area. */
struct area area_over(const struct lent *lent, uint32_t darts) {
    uint32_t *work = lent->work;
    return (struct area){darts, work, work + darts, work + 2 * (size_t)darts, work + 3 * (size_t)darts};
}

/* The work area's first 4D numbers become zeros. */
void area_clear(struct area area) {
    memset(area.map, 0, 4 * (size_t)area.darts * sizeof *area.map);
}

/* Tests 1 and 2: the history's edges are marked as gone; no where a number is no dart's or an edge comes twice. */
static bool mark(struct area area, uint32_t operations) {
    for (uint32_t i = 0; i < operations; i++) {
        uint32_t h = area.history[i], p = h / 4 * 2;
        if (h >= 2 * area.darts) return false;
        if (area.before[p] != area.darts + 1) return false;
        area.before[p] = area.before[p + 1] = area.darts;
    }
    return true;
}

/* Nothing is known of the dart before each dart. */
static void forget(struct area area) {
    for (uint32_t x = 0; x < area.darts; x++) area.before[x] = area.darts + 1;
}

/* Tests 3, 4 and 5: entries are darts, survivors lead to survivors, and no two lead to one. After no operation no dart is gone. The lowest dart
 * that breaks one of them, or D. */
static inline uint32_t link_survivors(struct area area, uint32_t operations) {
    uint32_t x = 0;
    for (; x < area.darts; x++) {
        uint32_t y = area.map[x];
        if (y >= area.darts) break;
        if (operations > 0 && area.before[x] == area.darts) continue;
        if (area.before[y] != area.darts + 1) break;
        area.before[y] = x;
    }
    return x;
}

/* The dart before each survivor, of a map and a history that stand in their parts: tests 1 to 5. */
bool area_relink(struct area area, uint32_t operations) {
    forget(area);
    return mark(area, operations) && link_survivors(area, operations) == area.darts;
}

/* The permutation test of a table, no dart of which is gone: the lowest bad dart, or D, and beside it the dart noted at its successor, or D where
 * that is out of range. */
uint32_t area_test_base(struct area area, const uint32_t *table, uint32_t *beside) {
    for (uint32_t x = 0; x < area.darts; x++) {
        area.map[x] = table[x];
        area.before[x] = area.darts + 1;
    }
    uint32_t bad = link_survivors(area, 0);
    if (bad < area.darts) *beside = area.map[bad] < area.darts ? area.before[area.map[bad]] : area.darts;
    return bad;
}

static inline void bind(struct area area, uint32_t a, uint32_t x) {
    area.map[a] = x;
    area.before[x] = a;
}

/* Tests 6 to 15, and the operation h undone where it passes them. For a contraction r and s change places. */
static bool take_back_one(struct area area, uint32_t h) {
    uint32_t p = h / 2, q = partner(p), r = area.map[p], s = area.map[q];
    uint32_t x = h % 2 == REMOVE ? r : s, y = h % 2 == REMOVE ? s : r;
    if (!survives(area, y)) return false;
    uint32_t a = area.before[x], b = area.before[y];
    if (x == q) {
        bind(area, b, p);
    } else {
        if (p % 2 != 0 || a >= area.darts || x == y) return false;
        bind(area, a, p);
        bind(area, b, q);
    }
    bind(area, p, r);
    bind(area, q, s);
    return true;
}

/* The last `count` operations undone, the last one first. */
bool area_take_back(struct area area, uint32_t operations, uint32_t count) {
    for (uint32_t left = operations; left > operations - count; left--)
        if (!take_back_one(area, area.history[left - 1])) return false;
    return true;
}

/* The answer's number for an edge at its turn; the forest tells vertices for contractions, faces for removals. Where it is 0, the edge's two darts are
 * joined. */
static inline uint32_t judge(struct area area, enum kind kind, uint32_t edge) {
    if (edge >= area.darts / 2) return 7;
    uint32_t p = 2 * edge, q = p + 1, shared = kind == CONTRACT ? 9 : 10;
    if (!survives(area, p)) return 8;
    uint32_t r = area.map[p], s = area.map[q];
    if ((r == p && s == q) || (r == q && s == p)) return find(area.forest, p) == find(area.forest, q) ? shared : 11;
    return join(area.forest, p, q) ? 0 : shared;
}

/* The operation on an edge. */
static inline void operate(struct area area, uint32_t operations, enum kind kind, uint32_t edge) {
    uint32_t p = 2 * edge, q = p + 1;
    if (kind == REMOVE ? area.map[q] == p : area.map[p] == p) {
        p = q;
        q = partner(p);
    }
    uint32_t r = area.map[p], s = area.map[q], a = area.before[p], b = area.before[q];
    uint32_t x = kind == REMOVE ? r : s, y = kind == REMOVE ? s : r;
    if (x == q) {
        bind(area, a, y);
    } else {
        bind(area, a, x);
        bind(area, b, y);
    }
    area.before[p] = area.before[q] = area.darts;
    area.history[operations] = 2 * p + kind;
}

/* A kernel of contractions after so many operations, each edge judged at its turn. */
struct ran area_run(struct area area, uint32_t operations, const uint32_t *kernel, size_t length) {
    for (size_t i = 0; i < length; i++) {
        uint32_t number = judge(area, CONTRACT, kernel[i]);
        if (number != 0) return (struct ran){number, operations, i};
        operate(area, operations + (uint32_t)i, CONTRACT, kernel[i]);
    }
    return (struct ran){0, operations + (uint32_t)length, 0};
}

/* The edge contracted after so many operations, unless it is refused at its turn; whether it was contracted. */
bool area_contract(struct area area, uint32_t operations, uint32_t edge) {
    if (judge(area, CONTRACT, edge) != 0) return false;
    operate(area, operations, CONTRACT, edge);
    return true;
}

/* The same for a removal. */
bool area_remove(struct area area, uint32_t operations, uint32_t edge) {
    if (judge(area, REMOVE, edge) != 0) return false;
    operate(area, operations, REMOVE, edge);
    return true;
}

/* Whether the sweep takes an edge: a surviving empty loop that is no whole piece. */
static bool takes(struct area area, uint32_t edge) {
    uint32_t p = 2 * edge, q = p + 1;
    return survives(area, p) && (area.map[p] == q) != (area.map[q] == p);
}

/* One pass over the edges by rising number. None is judged: an empty loop has two different faces. */
struct ran area_sweep(struct area area, uint32_t operations) {
    uint32_t m = operations;
    for (uint32_t edge = 0; edge < area.darts / 2; edge++)
        if (takes(area, edge)) operate(area, m++, REMOVE, edge);
    return (struct ran){0, m, 0};
}

/* The map and so many history numbers, from the work area into what is lent. */
void area_store(struct area area, struct lent *lent, uint32_t operations) {
    memcpy(lent->table, area.map, area.darts * sizeof *area.map);
    memcpy(lent->history, area.history, operations * sizeof *area.history);
    lent->state.operations = operations;
}

/* One level more by a run that has gone well, or the answer that stopped it. The number that falls, of vertices or of faces, loses one with each
 * operation. */
uint32_t area_level(struct area area, struct lent *lent, struct ran ran, uint32_t *falls, size_t place[2]) {
    place[0] = ran.place;
    if (ran.number != 0) return ran.number;
    if (ran.operations == lent->state.operations) return 5;
    *falls -= ran.operations - lent->state.operations;
    area_store(area, lent, ran.operations);
    lent->state.ends[lent->state.levels++] = ran.operations;
    return 0;
}
