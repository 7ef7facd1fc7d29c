/* (b) The straightforward version: an edge is judged by walking its vertex or face, the dart before a dart is found by walking round its
 * vertex, and a state is checked by undoing all of it and building it up again with the same walks. */
#include <stdbool.h>
#include <string.h>

#include "plain_area.h"
#include "text.h"

/* The work area: the map, D at each gone dart and 0 at the others, the map as it was given, the history. */
struct walk {
    uint32_t darts;
    uint32_t *map, *gone, *given, *history;
};

static struct walk walk_over(const struct lent *lent, uint32_t darts) {
    uint32_t *work = lent->work;
    return (struct walk){darts, work, work + darts, work + 2 * (size_t)darts, work + 3 * (size_t)darts};
}

static void clear(struct walk walk) {
    memset(walk.map, 0, 4 * (size_t)walk.darts * sizeof *walk.map);
}

static uint32_t fit(const struct lent *lent, uint32_t darts) {
    if (darts == 0 || darts % 2 != 0 || darts > MOST_DARTS) return 1;
    if (lent->table_length < darts || lent->history_length < darts / 2) return 2;
    return lent->work_length < 4 * (size_t)darts ? 2 : 0;
}

/* The surviving dart that leads to x, found by walking round x's vertex. */
static uint32_t before(struct walk walk, uint32_t x) {
    uint32_t y = x;
    while (walk.map[y] != x) y = walk.map[y];
    return y;
}

/* Whether q is met on the way round p's face, for removals, or p's vertex, for contractions. */
static bool meets(struct walk walk, enum kind kind, uint32_t p, uint32_t q) {
    uint32_t flip = kind == REMOVE, x = p;
    do {
        x = walk.map[x ^ flip];
    } while (x != p && x != q);
    return x == q;
}

static uint32_t judge(struct walk walk, enum kind kind, uint32_t edge) {
    uint32_t p = 2 * edge, q = p + 1;
    if (edge >= walk.darts / 2) return 7;
    if (walk.gone[p] != 0) return 8;
    if (meets(walk, kind, p, q)) return kind == CONTRACT ? 9 : 10;
    uint32_t r = walk.map[p], s = walk.map[q];
    return (r == p && s == q) || (r == q && s == p) ? 11 : 0;
}

/* The operation on an edge; both changes use the entries from before it. The history number. */
static uint32_t operate(struct walk walk, enum kind kind, uint32_t edge) {
    uint32_t p = 2 * edge;
    if (kind == REMOVE ? walk.map[p + 1] == p : walk.map[p] == p) p++;
    uint32_t q = partner(p), r = walk.map[p], s = walk.map[q];
    uint32_t x = kind == REMOVE ? r : s, y = kind == REMOVE ? s : r;
    uint32_t a = before(walk, p), b = before(walk, q);
    walk.map[a] = x == q ? y : x;
    if (x != q) walk.map[b] = y;
    walk.gone[p] = walk.gone[q] = walk.darts;
    return 2 * p + kind;
}

/* Undoes the operation h. No where its darts cannot come back. */
static bool undo_one(struct walk walk, uint32_t h) {
    uint32_t p = h / 2, q = partner(p), r = walk.map[p], s = walk.map[q];
    uint32_t x = h % 2 == REMOVE ? r : s, y = h % 2 == REMOVE ? s : r;
    if (walk.gone[y] != 0) return false;
    if (x != q && (walk.gone[x] != 0 || x == y)) return false;
    uint32_t b = before(walk, y);
    if (x == q) {
        walk.map[b] = p;
    } else {
        uint32_t a = before(walk, x);
        walk.map[a] = p;
        walk.map[b] = q;
    }
    walk.gone[p] = walk.gone[q] = 0;
    return true;
}

/* The history's edges are marked as gone, and the survivors' entries are a permutation of the survivors. */
static bool permutes(struct walk walk, uint32_t operations) {
    memset(walk.gone, 0, walk.darts * sizeof *walk.gone);
    for (uint32_t i = 0; i < operations; i++) {
        uint32_t h = walk.history[i], p = h / 4 * 2;
        if (h >= 2 * walk.darts || walk.gone[p] != 0) return false;
        walk.gone[p] = walk.gone[p + 1] = walk.darts;
    }
    memset(walk.given, 0, walk.darts * sizeof *walk.given);
    for (uint32_t x = 0; x < walk.darts; x++) {
        uint32_t y = walk.map[x];
        if (y >= walk.darts) return false;
        if (walk.gone[x] != 0) continue;
        if (walk.gone[y] != 0 || walk.given[y] != 0) return false;
        walk.given[y] = 1;
    }
    return true;
}

/* The faces or vertices, each counted at its first dart and marked by walking round it. */
static uint32_t cycles(struct walk walk, enum kind kind) {
    uint32_t flip = kind == REMOVE, count = 0, *met = walk.given;
    memset(met, 0, walk.darts * sizeof *met);
    for (uint32_t i = 0; i < walk.darts; i++) {
        if (walk.gone[i] != 0 || met[i] != 0) continue;
        count++;
        for (uint32_t x = i; met[x] == 0; x = walk.map[x ^ flip]) met[x] = 1;
    }
    return count;
}

/* Everything undone, and done again: each operation must be allowed, and leave the same number and in the end the same map. */
static bool check_laid(struct walk walk, const struct state *state) {
    uint32_t n = state->operations;
    if (n > walk.darts / 2 || !permutes(walk, n) || !area_shape(walk.history, state)) return false;
    memcpy(walk.given, walk.map, walk.darts * sizeof *walk.map);
    for (uint32_t i = n; i > 0; i--)
        if (!undo_one(walk, walk.history[i - 1])) return false;
    for (uint32_t i = 0; i < n; i++) {
        uint32_t h = walk.history[i];
        if (judge(walk, h % 2, h / 4) != 0 || operate(walk, h % 2, h / 4) != h) return false;
    }
    return memcmp(walk.given, walk.map, walk.darts * sizeof *walk.map) == 0;
}

static bool check(struct walk walk, const struct lent *lent) {
    if (lent->state.operations > walk.darts / 2) return false;
    memcpy(walk.map, lent->table, walk.darts * sizeof *walk.map);
    memcpy(walk.history, lent->history, lent->state.operations * sizeof *walk.history);
    if (!check_laid(walk, &lent->state)) return false;
    return cycles(walk, CONTRACT) == lent->state.vertices && cycles(walk, REMOVE) == lent->state.faces;
}

/* The numbers of vertices and faces are counted each time. */
static void store(struct walk walk, struct lent *lent, uint32_t operations) {
    memcpy(lent->table, walk.map, walk.darts * sizeof *walk.map);
    memcpy(lent->history, walk.history, operations * sizeof *walk.history);
    lent->state.operations = operations;
    lent->state.vertices = cycles(walk, CONTRACT);
    lent->state.faces = cycles(walk, REMOVE);
}

static uint32_t level(struct walk walk, struct lent *lent, uint32_t operations) {
    if (operations == lent->state.operations) return 5;
    store(walk, lent, operations);
    lent->state.ends[lent->state.levels++] = operations;
    return 0;
}

static uint32_t contract_inside(struct walk walk, struct lent *lent, const uint32_t *kernel, size_t length, size_t place[2]) {
    uint32_t m = lent->state.operations;
    if (!check(walk, lent)) return 4;
    if (lent->state.levels >= MOST_LEVELS) return 6;
    for (size_t i = 0; i < length; i++) {
        uint32_t number = judge(walk, CONTRACT, kernel[i]);
        place[0] = i;
        if (number != 0) return number;
        walk.history[m++] = operate(walk, CONTRACT, kernel[i]);
    }
    place[0] = 0;
    return level(walk, lent, m);
}

static uint32_t sweep_inside(struct walk walk, struct lent *lent) {
    uint32_t m = lent->state.operations;
    if (!check(walk, lent)) return 4;
    if (lent->state.levels >= MOST_LEVELS) return 6;
    for (uint32_t edge = 0; edge < walk.darts / 2; edge++) {
        uint32_t p = 2 * edge, q = p + 1;
        if (walk.gone[p] != 0 || (walk.map[p] == q) == (walk.map[q] == p)) continue;
        walk.history[m++] = operate(walk, REMOVE, edge);
    }
    return level(walk, lent, m);
}

static uint32_t counts_inside(struct walk walk, struct lent *lent, uint32_t counts[4]) {
    if (!check(walk, lent)) return 4;
    counts[0] = walk.darts - 2 * lent->state.operations;
    counts[1] = lent->state.vertices;
    counts[2] = lent->state.faces;
    counts[3] = counts[1] - counts[0] / 2 + counts[2];
    return 0;
}

/* Unfold to a level; for undo, which has no level given, to the one below the top. */
static uint32_t unfold_inside(struct walk walk, struct lent *lent, const uint32_t *given, size_t place[2]) {
    struct state *state = &lent->state;
    if (!check(walk, lent)) return 4;
    place[0] = state->levels;
    if (given == NULL ? state->levels == 0 : *given > state->levels) return 12;
    place[0] = 0;
    uint32_t to = given == NULL ? state->levels - 1 : *given, end = to > 0 ? state->ends[to - 1] : 0;
    for (uint32_t i = state->operations; i > end; i--) undo_one(walk, walk.history[i - 1]);
    while (state->levels > to) state->ends[--state->levels] = 0;
    store(walk, lent, end);
    return 0;
}

static uint32_t write_inside(struct walk walk, struct lent *lent, uint8_t *output, size_t length, size_t place[2]) {
    if (!check(walk, lent)) return 4;
    struct text text = {&lent->state, walk.history, walk.map, walk.given, walk.gone};
    text_number(&text, walk.gone);
    place[0] = text_length(&text);
    if (length < place[0]) return 2;
    text_write(&text, output);
    return 0;
}

static uint32_t read_inside(struct reader *reader, struct walk walk, struct lent *lent, size_t place[2]) {
    struct state state = {.darts = walk.darts};
    uint32_t number = text_kernels(reader, &state, walk.history, place);
    if (number == 0) number = text_pairs(reader, walk.darts, walk.map, place);
    if (number != 0) return number;
    if (!check_laid(walk, &state)) return 4;
    lent->state = state;
    store(walk, lent, state.operations);
    return 0;
}

/* Each call: answers 1 and 2, what it does in the work area, and the work area cleared. */
#define CALL(darts, inside)                   \
    uint32_t number = fit(lent, darts);       \
    place[0] = place[1] = 0;                  \
    if (number != 0) return number;           \
    struct walk walk = walk_over(lent, darts); \
    number = (inside);                        \
    clear(walk);                             \
    return number

static uint32_t start_inside(struct walk walk, struct lent *lent, size_t place[2]) {
    memset(walk.map, 0, walk.darts * sizeof *walk.map);
    for (uint32_t i = 0; i < walk.darts; i++) {
        uint32_t x = lent->table[i];
        if (x >= walk.darts || walk.map[x] != 0) {
            place[0] = i;
            place[1] = x >= walk.darts ? walk.darts : walk.map[x] - 1;
            return 3;
        }
        walk.map[x] = i + 1;
    }
    memcpy(walk.map, lent->table, walk.darts * sizeof *walk.map);
    memset(walk.gone, 0, walk.darts * sizeof *walk.gone);
    lent->state.darts = walk.darts;
    lent->state.vertices = cycles(walk, CONTRACT);
    lent->state.faces = cycles(walk, REMOVE);
    return 0;
}

static uint32_t start(struct lent *lent, uint32_t darts, size_t place[2]) {
    memset(&lent->state, 0, sizeof lent->state);
    CALL(darts, start_inside(walk, lent, place));
}

static uint32_t contract(struct lent *lent, const uint32_t *kernel, size_t length, size_t place[2]) {
    CALL(lent->state.darts, contract_inside(walk, lent, kernel, length, place));
}

static uint32_t sweep(struct lent *lent, size_t place[2]) {
    CALL(lent->state.darts, sweep_inside(walk, lent));
}

static uint32_t counts(struct lent *lent, uint32_t counts[4], size_t place[2]) {
    memset(counts, 0, 4 * sizeof *counts);
    CALL(lent->state.darts, counts_inside(walk, lent, counts));
}

static uint32_t undo(struct lent *lent, size_t place[2]) {
    CALL(lent->state.darts, unfold_inside(walk, lent, NULL, place));
}

static uint32_t unfold(struct lent *lent, uint32_t level, size_t place[2]) {
    CALL(lent->state.darts, unfold_inside(walk, lent, &level, place));
}

static uint32_t write(struct lent *lent, uint8_t *output, size_t length, size_t place[2]) {
    CALL(lent->state.darts, write_inside(walk, lent, output, length, place));
}

static uint32_t read(struct lent *lent, const uint8_t *bytes, size_t length, size_t place[2]) {
    struct reader reader = {bytes, length, 0, 0};
    uint32_t darts = 0, opened = text_opening(&reader, &darts, place);
    memset(&lent->state, 0, sizeof lent->state);
    place[1] = 0;
    if (opened != 0) return opened;
    CALL(darts, read_inside(&reader, walk, lent, place));
}

const struct calls walking = {start, contract, sweep, counts, undo, unfold, write, read};
