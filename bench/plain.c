/* (a) The calls in plain C: the same steps and the same checks as the library, with no proof. */
#include <string.h>

#include "plain_area.h"
#include "text.h"

static uint32_t start(struct lent *lent, uint32_t darts, size_t place[2]) {
    uint32_t number = area_fit(lent, darts);
    place[0] = place[1] = 0;
    memset(&lent->state, 0, sizeof lent->state);
    if (number != 0) return number;
    struct area area = area_over(lent, darts);
    uint32_t beside = 0, bad = area_test_base(area, lent->table, &beside);
    if (bad == darts) {
        lent->state.darts = darts;
        lent->state.vertices = area_count_base(area, CONTRACT);
        lent->state.faces = area_count_base(area, REMOVE);
    } else {
        place[0] = bad;
        place[1] = beside;
        number = 3;
    }
    area_clear(area);
    return number;
}

static uint32_t contract_inside(struct area area, struct lent *lent, const uint32_t *kernel, size_t length, size_t place[2]) {
    if (!area_check(area, lent, CONTRACT)) return 4;
    if (lent->state.levels >= MOST_LEVELS) return 6;
    return area_level(area, lent, area_run(area, lent->state.operations, kernel, length), &lent->state.vertices, place);
}

static uint32_t sweep_inside(struct area area, struct lent *lent, size_t place[2]) {
    if (!area_check(area, lent, NEITHER)) return 4;
    if (lent->state.levels >= MOST_LEVELS) return 6;
    return area_level(area, lent, area_sweep(area, lent->state.operations), &lent->state.faces, place);
}

/* The numbers that the state stores are those of its cycles, once it is checked. */
static uint32_t counts_inside(struct area area, struct lent *lent, uint32_t counts[4]) {
    if (!area_check(area, lent, NEITHER)) return 4;
    counts[0] = area.darts - 2 * lent->state.operations;
    counts[1] = lent->state.vertices;
    counts[2] = lent->state.faces;
    counts[3] = counts[1] - counts[0] / 2 + counts[2];
    return 0;
}

/* Level after level undone, down to this one. Each operation undone gives a vertex or a face back, and a level has one kind. */
static void lower(struct area area, struct lent *lent, uint32_t to) {
    struct state *state = &lent->state;
    uint32_t operations = state->operations;
    while (state->levels > to) {
        uint32_t below = state->levels > 1 ? state->ends[state->levels - 2] : 0;
        area_take_back(area, operations, operations - below);
        *(area.history[below] % 2 == CONTRACT ? &state->vertices : &state->faces) += operations - below;
        state->ends[--state->levels] = 0;
        operations = below;
    }
    area_store(area, lent, operations);
}

/* Unfold to a level; for undo, which has no level given, to the one below the top. */
static uint32_t unfold_inside(struct area area, struct lent *lent, const uint32_t *given, size_t place[2]) {
    uint32_t top = lent->state.levels;
    if (!area_check(area, lent, NEITHER)) return 4;
    if (given == NULL ? top == 0 : *given > top) {
        place[0] = top;
        return 12;
    }
    lower(area, lent, given == NULL ? top - 1 : *given);
    return 0;
}

/* Each call: answers 1 and 2, what it does in the work area, and the work area cleared. */
#define CALL(inside)                                       \
    uint32_t number = area_fit(lent, lent->state.darts);   \
    place[0] = place[1] = 0;                               \
    if (number != 0) return number;                        \
    struct area area = area_over(lent, lent->state.darts); \
    number = (inside);                                     \
    area_clear(area);                                     \
    return number

static uint32_t contract(struct lent *lent, const uint32_t *kernel, size_t length, size_t place[2]) {
    CALL(contract_inside(area, lent, kernel, length, place));
}

static uint32_t sweep(struct lent *lent, size_t place[2]) {
    CALL(sweep_inside(area, lent, place));
}

static uint32_t counts(struct lent *lent, uint32_t counts[4], size_t place[2]) {
    memset(counts, 0, 4 * sizeof *counts);
    CALL(counts_inside(area, lent, counts));
}

static uint32_t undo(struct lent *lent, size_t place[2]) {
    CALL(unfold_inside(area, lent, NULL, place));
}

static uint32_t unfold(struct lent *lent, uint32_t level, size_t place[2]) {
    CALL(unfold_inside(area, lent, &level, place));
}

/* The darts in the file's order stand in the forest's part, their numbers in the part of the dart before each dart. */
static uint32_t write_inside(struct area area, struct lent *lent, uint8_t *output, size_t length, size_t place[2]) {
    if (!area_check(area, lent, NEITHER)) return 4;
    struct text text = {&lent->state, area.history, area.map, area.forest, area.before};
    text_number(&text, area.before);
    place[0] = text_length(&text);
    if (length < place[0]) return 2;
    text_write(&text, output);
    return 0;
}

static uint32_t write(struct lent *lent, uint8_t *output, size_t length, size_t place[2]) {
    CALL(write_inside(area, lent, output, length, place));
}

/* The pairs are read into the work area and, once it is found to be a pyramid, a second time into the table. */
static uint32_t read_inside(struct reader *reader, struct area area, struct lent *lent, size_t place[2]) {
    struct state state = {.darts = area.darts};
    uint32_t number = text_kernels(reader, &state, area.history, place);
    if (number != 0) return number;
    struct reader pairs = *reader;
    number = text_pairs(reader, area.darts, area.map, place);
    if (number != 0) return number;
    if (!area_check_laid(area, &state)) return 4;
    text_pairs(&pairs, area.darts, lent->table, place);
    memcpy(lent->history, area.history, state.operations * sizeof *area.history);
    lent->state = state;
    return 0;
}

static uint32_t read(struct lent *lent, const uint8_t *bytes, size_t length, size_t place[2]) {
    struct reader reader = {bytes, length, 0, 0};
    uint32_t darts = 0, number = text_opening(&reader, &darts, place);
    place[1] = 0;
    memset(&lent->state, 0, sizeof lent->state);
    if (number == 0) number = area_fit(lent, darts);
    if (number != 0) return number;
    struct area area = area_over(lent, darts);
    number = read_inside(&reader, area, lent, place);
    area_clear(area);
    return number;
}

const struct calls plain = {start, contract, sweep, counts, undo, unfold, write, read};
