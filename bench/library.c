/* The library through its C interface. Only this file knows include/zonemap.h. */
#include "calls.h"
#include "zonemap.h"

/* A state's 69 numbers, and the three lent slices with their lengths. */
#define STATE(lent) ((uint32_t *)&(lent)->state)
#define SLICES(lent) \
    (lent)->table, (lent)->table_length, (lent)->history, (lent)->history_length, (lent)->work, (lent)->work_length

static uint32_t start(struct lent *lent, uint32_t darts, size_t place[2]) {
    return zm_start(darts, STATE(lent), SLICES(lent), &place[0], &place[1]);
}

static uint32_t contract(struct lent *lent, const uint32_t *kernel, size_t length, size_t place[2]) {
    return zm_contract(STATE(lent), kernel, length, SLICES(lent), &place[0], &place[1]);
}

static uint32_t sweep(struct lent *lent, size_t place[2]) {
    return zm_sweep(STATE(lent), SLICES(lent), &place[0], &place[1]);
}

static uint32_t counts(struct lent *lent, uint32_t counts[4], size_t place[2]) {
    return zm_counts(STATE(lent), SLICES(lent), counts, (int32_t *)&counts[3], &place[0], &place[1]);
}

static uint32_t undo(struct lent *lent, size_t place[2]) {
    return zm_undo(STATE(lent), SLICES(lent), &place[0], &place[1]);
}

static uint32_t unfold(struct lent *lent, uint32_t level, size_t place[2]) {
    return zm_unfold(STATE(lent), level, SLICES(lent), &place[0], &place[1]);
}

static uint32_t write(struct lent *lent, uint8_t *output, size_t length, size_t place[2]) {
    return zm_write(STATE(lent), SLICES(lent), output, length, &place[0], &place[1]);
}

static uint32_t read(struct lent *lent, const uint8_t *bytes, size_t length, size_t place[2]) {
    return zm_read(bytes, length, STATE(lent), SLICES(lent), &place[0], &place[1]);
}

const struct calls library = {start, contract, sweep, counts, undo, unfold, write, read};

static uint32_t base(struct lent *lent, uint32_t wales, uint32_t courses, const uint8_t *codes, size_t length, size_t place[2]) {
    return zm_plan(wales, courses, codes, length, STATE(lent), SLICES(lent), &place[0], &place[1]);
}

static uint32_t areas(struct lent *lent, uint32_t wales, uint32_t courses, const uint8_t *codes, size_t length, size_t place[2]) {
    return zm_plan_areas(wales, courses, codes, length, STATE(lent), SLICES(lent), &place[0], &place[1]);
}

plan_call *const library_builds[BUILDINGS] = {base, areas};

uint32_t library_successor(const struct lookup *l, struct found *found, size_t place[2]) {
    return zm_successor(l->darts, l->level, l->dart, l->table, l->table_length, l->ends, l->ends_length, l->work, l->work_length, &found->dart,
                        &found->passed, &place[0], &place[1]);
}
