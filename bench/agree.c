/* Whether the versions agree. */
#include "agree.h"

#include <string.h>

#include "numbers.h"

static void agree_snapshots(const struct plan *plan, const struct room *one, const struct room *other, enum moment moment) {
    const struct snapshot *a = &one->moments[moment], *b = &other->moments[moment];
    const char *where = moment_names[moment];
    if (memcmp(&a->state, &b->state, sizeof a->state) != 0)
        fail(plan, "%s and %s leave different states after %s", one->name, other->name, where);
    if (!same(a->table, b->table, plan->darts))
        fail(plan, "%s and %s leave different tables after %s", one->name, other->name, where);
    if (!same(a->history, b->history, plan->darts / 2))
        fail(plan, "%s and %s leave different histories after %s", one->name, other->name, where);
}

void agree_rooms(const struct plan *plan, const struct room *one, const struct room *other) {
    for (int m = 0; m < MOMENTS; m++) agree_snapshots(plan, one, other, m);
    for (int m = CONTRACTED; m <= SWEPT; m++) {
        const struct state *state = &one->moments[m].state;
        if (!same(one->counts[m], other->counts[m], 4))
            fail(plan, "%s and %s count differently after %s", one->name, other->name, moment_names[m]);
        if (state->vertices != one->counts[m][1] || state->faces != one->counts[m][2])
            fail(plan, "%s stores other numbers than it counts after %s", one->name, moment_names[m]);
    }
    if (one->file_length != other->file_length || memcmp(one->file, other->file, one->file_length) != 0)
        fail(plan, "%s and %s write different files", one->name, other->name);
    if (!same(one->moments[UNFOLDED].table, plan->table, plan->darts)) fail(plan, "%s does not unfold to the base", one->name);
}

void agree_cgal(const struct plan *plan, const struct room *room, const uint32_t counts[2][3], uint32_t *const successors[2]) {
    for (int m = CONTRACTED; m <= SWEPT; m++) {
        const struct snapshot *kept = &room->moments[m];
        if (!same(room->counts[m], counts[m], 3)) fail(plan, "%s and CGAL count differently after %s", room->name, moment_names[m]);
        if (kept->state.vertices != counts[m][1] || kept->state.faces != counts[m][2])
            fail(plan, "%s stores other numbers than CGAL counts after %s", room->name, moment_names[m]);
        for (uint32_t i = 0; i < kept->state.operations; i++) {
            uint32_t p = kept->history[i] / 2;
            if (successors[m][p] != plan->darts || successors[m][p ^ 1] != plan->darts)
                fail(plan, "dart %u survives in CGAL after %s and not in %s", p, moment_names[m], room->name);
        }
        for (uint32_t d = 0; d < plan->darts; d++)
            if (successors[m][d] != plan->darts && successors[m][d] != kept->table[d])
                fail(plan, "%s and CGAL differ in the successor of dart %u after %s", room->name, d, moment_names[m]);
    }
}

/* The darts, the operations, the table and the history of a map that only the test of its place refuses. */
static const struct {
    uint32_t darts, operations, table[8], history[4];
} refused[] = {
    {2, 1, {0, 0}, {4}},
    {8, 4, {0, 1, 0, 1, 4, 1, 0, 6}, {11, 14, 5, 4}},
    {2, 0, {0, 2}, {0}},
    {4, 1, {0, 2, 1, 0}, {4}},
    {4, 1, {1, 1, 0, 1}, {4}},
    {2, 1, {0, 0}, {2}},
    {4, 1, {2, 3, 2, 3}, {2}},
    {4, 1, {0, 1, 2, 1}, {4}},
    {4, 1, {0, 1, 0, 2}, {4}},
    {4, 1, {2, 2, 2, 3}, {0}},
    {2, 1, {0, 1}, {1}},
    {4, 1, {2, 3, 3, 2}, {3}},
    {4, 1, {0, 1, 2, 0}, {5}},
    {4, 1, {2, 0, 2, 3}, {1}},
    {4, 1, {2, 2, 2, 3}, {1}},
    {4, 1, {2, 3, 2, 3}, {1}},
    {4, 1, {2, 3, 3, 2}, {0}},
};

/* The answer of a version to the counts of one of these maps, whose state stores these numbers. */
static uint32_t refusal(const struct calls *version, size_t i, uint32_t vertices, uint32_t faces) {
    uint32_t n = refused[i].operations, table[8], history[4], work[32] = {0}, counts[4];
    struct lent lent = {{refused[i].darts, n, n, vertices, faces, {0}}, table, history, work, 8, 4, 32};
    size_t place[2];
    for (uint32_t level = 0; level < n; level++) lent.state.ends[level] = level + 1;
    memcpy(table, refused[i].table, sizeof table);
    memcpy(history, refused[i].history, sizeof history);
    return version->counts(&lent, counts, place);
}

void agree_refusals(const struct calls *const *versions, const char *const *names, int count) {
    for (size_t i = 0; i < sizeof refused / sizeof *refused; i++)
        for (int v = 0; v < count; v++)
            for (uint32_t pair = 0, each = refused[i].darts + 1; pair < each * each; pair++) {
                uint32_t number = refusal(versions[v], i, pair / each, pair % each);
                if (number != 4) fail(NULL, "%s answers %u where test %zu alone refuses", names[v], number, i + 1);
            }
}

/* One number of the state, the table or the history becomes another, near the old one or anywhere. Of the state the first three level ends and all
 * before them, vertices and faces too. */
static void damage(struct lent *lent, uint64_t *seed) {
    uint32_t darts = lent->state.darts, *state = (uint32_t *)&lent->state;
    uint32_t *number = &state[plan_random(seed, 8)];
    uint32_t part = plan_random(seed, 9);
    if (part > 1) number = part < 6 ? &lent->table[plan_random(seed, darts)] : &lent->history[plan_random(seed, lent->state.operations)];
    *number = plan_random(seed, 2) == 0 ? *number ^ (1u << plan_random(seed, 4)) : plan_random(seed, 2 * darts + 2);
}

/* The call of this trial. A damaged file is read, any other call works on the damaged state. */
static uint32_t call(struct room *room, const struct plan *plan, uint32_t trial, size_t place[2], uint32_t counts[4]) {
    const struct calls *calls = room->calls;
    switch (trial % PHASES) {
    case START: return calls->start(&room->lent, plan->darts, place);
    case CONTRACT: return calls->contract(&room->lent, plan->kernel, plan->kernel_length, place);
    case SWEEP: return calls->sweep(&room->lent, place);
    case COUNTS: return calls->counts(&room->lent, counts, place);
    case UNDO: return calls->undo(&room->lent, place);
    case UNFOLD: return calls->unfold(&room->lent, trial / PHASES % 4, place);
    case WRITE: return calls->write(&room->lent, room->spare, room->room_for_file, place);
    default: return calls->read(&room->lent, room->file, room->file_length, place);
    }
}

/* One version's answer to one trial, and what it leaves. The same trial damages the same number in each version. */
static void try_damaged(struct room *room, const struct plan *plan, uint32_t trial, uint64_t left[3], uint32_t counts[4]) {
    uint64_t seed = trial;
    size_t place[2] = {0};
    room_restore(room, &room->moments[trial % 3 == 0 ? CONTRACTED : SWEPT], plan->darts);
    if (trial % PHASES == READ) {
        uint8_t *byte = &room->file[plan_random(&seed, (uint32_t)room->file_length)], old = *byte;
        *byte = (uint8_t)("0123456789 \n"[plan_random(&seed, 12)]);
        left[0] = call(room, plan, trial, place, counts);
        *byte = old;
    } else {
        damage(&room->lent, &seed);
        left[0] = call(room, plan, trial, place, counts);
    }
    left[1] = place[0];
    left[2] = place[1];
}

void agree_damaged(const struct plan *plan, struct room *rooms, int count) {
    for (uint32_t trial = 0; trial < 400; trial++) {
        uint64_t left[3], first[3];
        uint32_t counts[4] = {0}, first_counts[4] = {0};
        try_damaged(&rooms[0], plan, trial, first, first_counts);
        for (int i = 1; i < count; i++) {
            const struct lent *a = &rooms[0].lent, *b = &rooms[i].lent;
            try_damaged(&rooms[i], plan, trial, left, counts);
            if (left[0] != first[0] || left[1] != first[1] || left[2] != first[2])
                fail(plan, "damaged, trial %u: %s answers %u at %u and %u, %s %u at %u and %u", trial, rooms[0].name, (unsigned)first[0],
                     (unsigned)first[1], (unsigned)first[2], rooms[i].name, (unsigned)left[0], (unsigned)left[1], (unsigned)left[2]);
            if (memcmp(&a->state, &b->state, sizeof a->state) != 0 || !same(a->table, b->table, plan->darts) ||
                !same(a->history, b->history, plan->darts / 2) || !same(a->work, b->work, 4 * (size_t)plan->darts) || !same(counts, first_counts, 4))
                fail(plan, "damaged, trial %u: %s and %s leave different numbers", trial, rooms[0].name, rooms[i].name);
        }
    }
}
