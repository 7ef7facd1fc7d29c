/* Builds the brief of samples/README.md from its stitch codes, takes its areas and sweeps them, and writes the counts of each level
 * to standard output; then what a status line shows after the sweep and after its undo. A refused call is named on standard error
 * with its answer and place; the status is then 1. */
#include <stdio.h>

#include "zonemap.h"

/* A plan of 5 wales by 4 courses has 2 * (4 * 4 + 5 * 3) darts. */
enum { WALES = 5, COURSES = 4, DARTS = 2 * ((WALES - 1) * COURSES + WALES * (COURSES - 1)) };

/* Leg bands L and R, body B, waistband W. The lowest course comes first, so the brief stands on its head here. */
static const uint8_t plan[WALES * COURSES] = {
    'L', 'L', 'B', 'R', 'R',
    'L', 'B', 'B', 'B', 'R',
    'B', 'B', 'B', 'B', 'B',
    'W', 'W', 'W', 'W', 'W',
};

static uint32_t state[ZM_STATE];
static uint32_t table[DARTS];
static uint32_t history[DARTS / 2];
static uint32_t work[4 * DARTS];

/* Whether a call was refused; if so, says which, with its answer and place. */
static int refused(const char *call, uint32_t answer, size_t place)
{
    if (answer == ZM_DONE) {
        return 0;
    }
    fprintf(stderr, "%s: answer=%u place=%zu\n", call, (unsigned)answer, place);
    return 1;
}

/* Writes the counts of the present level; whether they were refused. */
static int counts_refused(void)
{
    size_t place = 0, second = 0;
    uint32_t counts[ZM_COUNTS];
    int32_t euler = 0;
    uint32_t answer = zm_counts(state, table, DARTS, history, DARTS / 2, work, 4 * DARTS, counts, &euler, &place, &second);
    if (refused("zm_counts", answer, place)) {
        return 1;
    }
    printf("level=%u darts=%u vertices=%u faces=%u euler=%d\n", (unsigned)state[ZM_LEVELS], (unsigned)counts[0], (unsigned)counts[1],
           (unsigned)counts[2], (int)euler);
    return 0;
}

/* What a status line shows, off the state alone: no call is needed. */
static void status(const char *after)
{
    printf("%s: vertices=%u faces=%u\n", after, (unsigned)state[ZM_VERTICES], (unsigned)state[ZM_FACES]);
}

int main(void)
{
    size_t place = 0, second = 0;
    uint32_t answer = zm_plan(WALES, COURSES, plan, sizeof plan, state, table, DARTS, history, DARTS / 2, work, 4 * DARTS, &place, &second);
    if (refused("zm_plan", answer, place) || counts_refused()) {
        return 1;
    }

    /* The base once more, and over it a level with one vertex for each area. */
    answer = zm_plan_areas(WALES, COURSES, plan, sizeof plan, state, table, DARTS, history, DARTS / 2, work, 4 * DARTS, &place, &second);
    if (refused("zm_plan_areas", answer, place) || counts_refused()) {
        return 1;
    }

    answer = zm_sweep(state, table, DARTS, history, DARTS / 2, work, 4 * DARTS, &place, &second);
    if (refused("zm_sweep", answer, place) || counts_refused()) {
        return 1;
    }
    status("after the sweep");

    /* A vertex too many is no pyramid, whatever is asked of it; the refusal leaves what it was given. */
    state[ZM_VERTICES]++;
    answer = zm_undo(state, table, DARTS, history, DARTS / 2, work, 4 * DARTS, &place, &second);
    printf("with a vertex too many: answer=%u vertices=%u\n", (unsigned)answer, (unsigned)state[ZM_VERTICES]);
    state[ZM_VERTICES]--;

    answer = zm_undo(state, table, DARTS, history, DARTS / 2, work, 4 * DARTS, &place, &second);
    if (refused("zm_undo", answer, place)) {
        return 1;
    }
    status("undone");
    if (fflush(stdout) != 0) {
        perror("standard output");
        return 1;
    }
    return 0;
}
