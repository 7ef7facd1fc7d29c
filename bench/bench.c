/* Measures the library beside (a) plain C, (b) the walking version and (c) CGAL: first whether they agree, then the times of each phase. The calls
 * that begin from a plan have a table of their own (building.h), and so has the successor at a level (looking.h). */
#include <stdio.h>
#include <stdlib.h>
#include <string.h>

#include "agree.h"
#include "building.h"
#include "cgal.h"
#include "looking.h"
#include "numbers.h"
#include "table.h"

/* PATIENCE is how many seconds a pass of (b) may take. */
enum { ROOMS = 3, MOST_PASSES = 41, SIDES = 4, PATIENCE = 60 };

static const struct calls *const versions[ROOMS] = {&library, &plain, &walking};
static const char *const names[ROOMS] = {"the library", "(a)", "(b)"};

/* The samples of one version: the seconds of each phase, pass by pass. */
struct samples {
    int count;
    double seconds[MOST_PASSES][PHASES];
};

static void medians(const struct samples *samples, double seconds[PHASES]) {
    for (int phase = 0; phase < PHASES; phase++) {
        double all[MOST_PASSES];
        for (int i = 0; i < samples->count; i++) all[i] = samples->seconds[i][phase];
        seconds[phase] = samples->count == 0 ? -1 : median(all, samples->count);
    }
}

static double total(const double seconds[PHASES]) {
    double sum = 0;
    for (int phase = 0; phase < PHASES; phase++) sum += seconds[phase] < 0 ? 0 : seconds[phase];
    return sum;
}

static void pass(struct room *room, const struct plan *plan, struct samples *samples) {
    room_pass(room, plan, samples->seconds[samples->count++]);
}

/* A pass of CGAL: it builds where the others start, and has four of the phases. */
static void cgal_pass(const struct plan *plan, struct samples *samples, uint32_t counts[2][3], uint32_t *const successors[2]) {
    double *seconds = samples->seconds[samples->count++], at[5];
    for (int phase = 0; phase < PHASES; phase++) seconds[phase] = -1;
    at[0] = used_seconds();
    struct cgal_map *map = cgal_build(plan->table, plan->darts);
    seconds[START] = used_seconds() - at[0];
    at[1] = used_seconds();
    cgal_contract(map, plan->kernel, plan->kernel_length);
    seconds[CONTRACT] = used_seconds() - at[1];
    cgal_count(map, counts[0]);
    cgal_successors(map, successors[0]);
    at[2] = used_seconds();
    cgal_sweep(map);
    seconds[SWEEP] = used_seconds() - at[2];
    at[3] = used_seconds();
    cgal_count(map, counts[1]);
    seconds[COUNTS] = used_seconds() - at[3];
    cgal_successors(map, successors[1]);
    cgal_free(map);
}

static void measure_cgal(const struct plan *plan, const struct room *room, struct samples *samples) {
    uint32_t counts[2][3], *successors[2];
    for (int m = 0; m < 2; m++)
        if ((successors[m] = malloc(plan->darts * sizeof(uint32_t))) == NULL) abort();
    double spent = 0;
    while (samples->count < 5 || (samples->count < 15 && spent < 0.5)) {
        cgal_pass(plan, samples, counts, successors);
        agree_cgal(plan, room, counts, successors);
        spent += total(samples->seconds[samples->count - 1]);
    }
    free(successors[0]);
    free(successors[1]);
}

/* The library and (a) take turns, so that whatever else the machine does meets both. */
static void measure_in_turn(const struct plan *plan, struct room rooms[2], struct samples samples[2]) {
    double spent = 0;
    while (samples[LIBRARY].count < 11 || (samples[LIBRARY].count < MOST_PASSES && spent < 1.5)) {
        int first = samples[LIBRARY].count % 2;
        for (int turn = 0; turn < 2; turn++) {
            int v = turn == first ? LIBRARY : PLAIN;
            pass(&rooms[v], plan, &samples[v]);
            spent += total(samples[v].seconds[samples[v].count - 1]);
        }
    }
}

/* One plan: all versions once and whether they agree, then the passes that are measured. That first pass counts for (b) alone, which is measured
 * again only where it is quick, and is left out where it is expected to take too long. */
static struct figures measure(const struct plan *plan, double expected_walk) {
    static struct samples samples[VERSIONS];
    struct figures figures = {plan->picture, plan->random, plan->side, plan->darts, {{0}}};
    struct room rooms[ROOMS];
    int run = expected_walk <= PATIENCE ? ROOMS : ROOMS - 1;
    memset(samples, 0, sizeof samples);
    for (int v = 0; v < ROOMS; v++) rooms[v] = room_make(names[v], versions[v], plan->darts);
    for (int v = LIBRARY; v < run; v++) {
        pass(&rooms[v], plan, &samples[v]);
        if (v > LIBRARY) agree_rooms(plan, &rooms[LIBRARY], &rooms[v]);
    }
    measure_cgal(plan, &rooms[LIBRARY], &samples[CGAL]);
    if (plan->side <= 16) agree_damaged(plan, rooms, run);
    while (run == ROOMS && samples[WALKING].count < 5 && total(samples[WALKING].seconds[0]) < 0.1) pass(&rooms[WALKING], plan, &samples[WALKING]);
    samples[LIBRARY].count = samples[PLAIN].count = 0;
    measure_in_turn(plan, rooms, samples);
    for (int v = 0; v < VERSIONS; v++) medians(&samples[v], figures.seconds[v]);
    for (int i = 0; i < ROOMS; i++) room_free(&rooms[i]);
    return figures;
}

/* The sizes of one picture and order, smallest first. A step of (b) walks a cycle, so that it takes 16 times as long on the next size. */
static void measure_sizes(enum picture picture, bool random, int sides, struct figures *figures) {
    double walk = 0;
    for (int i = 0; i < sides; i++) {
        struct plan plan = plan_make(picture, random, 16u << i);
        figures[i] = measure(&plan, walk);
        walk = figures[i].seconds[WALKING][START] < 0 ? PATIENCE + 1.0 : 16 * total(figures[i].seconds[WALKING]);
        fprintf(stderr, "bench: %s, %s, %u cells square: all agree\n", picture_names[picture], random ? "at random" : "in order", plan.side);
        plan_free(&plan);
    }
}

/* usage: bench COUNT, how many of the sizes 16, 32, 64 and 128 are measured. */
int main(int words, char **word) {
    static struct figures figures[PICTURES * 2 * SIDES];
    static struct built built[ALL_PICTURES * SIDES];
    static struct looked looked[PICTURES * 2 * SIDES * LOOKED_LEVELS];
    int sides = words == 2 ? atoi(word[1]) : 0, count = 0;
    if (sides < 2 || sides > SIDES) {
        fputs("usage: bench COUNT, from 2 to 4 of the sizes 16, 32, 64, 128\n", stderr);
        return 2;
    }
    agree_refusals(versions, names, ROOMS);
    building_agree();
    looking_agree();
    for (int picture = 0; picture < ALL_PICTURES; picture++) building_measure(picture, sides, &built[picture * sides]);
    for (int picture = 0; picture < PICTURES; picture++)
        for (int random = 0; random < 2; random++, count += sides) {
            looking_measure(picture, random != 0, sides, &looked[count * LOOKED_LEVELS]);
            measure_sizes(picture, random != 0, sides, &figures[count]);
        }
    puts("All agree: the library, (a) and (b) on states, tables, histories, counts, files and refusals, CGAL on darts, vertices, faces and successors;");
    puts("the library and (a) on what is built from a plan, which is the plan's table, and with areas what start and contract leave; and on the successor");
    puts("at a level, which is the one that unfolding gives.");
    table_print(figures, count);
    building_print(built, sides);
    looking_print(looked, count * LOOKED_LEVELS);
    if (sides == SIDES) {
        table_judge(figures, count);
        building_judge(built, sides);
        looking_judge(looked, count * LOOKED_LEVELS);
    } else {
        puts("What the tables must show is judged at 128 cells square.");
    }
    return 0;
}
