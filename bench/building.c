/* The calls that begin from a plan, measured. */
#include "building.h"

#include <stdio.h>
#include <stdlib.h>
#include <string.h>

#include "numbers.h"
#include "pass.h"

/* SMALL bounds the plans of every shape, and SMALL_DARTS their darts. ENOUGH is how many darts a sample goes through, so that a small plan is built
 * many times in one. */
enum { VERSIONS = 2, SMALL = 6, SMALL_DARTS = 4 * SMALL * (SMALL - 1), ENOUGH = 65024, LEAST_SAMPLES = 11, MOST_SAMPLES = 41 };

static const struct calls *const calls[VERSIONS] = {&library, &plain};
static plan_call *const *const builds[VERSIONS] = {library_builds, plain_builds};
static const char *const version_names[VERSIONS] = {"the library", "(a)"};
static const char *const building_names[BUILDINGS] = {"plan", "areas"};

/* What is lent to a call, and how many numbers of each slice there are behind it. */
struct site {
    struct room rooms[VERSIONS];
    size_t table, history, work;
};

static struct site site_make(uint32_t darts) {
    struct site site = {.table = darts, .history = darts / 2, .work = 4 * (size_t)darts};
    for (int v = 0; v < VERSIONS; v++) site.rooms[v] = room_make(version_names[v], calls[v], darts);
    return site;
}

static void site_free(struct site *site) {
    for (int v = 0; v < VERSIONS; v++) room_free(&site->rooms[v]);
}

/* A call of each version on slices full of other numbers: answer, places, state and every number are the same. The answer's number. */
static uint32_t agree_call(struct site *site, enum building building, uint32_t wales, uint32_t courses, const uint8_t *codes, size_t length) {
    uint32_t number[VERSIONS];
    size_t place[VERSIONS][2];
    for (int v = 0; v < VERSIONS; v++) {
        struct lent *lent = &site->rooms[v].lent;
        memset(&lent->state, 7, sizeof lent->state);
        fill(lent->table, site->table);
        fill(lent->history, site->history);
        fill(lent->work, site->work);
        number[v] = builds[v][building](lent, wales, courses, codes, length, place[v]);
    }
    const struct lent *a = &site->rooms[0].lent, *b = &site->rooms[1].lent;
    if (number[0] != number[1] || memcmp(place[0], place[1], sizeof place[0]) != 0)
        fail(NULL, "%s of %u by %u: the library answers %u at %zu and %zu, (a) %u at %zu and %zu", building_names[building], wales, courses, number[0],
             place[0][0], place[0][1], number[1], place[1][0], place[1][1]);
    if (memcmp(&a->state, &b->state, sizeof a->state) != 0 || !same(a->table, b->table, site->table) || !same(a->history, b->history, site->history) ||
        !same(a->work, b->work, site->work))
        fail(NULL, "%s of %u by %u: the library and (a) leave different numbers", building_names[building], wales, courses);
    return number[0];
}

/* How many numbers a trial lends: of the plan's own lengths one is one less, or none is, or all are more. */
static size_t lend(struct site *site, uint32_t wales, uint32_t courses, int trial) {
    size_t cells = wales * courses, darts = cells < 2 ? 0 : 2 * (size_t)((wales - 1) * courses + wales * (courses - 1));
    for (int v = 0; v < VERSIONS; v++) {
        struct lent *lent = &site->rooms[v].lent;
        lent->table_length = trial == 5 ? site->table : darts - (trial == 1 && darts > 0);
        lent->history_length = trial == 5 ? site->history : darts / 2 - (trial == 2 && darts > 0);
        lent->work_length = trial == 5 ? site->work : 4 * darts - (trial == 3 && darts > 0);
    }
    return cells - (trial == 4 && cells > 0);
}

void building_agree(void) {
    struct site site = site_make(SMALL_DARTS);
    uint8_t codes[SMALL * SMALL];
    uint64_t seed = 0;
    for (uint32_t wales = 0; wales <= SMALL; wales++)
        for (uint32_t courses = 0; courses <= SMALL; courses++)
            for (int trial = 0; trial < 24; trial++) {
                for (int c = 0; c < SMALL * SMALL; c++) codes[c] = (uint8_t)plan_random(&seed, 1 + (uint32_t)trial / 6);
                size_t length = lend(&site, wales, courses, trial % 6);
                for (int b = 0; b < BUILDINGS; b++) agree_call(&site, b, wales, courses, codes, length);
            }
    for (int b = 0; b < BUILDINGS; b++) {
        agree_call(&site, b, 129, 1, codes, sizeof codes);
        agree_call(&site, b, 1, 129, codes, sizeof codes);
        agree_call(&site, b, 65536, 65537, codes, sizeof codes);
    }
    site_free(&site);
}

/* The base is the plan's table, and the areas are what start and the contraction of equal codes leave. */
static void agree_plan(const struct plan *plan, const uint8_t *codes, struct site *site) {
    uint32_t side = plan->side;
    struct room after = room_make("the library", &library, plan->darts);
    struct lent *lent = &after.lent;
    const struct lent *built = &site->rooms[0].lent;
    size_t place[2];
    if (agree_call(site, BASE, side, side, codes, (size_t)side * side) != 0 || !same(built->table, plan->table, plan->darts))
        fail(plan, "the base differs from the plan's table");
    memcpy(lent->table, plan->table, plan->darts * sizeof *lent->table);
    fill(lent->history, site->history);
    if (library.start(lent, plan->darts, place) != 0 || library.contract(lent, plan->kernel, plan->kernel_length, place) != 0)
        fail(plan, "start or contract is refused");
    if (agree_call(site, AREAS, side, side, codes, (size_t)side * side) != 0 || memcmp(&built->state, &lent->state, sizeof lent->state) != 0 ||
        !same(built->table, lent->table, site->table) || !same(built->history, lent->history, site->history))
        fail(plan, "the areas differ from what start and contract leave");
    room_free(&after);
}

/* The seconds of one call, over as many as go through enough darts. */
static double sample(struct room *room, plan_call *call, const struct plan *plan, const uint8_t *codes) {
    uint32_t side = plan->side, times = ENOUGH / plan->darts, number = 0;
    size_t place[2];
    double from = used_seconds();
    for (uint32_t i = 0; i < times; i++) number |= call(&room->lent, side, side, codes, (size_t)side * side, place);
    double seconds = used_seconds() - from;
    if (number != 0) fail(plan, "%s refuses a plan", room->name);
    return seconds / times;
}

/* The library and (a) take turns, so that whatever else the machine does meets both. */
static void measure_call(const struct plan *plan, const uint8_t *codes, struct site *site, enum building building, struct built *built) {
    double all[VERSIONS][MOST_SAMPLES], spent = 0;
    int count = 0;
    for (; count < LEAST_SAMPLES || (count < MOST_SAMPLES && spent < 0.5); count++)
        for (int turn = 0; turn < VERSIONS; turn++) {
            int v = (count + turn) % VERSIONS;
            all[v][count] = sample(&site->rooms[v], builds[v][building], plan, codes);
            spent += all[v][count] * (ENOUGH / plan->darts);
        }
    for (int v = 0; v < VERSIONS; v++) built->seconds[v][building] = median(all[v], count);
}

void building_measure(enum picture picture, int sides, struct built *built) {
    for (int i = 0; i < sides; i++) {
        struct plan plan = plan_make(picture, false, 16u << i);
        struct site site = site_make(plan.darts);
        uint8_t *codes = malloc((size_t)plan.side * plan.side);
        if (codes == NULL) abort();
        plan_codes(picture, plan.side, codes);
        agree_plan(&plan, codes, &site);
        built[i] = (struct built){picture, plan.side, plan.darts, {{0}}};
        for (int b = 0; b < BUILDINGS; b++) measure_call(&plan, codes, &site, b, &built[i]);
        free(codes);
        site_free(&site);
        plan_free(&plan);
    }
}

static double per_dart(const struct built *b, int version, int building) {
    return b->seconds[version][building] * 1e9 / b->darts;
}

static double ratio(const struct built *b, int building) {
    return b->seconds[0][building] / b->seconds[1][building];
}

void building_print(const struct built *built, int sides) {
    printf("%-11s %3s %6s %-5s %9s %9s %6s %9s %7s\n", "plan", "N", "D", "call", "library", "(a)", "ratio", "ns a dart", "of (a)");
    for (const struct built *b = built; b < built + ALL_PICTURES * sides; b++)
        for (int call = 0; call < BUILDINGS; call++)
            printf("%-11s %3u %6u %-5s %9.4f %9.4f %6.2f %9.2f %7.2f\n", picture_names[b->picture], b->side, b->darts, building_names[call],
                   b->seconds[0][call] * 1e3, b->seconds[1][call] * 1e3, ratio(b, call), per_dart(b, 0, call), per_dart(b, 1, call));
    puts("Milliseconds of the processor, medians. ratio: library / (a). ns a dart: nanoseconds over D, of the library and of (a).");
}

/* By how much the time a dart grows: the most that a size takes of it, against the least that a smaller one takes. */
static double growth(const struct built *sizes, int sides, int version, int building) {
    double least = per_dart(sizes, version, building), most = 0;
    for (int i = 1; i < sides; i++) {
        double time = per_dart(&sizes[i], version, building);
        if (time / least > most) most = time / least;
        if (time < least) least = time;
    }
    return most;
}

static void say(const char *what, double value, const struct built *at, int building, double bound) {
    printf("%-49s %7.2f (%s, %s)", what, value, building_names[building], picture_names[at->picture]);
    if (bound > 0) printf("; at most %g: %s", bound, value <= bound ? "met" : "NOT MET");
    putchar('\n');
}

void building_judge(const struct built *built, int sides) {
    for (int call = 0; call < BUILDINGS; call++) {
        const struct built *slowest = built, *growing = built;
        for (int picture = 1; picture < ALL_PICTURES; picture++) {
            const struct built *sizes = &built[picture * sides];
            if (ratio(&sizes[sides - 1], call) > ratio(&slowest[sides - 1], call)) slowest = sizes;
            if (growth(sizes, sides, 0, call) > growth(growing, sides, 0, call)) growing = sizes;
        }
        say("from a plan, largest ratio to (a)", ratio(&slowest[sides - 1], call), slowest, call, 1.25);
        say("from a plan, largest growth of the time a dart", growth(growing, sides, 0, call), growing, call, 1.1);
        say("the same of (a)", growth(growing, sides, 1, call), growing, call, 0);
    }
}
