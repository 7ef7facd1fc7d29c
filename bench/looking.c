/* The successor at a level, measured on pyramids of several levels. */
#include "looking.h"

#include <stdio.h>

#include "numbers.h"
#include "pass.h"

/* A kernel is taken in PARTS, with a sweep after each. LOOKUPS darts are asked for in a sample, and TRIALS are made with a number damaged. */
enum { VERSIONS = 2, PARTS = 4, LOOKUPS = 8, TRIALS = 400, LEAST_SAMPLES = 11, MOST_SAMPLES = 41, ANSWERS = 16 };

static lookup_call *const calls[VERSIONS] = {library_successor, plain_successor};

/* Which answers were given while it was checked whether both agree. */
static bool given[ANSWERS];

/* What is lent to each version: a table, ends and a work area of its own, with one number more than is needed. */
struct site {
    struct lookup lookups[VERSIONS];
};

static uint32_t *numbers(size_t count) {
    uint32_t *all = calloc(count, sizeof *all);
    if (all == NULL) abort();
    return all;
}

static struct site site_make(uint32_t darts) {
    struct site site;
    size_t half = darts / 2, all = darts;
    for (int v = 0; v < VERSIONS; v++)
        site.lookups[v] = (struct lookup){darts, 0, 0, numbers(all + 1), numbers(half + 1), numbers(4 * all + 1), all + 1, half + 1, 4 * all + 1};
    return site;
}

static void site_free(struct site *site) {
    for (int v = 0; v < VERSIONS; v++) {
        free(site->lookups[v].table);
        free(site->lookups[v].ends);
        free(site->lookups[v].work);
    }
}

/* Table and ends of so many darts become these, for both. */
static void lay(struct site *site, const uint32_t *table, const uint32_t *ends, uint32_t darts) {
    for (int v = 0; v < VERSIONS; v++) {
        memcpy(site->lookups[v].table, table, darts * sizeof *table);
        memcpy(site->lookups[v].ends, ends, darts / 2 * sizeof *ends);
    }
}

/* One lookup of each version: answer, places, dart and count, and every number of what is lent are the same; where it is refused, dart and count
 * are 0. The answer's number. */
static uint32_t agree_call(const struct plan *plan, struct site *site, uint32_t level, uint32_t dart, struct found *found) {
    struct lookup *a = &site->lookups[0], *b = &site->lookups[1];
    struct found all[VERSIONS];
    uint32_t number[VERSIONS];
    size_t place[VERSIONS][2];
    for (int v = 0; v < VERSIONS; v++) {
        struct lookup *lookup = &site->lookups[v];
        lookup->level = level;
        lookup->dart = dart;
        all[v] = (struct found){7, 7};
        fill(lookup->work, lookup->work_length);
        number[v] = calls[v](lookup, &all[v], place[v]);
    }
    if (number[0] != number[1] || memcmp(place[0], place[1], sizeof place[0]) != 0 || memcmp(&all[0], &all[1], sizeof all[0]) != 0)
        fail(plan, "dart %u at level %u: the library answers %u at %zu and %zu with %u and %u, (a) %u at %zu and %zu with %u and %u", dart, level,
             number[0], place[0][0], place[0][1], all[0].dart, all[0].passed, number[1], place[1][0], place[1][1], all[1].dart, all[1].passed);
    if (!same(a->table, b->table, a->table_length) || !same(a->ends, b->ends, a->ends_length) || !same(a->work, b->work, a->work_length))
        fail(plan, "dart %u at level %u: the library and (a) leave different numbers", dart, level);
    if (number[0] >= ANSWERS || (number[0] != 0 && (all[0].dart != 0 || all[0].passed != 0)))
        fail(plan, "dart %u at level %u: answer %u with %u and %u", dart, level, number[0], all[0].dart, all[0].passed);
    given[number[0]] = true;
    if (found != NULL) *found = all[0];
    return number[0];
}

/* Every table of four darts with entries up to 4, every two ends up to 5, levels up to 3 and darts up to 4. */
static void agree_four_darts(void) {
    struct site site = site_make(4);
    for (uint32_t t = 0; t < 5 * 5 * 5 * 5; t++)
        for (uint32_t e = 0; e < 6 * 6; e++) {
            const uint32_t table[] = {t % 5, t / 5 % 5, t / 25 % 5, t / 125}, ends[] = {e % 6, e / 6};
            lay(&site, table, ends, 4);
            for (uint32_t level = 0; level < 4; level++)
                for (uint32_t dart = 0; dart < 5; dart++) agree_call(NULL, &site, level, dart, NULL);
        }
    site_free(&site);
}

/* One call on map T with K12's ends that must give this answer, and this dart and count. */
static void expect(struct site *site, uint32_t level, uint32_t dart, uint32_t number, uint32_t follows, uint32_t passed) {
    struct found found;
    if (agree_call(NULL, site, level, dart, &found) != number || found.dart != follows || found.passed != passed)
        fail(NULL, "K12, dart %u at level %u: dart %u with %u passed", dart, level, found.dart, found.passed);
}

/* K12: its dart 6 at each level, each refusal but 4, and slices of just the numbers needed or one less. */
static void agree_k12(void) {
    static const uint32_t table[] = {5, 2, 1, 4, 6, 0, 3, 7}, ends[] = {3, 3, 4, 0}, no_counts[] = {0, 7, 65538, UINT32_MAX};
    struct site site = site_make(8);
    lay(&site, table, ends, 8);
    expect(&site, 0, 6, 0, 3, 0);
    expect(&site, 1, 6, 0, 5, 2);
    expect(&site, 2, 6, 0, 6, 6);
    expect(&site, 2, 4, 8, 0, 0);
    expect(&site, 2, 8, 7, 0, 0);
    expect(&site, 2, UINT32_MAX, 7, 0, 0);
    expect(&site, 3, 8, 12, 0, 0);
    expect(&site, UINT32_MAX, 6, 12, 0, 0);
    for (int shorter = 0; shorter < 4; shorter++) {
        for (int v = 0; v < VERSIONS; v++) {
            site.lookups[v].table_length = 8 - (shorter == 1);
            site.lookups[v].ends_length = 4 - (shorter == 2);
            site.lookups[v].work_length = 32 - (shorter == 3);
        }
        expect(&site, 2, 6, shorter == 0 ? 0 : 2, shorter == 0 ? 6 : 0, shorter == 0 ? 6 : 0);
    }
    for (int i = 0; i < 4; i++) {
        for (int v = 0; v < VERSIONS; v++) site.lookups[v].darts = no_counts[i];
        expect(&site, 3, 8, 1, 0, 0);
    }
    site_free(&site);
}

void looking_agree(void) {
    static const int all[] = {0, 1, 2, 4, 7, 8, 12};
    agree_four_darts();
    agree_k12();
    for (size_t i = 0; i < sizeof all / sizeof *all; i++)
        if (!given[all[i]]) fail(NULL, "no lookup was answered %d", all[i]);
}

/* A pyramid over a plan, where each of its edges ends, and the room in which it was built, which unfolds it. */
struct pyramid {
    struct plan plan;
    struct room room;
    struct snapshot top;
    uint32_t *ends;
};

/* A call that adds a level; no where it answers 5. */
static bool level_more(const struct plan *plan, uint32_t number) {
    if (number != 0 && number != 5) fail(plan, "the library answers %u where it builds a pyramid to look up in", number);
    return number == 0;
}

/* The kernel in parts, each with a sweep after it where there is something to sweep. */
static void build(const struct plan *plan, struct lent *lent) {
    size_t place[2], from = 0;
    memcpy(lent->table, plan->table, plan->darts * sizeof *plan->table);
    level_more(plan, library.start(lent, plan->darts, place));
    for (size_t part = 1; part <= PARTS; part++) {
        size_t to = plan->kernel_length * part / PARTS;
        level_more(plan, library.contract(lent, plan->kernel + from, to - from, place));
        level_more(plan, library.sweep(lent, place));
        from = to;
    }
}

static struct pyramid pyramid_make(enum picture picture, bool random, uint32_t side) {
    struct pyramid pyramid = {.plan = plan_make(picture, random, side)};
    uint32_t darts = pyramid.plan.darts;
    pyramid.room = room_make("the library", &library, darts);
    struct lent *lent = &pyramid.room.lent;
    build(&pyramid.plan, lent);
    pyramid.top = (struct snapshot){lent->state, numbers(darts), numbers(darts / 2)};
    memcpy(pyramid.top.table, lent->table, darts * sizeof *lent->table);
    memcpy(pyramid.top.history, lent->history, darts / 2 * sizeof *lent->history);
    pyramid.ends = numbers(darts / 2);
    for (uint32_t i = 0, level = 1; i < lent->state.operations; i++) {
        if (i == lent->state.ends[level - 1]) level++;
        pyramid.ends[lent->history[i] / 4] = 2 * level + lent->history[i] % 2;
    }
    return pyramid;
}

static void pyramid_free(struct pyramid *pyramid) {
    free(pyramid->top.table);
    free(pyramid->top.history);
    free(pyramid->ends);
    room_free(&pyramid->room);
    plan_free(&pyramid->plan);
}

/* The library's call that unfolds a copy of the pyramid to a level, and its seconds. */
static double unfold(struct pyramid *pyramid, uint32_t level) {
    struct room *room = &pyramid->room;
    size_t place[2];
    room_restore(room, &pyramid->top, pyramid->plan.darts);
    double from = used_seconds();
    uint32_t number = library.unfold(&room->lent, level, place);
    double seconds = used_seconds() - from;
    if (number != 0) fail(&pyramid->plan, "unfold to level %u answers %u", level, number);
    return seconds;
}

static bool gone_by(const struct pyramid *pyramid, uint32_t level, uint32_t dart) {
    uint32_t end = pyramid->ends[dart / 2] / 2;
    return end > 0 && end <= level;
}

/* How many gone darts document 003's walk passes from a dart that is not gone. */
static uint32_t walked(const struct pyramid *pyramid, uint32_t level, uint32_t dart) {
    const uint32_t *table = pyramid->plan.table;
    uint32_t count = 0;
    for (dart = table[dart]; gone_by(pyramid, level, dart); count++) dart = table[pyramid->ends[dart / 2] % 2 == 0 ? dart : dart ^ 1];
    return count;
}

/* A dart at the level to which the pyramid is unfolded: refused if it is gone, else followed by the dart that unfolding gives, with the walk's own
 * count, which is at most twice the operations. */
static void agree_unfolded(const struct pyramid *pyramid, struct site *site, uint32_t level, uint32_t dart) {
    const struct lent *unfolded = &pyramid->room.lent;
    struct found found;
    bool gone = gone_by(pyramid, level, dart);
    uint32_t number = agree_call(&pyramid->plan, site, level, dart, &found);
    if (number != (gone ? 8 : 0)) fail(&pyramid->plan, "dart %u at level %u: answer %u", dart, level, number);
    if (gone) return;
    if (found.dart != unfolded->table[dart])
        fail(&pyramid->plan, "dart %u at level %u: the lookup gives %u, unfolding %u", dart, level, found.dart, unfolded->table[dart]);
    if (found.passed != walked(pyramid, level, dart) || found.passed > 2 * unfolded->state.operations)
        fail(&pyramid->plan, "dart %u at level %u: %u passed after %u operations", dart, level, found.passed, unfolded->state.operations);
}

static void agree_everywhere(struct pyramid *pyramid, struct site *site) {
    for (uint32_t level = 0; level <= pyramid->top.state.levels; level++) {
        unfold(pyramid, level);
        for (uint32_t dart = 0; dart < pyramid->plan.darts; dart++) agree_unfolded(pyramid, site, level, dart);
    }
}

/* An entry becomes another, or two exchange their places, or an end becomes another, of these levels or of any. */
static void damage(uint32_t *table, uint32_t *ends, uint32_t darts, uint32_t top, uint64_t *seed) {
    uint32_t x = plan_random(seed, darts), y = plan_random(seed, darts), old = table[x];
    switch (plan_random(seed, 4)) {
    case 0: table[x] = plan_random(seed, darts + 2); break;
    case 1: table[x] = table[y], table[y] = old; break;
    case 2: ends[x / 2] = plan_random(seed, 2 * top + 4); break;
    default: ends[x / 2] = plan_random(seed, 2 * MOST_LEVELS + 4);
    }
}

static void agree_damaged(const struct pyramid *pyramid, struct site *site) {
    uint32_t darts = pyramid->plan.darts, top = pyramid->top.state.levels;
    for (uint64_t trial = 0; trial < TRIALS; trial++) {
        uint64_t seed = 0;
        for (int v = 0; v < VERSIONS; v++) {
            memcpy(site->lookups[v].table, pyramid->plan.table, darts * sizeof(uint32_t));
            memcpy(site->lookups[v].ends, pyramid->ends, darts / 2 * sizeof(uint32_t));
            seed = trial;
            damage(site->lookups[v].table, site->lookups[v].ends, darts, top, &seed);
        }
        agree_call(&pyramid->plan, site, plan_random(&seed, top + 2), plan_random(&seed, darts + darts / 8), NULL);
    }
    lay(site, pyramid->plan.table, pyramid->ends, darts);
}

/* The dart at the level with the longest walk. */
static uint32_t farthest(const struct pyramid *pyramid, uint32_t level) {
    uint32_t most = 0, far = pyramid->plan.darts;
    for (uint32_t dart = 0; dart < pyramid->plan.darts; dart++) {
        if (gone_by(pyramid, level, dart)) continue;
        uint32_t count = walked(pyramid, level, dart);
        if (far < pyramid->plan.darts && count <= most) continue;
        most = count;
        far = dart;
    }
    return far;
}

/* Darts that are not gone by the level: every second one at random, the others the one with the longest walk. All agree there. The mean of what
 * is passed from them. */
static uint32_t choose(struct pyramid *pyramid, struct site *site, uint32_t level, uint32_t darts[LOOKUPS]) {
    uint64_t seed = level, passed = 0;
    uint32_t far = farthest(pyramid, level);
    unfold(pyramid, level);
    for (int i = 0; i < LOOKUPS; i++) {
        do darts[i] = i % 2 == 0 ? plan_random(&seed, pyramid->plan.darts) : far;
        while (gone_by(pyramid, level, darts[i]));
        agree_unfolded(pyramid, site, level, darts[i]);
        passed += walked(pyramid, level, darts[i]);
    }
    return (uint32_t)(passed / LOOKUPS);
}

/* The seconds of one call, over as many as there are darts. */
static double sample(struct pyramid *pyramid, struct site *site, enum way way, uint32_t level, const uint32_t darts[LOOKUPS]) {
    double seconds = 0;
    uint32_t number = 0;
    size_t place[2];
    struct found found;
    if (way == BY_UNFOLDING) {
        for (int i = 0; i < LOOKUPS; i++) seconds += unfold(pyramid, level);
        return seconds / LOOKUPS;
    }
    struct lookup lookup = site->lookups[way];
    lookup.level = level;
    double from = used_seconds();
    for (int i = 0; i < LOOKUPS; i++) {
        lookup.dart = darts[i];
        number |= calls[way](&lookup, &found, place);
    }
    seconds = used_seconds() - from;
    if (number != 0) fail(&pyramid->plan, "a lookup at level %u is refused", level);
    return seconds / LOOKUPS;
}

/* One level: the three ways take turns, so that whatever else the machine does meets all. */
static struct looked measure_level(struct pyramid *pyramid, struct site *site, uint32_t level) {
    const struct plan *plan = &pyramid->plan;
    uint32_t darts[LOOKUPS], passed = choose(pyramid, site, level, darts);
    struct looked looked = {plan->picture, plan->random, plan->side, plan->darts, level, pyramid->top.state.levels, passed, {0}};
    double all[WAYS][MOST_SAMPLES], spent = 0;
    int count = 0;
    for (; count < LEAST_SAMPLES || (count < MOST_SAMPLES && spent < 0.5); count++)
        for (int turn = 0; turn < WAYS; turn++) {
            int way = (count + turn) % WAYS;
            all[way][count] = sample(pyramid, site, way, level, darts);
            spent += all[way][count] * LOOKUPS;
        }
    for (int way = 0; way < WAYS; way++) looked.seconds[way] = median(all[way], count);
    return looked;
}

void looking_measure(enum picture picture, bool random, int sides, struct looked *looked) {
    for (int i = 0; i < sides; i++) {
        struct pyramid pyramid = pyramid_make(picture, random, 16u << i);
        struct site site = site_make(pyramid.plan.darts);
        uint32_t top = pyramid.top.state.levels;
        lay(&site, pyramid.plan.table, pyramid.ends, pyramid.plan.darts);
        if (pyramid.plan.side <= 16) {
            agree_everywhere(&pyramid, &site);
            agree_damaged(&pyramid, &site);
        }
        for (uint32_t n = 0; n < LOOKED_LEVELS; n++) *looked++ = measure_level(&pyramid, &site, top * n / (LOOKED_LEVELS - 1));
        site_free(&site);
        pyramid_free(&pyramid);
    }
}

static double ratio(const struct looked *l) {
    return l->seconds[BY_LIBRARY] / l->seconds[BY_PLAIN];
}

static double times(const struct looked *l) {
    return l->seconds[BY_UNFOLDING] / l->seconds[BY_LIBRARY];
}

static double per_dart(const struct looked *l) {
    return l->seconds[BY_LIBRARY] * 1e9 / l->darts;
}

void looking_print(const struct looked *looked, int count) {
    printf("%-11s %-9s %3s %6s %5s %3s %6s %9s %9s %6s %9s %6s %9s\n", "pyramid", "order", "N", "D", "level", "top", "passed", "library", "(a)",
           "ratio", "unfold", "times", "ns a dart");
    for (const struct looked *l = looked; l < looked + count; l++)
        printf("%-11s %-9s %3u %6u %5u %3u %6u %9.4f %9.4f %6.2f %9.4f %6.2f %9.2f\n", picture_names[l->picture], l->random ? "at random" : "in order",
               l->side, l->darts, l->level, l->top, l->passed, l->seconds[BY_LIBRARY] * 1e3, l->seconds[BY_PLAIN] * 1e3, ratio(l),
               l->seconds[BY_UNFOLDING] * 1e3, times(l), per_dart(l));
    puts("Milliseconds of the processor, medians, of one successor at a level. ratio: library / (a). unfold: the library's, to the same level; times: unfold / library.");
    puts("passed: gone darts on the way, mean. ns a dart: nanoseconds of the library over D.");
}

static void say(const char *what, double value, const struct looked *at, double bound) {
    printf("%-49s %7.2f (level %u, %s, %s, N %u)", what, value, at->level, picture_names[at->picture], at->random ? "at random" : "in order", at->side);
    if (bound > 0) printf("; at most %g: %s", bound, value <= bound ? "met" : "NOT MET");
    putchar('\n');
}

void looking_judge(const struct looked *looked, int count) {
    const struct looked *last = &looked[count - 1], *slowest = last, *least = last;
    for (const struct looked *l = looked; l < last; l++) {
        if (l->side < last->side) continue;
        if (ratio(l) > ratio(slowest)) slowest = l;
        if (times(l) < times(least)) least = l;
    }
    say("successor at a level, largest ratio to (a)", ratio(slowest), slowest, 1.25);
    say("unfold to that level, least times", times(least), least, 0);
}
