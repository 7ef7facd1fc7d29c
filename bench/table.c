/* The table, and what it must show. */
#include "table.h"

#include <math.h>
#include <stdio.h>

/* A cell of the table: a number, or a dash where there is none. */
static void cell(int width, int digits, double value) {
    if (value < 0) printf(" %*s", width, "-");
    else printf(" %*.*f", width, digits, value);
}

static double over(double one, double other) {
    return one < 0 || other <= 0 ? -1 : one / other;
}

/* The exponent of D by which a version grew from the plan before; none for the smallest. */
static double growth(const struct figures *now, enum version version, enum phase phase) {
    const struct figures *below = now - 1;
    if (now->seconds[version][phase] < 0 || below->seconds[version][phase] < 0) return -1;
    return log(now->seconds[version][phase] / below->seconds[version][phase]) / log((double)now->darts / below->darts);
}

/* Whether these are the figures of the largest plan of a picture and an order. */
static bool largest(const struct figures *figures, int count, int i) {
    return i > 0 && figures[i - 1].side < figures[i].side && (i + 1 == count || figures[i + 1].side < figures[i].side);
}

static void row(const struct figures *f, enum phase phase, bool last) {
    double library = f->seconds[LIBRARY][phase];
    printf("%-11s %-9s %3u %6u %-8s", picture_names[f->picture], f->random ? "at random" : "in order", f->side, f->darts, phase_names[phase]);
    cell(9, 3, library * 1e3);
    cell(9, 3, f->seconds[PLAIN][phase] * 1e3);
    cell(6, 2, over(library, f->seconds[PLAIN][phase]));
    cell(11, 3, f->seconds[WALKING][phase] < 0 ? -1 : f->seconds[WALKING][phase] * 1e3);
    cell(7, 1, over(f->seconds[WALKING][phase], library));
    cell(9, 3, f->seconds[CGAL][phase] < 0 ? -1 : f->seconds[CGAL][phase] * 1e3);
    cell(6, 1, over(f->seconds[CGAL][phase], library));
    cell(6, 2, last ? growth(f, LIBRARY, phase) : -1);
    cell(6, 2, last ? growth(f, PLAIN, phase) : -1);
    putchar('\n');
}

void table_print(const struct figures *figures, int count) {
    printf("%-11s %-9s %3s %6s %-8s %9s %9s %6s %11s %7s %9s %6s %6s %6s\n", "plan", "order", "N", "D", "phase", "library", "(a)", "ratio", "(b)",
           "times", "(c)", "times", "growth", "of (a)");
    for (int i = 0; i < count; i++)
        for (int phase = 0; phase < PHASES; phase++) row(&figures[i], phase, largest(figures, count, i));
    puts("Milliseconds of the processor, medians. ratio: library / (a). times: (b) or (c) / library. growth: exponent of D, from the next smaller plan.");
}

/* The figure that comes nearest to a bound, or passes it farthest, and where it was seen. */
struct extreme {
    double value;
    const struct figures *at;
    enum phase phase;
};

static void meet(struct extreme *extreme, bool most, double value, const struct figures *at, enum phase phase) {
    if (value < 0 || (extreme->at != NULL && (most ? value <= extreme->value : value >= extreme->value))) return;
    *extreme = (struct extreme){value, at, phase};
}

/* A bound of 0 judges nothing. */
static void say(const char *what, const struct extreme *extreme, bool most, double bound) {
    const struct figures *at = extreme->at;
    if (at == NULL) return;
    printf("%-49s %7.2f (%s, %s, %s, N %u)", what, extreme->value, extreme->phase < PHASES ? phase_names[extreme->phase] : "all phases",
           picture_names[at->picture], at->random ? "at random" : "in order", at->side);
    if (bound > 0) printf("; %s %g: %s", most ? "at most" : "at least", bound, (most ? extreme->value <= bound : extreme->value >= bound) ? "met" : "NOT MET");
    putchar('\n');
}

static double total(const struct figures *f, enum version version) {
    double sum = 0;
    for (int p = 0; p < PHASES; p++) {
        if (f->seconds[version][p] < 0) return -1;
        sum += f->seconds[version][p];
    }
    return sum;
}

/* The largest one-code plan that (b) was run on. */
static uint32_t walked(const struct figures *figures, int count) {
    uint32_t side = 0;
    for (int i = 0; i < count; i++)
        if (figures[i].picture == ONE_CODE && figures[i].side > side && total(&figures[i], WALKING) >= 0) side = figures[i].side;
    return side;
}

void table_judge(const struct figures *figures, int count) {
    struct extreme ratio = {0}, growths[2] = {{0}}, whole = {0}, least = {0}, contract = {0}, sweeps[2] = {{0}};
    for (int i = 0; i < count; i++) {
        const struct figures *f = &figures[i];
        bool walks = f->picture == ONE_CODE && f->side == walked(figures, count);
        if (walks) meet(&whole, false, over(total(f, WALKING), total(f, LIBRARY)), f, PHASES);
        for (int p = 0; p < PHASES; p++) {
            double library = f->seconds[LIBRARY][p];
            if (walks && p != START) meet(&least, false, over(f->seconds[WALKING][p], library), f, p);
            if (!largest(figures, count, i)) continue;
            meet(&ratio, true, over(library, f->seconds[PLAIN][p]), f, p);
            meet(&growths[f->random], true, growth(f, LIBRARY, p), f, p);
            if (p == CONTRACT) meet(&contract, false, over(f->seconds[CGAL][p], library), f, p);
            if (p == SWEEP) meet(&sweeps[f->random], false, over(f->seconds[CGAL][p], library), f, p);
        }
    }
    say("largest ratio to (a)", &ratio, true, 1.5);
    say("largest growth, in order", &growths[0], true, 1.15);
    say("largest growth, at random", &growths[1], true, 1.25);
    say("(b) on one code, least times", &whole, false, 50);
    say("(b) on one code, least times of a phase but start", &least, false, 0);
    say("(c) in contract, least times", &contract, false, 4);
    say("(c) in sweep, in order, least times", &sweeps[0], false, 4);
    say("(c) in sweep, at random, least times", &sweeps[1], false, 4);
}
