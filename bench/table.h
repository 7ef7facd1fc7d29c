/* The figures of one plan, and the table of all. */
#ifndef BENCH_TABLE_H
#define BENCH_TABLE_H

#include "pass.h"

enum version { LIBRARY, PLAIN, WALKING, CGAL, VERSIONS };

/* The median seconds of each phase, below zero where a version was not run or has no such phase. */
struct figures {
    enum picture picture;
    bool random;
    uint32_t side, darts;
    double seconds[VERSIONS][PHASES];
};

/* One row for each plan and phase. A plan's figures follow those of the next smaller one of its picture and order. */
void table_print(const struct figures *figures, int count);

/* What the figures must show, and whether they do. */
void table_judge(const struct figures *figures, int count);

#endif
