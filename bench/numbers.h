/* Numbers in a row: compared, filled, and the one in the middle. */
#ifndef BENCH_NUMBERS_H
#define BENCH_NUMBERS_H

#include <stdbool.h>
#include <stddef.h>
#include <stdint.h>
#include <stdlib.h>
#include <string.h>

static inline bool same(const uint32_t *one, const uint32_t *other, size_t count) {
    return memcmp(one, other, count * sizeof *one) == 0;
}

/* Other numbers, by which it can be seen which ones a call writes. */
static inline void fill(uint32_t *numbers, size_t count) {
    for (size_t i = 0; i < count; i++) numbers[i] = (uint32_t)i + 7;
}

static inline int compare_seconds(const void *one, const void *other) {
    double a = *(const double *)one, b = *(const double *)other;
    return (a > b) - (a < b);
}

/* The median of some times, of one at least. They are sorted. */
static inline double median(double *seconds, int count) {
    qsort(seconds, (size_t)count, sizeof *seconds, compare_seconds);
    return seconds[count / 2];
}

#endif
