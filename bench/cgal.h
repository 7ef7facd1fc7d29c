/* (c) CGAL's combinatorial map of two dimensions, for building, contracting, sweeping and counting. */
#ifndef BENCH_CGAL_H
#define BENCH_CGAL_H

#include <stddef.h>
#include <stdint.h>

#ifdef __cplusplus
extern "C" {
#endif

struct cgal_map;

struct cgal_map *cgal_build(const uint32_t *table, uint32_t darts);
void cgal_contract(struct cgal_map *map, const uint32_t *kernel, size_t length);
void cgal_sweep(struct cgal_map *map);
void cgal_count(struct cgal_map *map, uint32_t counts[3]);

/* Each survivor's successor, and D at each gone dart. */
void cgal_successors(struct cgal_map *map, uint32_t *successors);
void cgal_free(struct cgal_map *map);

#ifdef __cplusplus
}
#endif

#endif
