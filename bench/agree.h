/* Whether the versions agree, which is checked before anything is told of their times. A disagreement ends the program. */
#ifndef BENCH_AGREE_H
#define BENCH_AGREE_H

#include "pass.h"

/* After a pass of each: states, tables, histories, counts and files are the same. */
void agree_rooms(const struct plan *plan, const struct room *one, const struct room *other);

/* After a pass: CGAL's darts, vertices, faces and survivors' successors are the same. */
void agree_cgal(const struct plan *plan, const struct room *room, const uint32_t counts[2][3], uint32_t *const successors[2]);

/* Seventeen maps of at most eight darts, of which each is refused by one test of a pyramid alone: every version answers 4, whatever numbers of vertices
 * and faces are stored. */
void agree_refusals(const struct calls *const *versions, const char *const *names, int count);

/* After a pass of each: states, tables, histories and files with one number damaged get the same answers. */
void agree_damaged(const struct plan *plan, struct room *rooms, int count);

#endif
