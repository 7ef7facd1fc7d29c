/* The calls as the measured programs offer them: the eight of the library, (a) the plain version and (b) the walking version; the two that
 * begin from a plan and the successor at a level, of the library and (a). */
#ifndef BENCH_CALLS_H
#define BENCH_CALLS_H

#include <stddef.h>
#include <stdint.h>

enum { MOST_LEVELS = 64, MOST_DARTS = 65536 };

/* D, the operations, the levels, the vertices and faces of the present level, and the operation count after each kernel, zero past the last level: 69
 * numbers. */
struct state {
    uint32_t darts, operations, levels, vertices, faces, ends[MOST_LEVELS];
};

/* What a call is lent. */
struct lent {
    struct state state;
    uint32_t *table, *history, *work;
    size_t table_length, history_length, work_length;
};

/* Each call gives the answer's number and sets the answer's two places. */
struct calls {
    uint32_t (*start)(struct lent *lent, uint32_t darts, size_t place[2]);
    uint32_t (*contract)(struct lent *lent, const uint32_t *kernel, size_t length, size_t place[2]);
    uint32_t (*sweep)(struct lent *lent, size_t place[2]);
    uint32_t (*counts)(struct lent *lent, uint32_t counts[4], size_t place[2]);
    uint32_t (*undo)(struct lent *lent, size_t place[2]);
    uint32_t (*unfold)(struct lent *lent, uint32_t level, size_t place[2]);
    uint32_t (*write)(struct lent *lent, uint8_t *output, size_t length, size_t place[2]);
    uint32_t (*read)(struct lent *lent, const uint8_t *bytes, size_t length, size_t place[2]);
};

extern const struct calls library, plain, walking;

/* A call on a plan of so many wales and courses, one code a cell, and so many codes lent. */
typedef uint32_t plan_call(struct lent *lent, uint32_t wales, uint32_t courses, const uint8_t *codes, size_t length, size_t place[2]);

/* The base of a plan, and the base with its first kernel. */
enum building { BASE, AREAS, BUILDINGS };

extern plan_call *const library_builds[BUILDINGS], *const plain_builds[BUILDINGS];

/* Which dart's successor is asked for, at which level, and what is lent: a base's table, and where each edge ends, 2L by a removal at level L and
 * 2L + 1 by a contraction, 0 or 1 where it survives. */
struct lookup {
    uint32_t darts, level, dart, *table, *ends, *work;
    size_t table_length, ends_length, work_length;
};

/* The dart, and how many gone darts were passed on the way to it. */
struct found {
    uint32_t dart, passed;
};

typedef uint32_t lookup_call(const struct lookup *lookup, struct found *found, size_t place[2]);

extern lookup_call library_successor, plain_successor;

#endif
