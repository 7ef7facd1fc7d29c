/* One pass of a version over a plan: all eight phases, each timed, and what they leave. */
#ifndef BENCH_PASS_H
#define BENCH_PASS_H

#include "calls.h"
#include "plans.h"

enum phase { START, CONTRACT, SWEEP, COUNTS, UNDO, UNFOLD, WRITE, READ, PHASES };
enum moment { CONTRACTED, SWEPT, UNDONE, UNFOLDED, READ_BACK, MOMENTS };

extern const char *const phase_names[PHASES], *const moment_names[MOMENTS];

/* State, table and history at one moment. */
struct snapshot {
    struct state state;
    uint32_t *table, *history;
};

/* What one version works in, and what its last pass left: D numbers for each table, the file, and as many bytes to spare. */
struct room {
    const char *name;
    const struct calls *calls;
    struct lent lent;
    struct snapshot moments[MOMENTS];
    uint32_t counts[2][4]; /* after the contraction and after the sweep */
    uint8_t *file, *spare;
    size_t room_for_file, file_length;
};

struct room room_make(const char *name, const struct calls *calls, uint32_t darts);
void room_free(struct room *room);

/* State, table and history become those of the snapshot, of so many darts. */
void room_restore(struct room *room, const struct snapshot *snapshot, uint32_t darts);

/* All phases once; the processor's seconds of each. A refusal ends the program. */
void room_pass(struct room *room, const struct plan *plan, double seconds[PHASES]);

/* The processor's seconds that this program has used. */
double used_seconds(void);

/* Says what is wrong, with a plan where one is given, and ends the program. */
_Noreturn void fail(const struct plan *plan, const char *text, ...);

#endif
