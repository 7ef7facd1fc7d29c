/* One pass of a version over a plan. Copies between the phases are not timed. */
#define _POSIX_C_SOURCE 200809L
#include "pass.h"

#include <stdarg.h>
#include <stdio.h>
#include <stdlib.h>
#include <string.h>
#include <time.h>

const char *const phase_names[PHASES] = {"start", "contract", "sweep", "counts", "undo", "unfold", "write", "read"};
const char *const moment_names[MOMENTS] = {"contract", "sweep", "undo", "unfold", "read"};

double used_seconds(void) {
    struct timespec now;
    clock_gettime(CLOCK_PROCESS_CPUTIME_ID, &now);
    return (double)now.tv_sec + (double)now.tv_nsec * 1e-9;
}

void fail(const struct plan *plan, const char *text, ...) {
    va_list words;
    va_start(words, text);
    fputs("bench: ", stderr);
    if (plan != NULL)
        fprintf(stderr, "%s, %s, %u cells square: ", picture_names[plan->picture], plan->random ? "at random" : "in order", plan->side);
    vfprintf(stderr, text, words);
    fputc('\n', stderr);
    va_end(words);
    exit(1);
}

static void *bytes(size_t count) {
    void *all = calloc(count, 1);
    if (all == NULL) abort();
    return all;
}

struct room room_make(const char *name, const struct calls *calls, uint32_t darts) {
    size_t table = darts * sizeof(uint32_t), file = 100 + 23 * MOST_LEVELS + 17 * (size_t)darts / 2;
    struct lent lent = {{0}, bytes(table), bytes(table / 2), bytes(4 * table), darts, darts / 2, 4 * (size_t)darts};
    struct room room = {.name = name, .calls = calls, .lent = lent, .file = bytes(file), .spare = bytes(file), .room_for_file = file};
    for (int m = 0; m < MOMENTS; m++) room.moments[m] = (struct snapshot){{0}, bytes(table), bytes(table / 2)};
    return room;
}

void room_free(struct room *room) {
    for (int m = 0; m < MOMENTS; m++) {
        free(room->moments[m].table);
        free(room->moments[m].history);
    }
    free(room->lent.table);
    free(room->lent.history);
    free(room->lent.work);
    free(room->file);
    free(room->spare);
}

static void keep(struct room *room, enum moment moment, uint32_t darts) {
    struct snapshot *kept = &room->moments[moment];
    kept->state = room->lent.state;
    memcpy(kept->table, room->lent.table, darts * sizeof *kept->table);
    memcpy(kept->history, room->lent.history, darts / 2 * sizeof *kept->history);
}

void room_restore(struct room *room, const struct snapshot *snapshot, uint32_t darts) {
    room->lent.state = snapshot->state;
    memcpy(room->lent.table, snapshot->table, darts * sizeof *snapshot->table);
    memcpy(room->lent.history, snapshot->history, darts / 2 * sizeof *snapshot->history);
}

/* One call of a phase, timed. */
#define TIMED(phase, call)                                                                                      \
    do {                                                                                                        \
        double from = used_seconds();                                                                           \
        uint32_t number = (call);                                                                               \
        seconds[phase] = used_seconds() - from;                                                                 \
        if (number != 0) fail(plan, "%s answers %u in %s, place %zu", room->name, number, phase_names[phase], place[0]); \
    } while (0)

void room_pass(struct room *room, const struct plan *plan, double seconds[PHASES]) {
    const struct calls *calls = room->calls;
    struct lent *lent = &room->lent;
    uint32_t darts = plan->darts;
    size_t place[2];
    memcpy(lent->table, plan->table, darts * sizeof *lent->table);
    memset(lent->history, 0, darts / 2 * sizeof *lent->history);
    TIMED(START, calls->start(lent, darts, place));
    TIMED(CONTRACT, calls->contract(lent, plan->kernel, plan->kernel_length, place));
    keep(room, CONTRACTED, darts);
    TIMED(COUNTS, calls->counts(lent, room->counts[CONTRACTED], place));
    TIMED(SWEEP, calls->sweep(lent, place));
    keep(room, SWEPT, darts);
    TIMED(COUNTS, calls->counts(lent, room->counts[SWEPT], place));
    TIMED(WRITE, calls->write(lent, room->file, room->room_for_file, place));
    room->file_length = place[0];
    TIMED(UNDO, calls->undo(lent, place));
    keep(room, UNDONE, darts);
    room_restore(room, &room->moments[SWEPT], darts);
    TIMED(UNFOLD, calls->unfold(lent, 0, place));
    keep(room, UNFOLDED, darts);
    TIMED(READ, calls->read(lent, room->file, room->file_length, place));
    keep(room, READ_BACK, darts);
}
