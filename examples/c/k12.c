/* Reads the file of a pyramid from standard input, undoes its last level, and writes the counts of the level that is left and
 * its file to standard output. A refused call is named on standard error with its answer and place; the status is then 1. */
#include <stdio.h>

#include "zonemap.h"

/* Room for 4,096 darts, and for a file of as many. */
enum { DARTS = 4096, BYTES = 65536 };

static uint32_t state[ZM_STATE];
static uint32_t table[DARTS];
static uint32_t history[DARTS / 2];
static uint32_t work[4 * DARTS];
static uint8_t file[BYTES];

/* Whether a call was refused; if so, says which, with its answer and place. */
static int refused(const char *call, uint32_t answer, size_t place)
{
    if (answer == ZM_DONE) {
        return 0;
    }
    fprintf(stderr, "%s: answer=%u place=%zu\n", call, (unsigned)answer, place);
    return 1;
}

int main(void)
{
    size_t place = 0, second = 0;
    size_t length = fread(file, 1, BYTES, stdin);
    uint32_t answer = zm_read(file, length, state, table, DARTS, history, DARTS / 2, work, 4 * DARTS, &place, &second);
    if (refused("zm_read", answer, place)) {
        return 1;
    }

    answer = zm_undo(state, table, DARTS, history, DARTS / 2, work, 4 * DARTS, &place, &second);
    if (refused("zm_undo", answer, place)) {
        return 1;
    }

    uint32_t counts[ZM_COUNTS];
    int32_t euler = 0;
    answer = zm_counts(state, table, DARTS, history, DARTS / 2, work, 4 * DARTS, counts, &euler, &place, &second);
    if (refused("zm_counts", answer, place)) {
        return 1;
    }
    printf("level=%u darts=%u vertices=%u faces=%u euler=%d\n", (unsigned)state[ZM_LEVELS], (unsigned)counts[0], (unsigned)counts[1],
           (unsigned)counts[2], (int)euler);

    answer = zm_write(state, table, DARTS, history, DARTS / 2, work, 4 * DARTS, file, BYTES, &place, &second);
    if (refused("zm_write", answer, place)) {
        return 1;
    }
    if (fwrite(file, 1, place, stdout) != place || fflush(stdout) != 0) {
        perror("standard output");
        return 1;
    }
    return 0;
}
