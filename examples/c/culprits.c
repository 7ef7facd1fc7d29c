/* Starts from three tables of four darts and writes to standard output which of them is a base and, of the others, which two darts
 * are to blame. The status is 1 where an answer is none of the two. */
#include <stdio.h>

#include "zonemap.h"

enum { DARTS = 4, TABLES = 3 };

/* A base; darts 1 and 2 lead to the same dart; dart 1 leads to no dart. */
static uint32_t tables[TABLES][DARTS] = {{2, 0, 1, 3}, {2, 0, 0, 3}, {2, 9, 0, 3}};

static uint32_t state[ZM_STATE];
static uint32_t history[DARTS / 2];
static uint32_t work[4 * DARTS];

int main(void)
{
    for (int i = 0; i < TABLES; i++) {
        size_t place = 0, second = 0;
        uint32_t answer = zm_start(DARTS, state, tables[i], DARTS, history, DARTS / 2, work, 4 * DARTS, &place, &second);
        if (answer == ZM_DONE) {
            printf("table %d: a base\n", i);
        } else if (answer != ZM_NO_PERMUTATION) {
            fprintf(stderr, "zm_start: answer=%u place=%zu second=%zu\n", (unsigned)answer, place, second);
            return 1;
        } else if (second == DARTS) {
            printf("table %d: dart %zu leads to %u, which is no dart\n", i, place, (unsigned)tables[i][place]);
        } else {
            printf("table %d: dart %zu leads to %u, and so does dart %zu\n", i, place, (unsigned)tables[i][place], second);
        }
    }
    if (fflush(stdout) != 0) {
        perror("standard output");
        return 1;
    }
    return 0;
}
