/* Asks for the successor of one dart of map T at each level of K12, without unfolding, and writes it to standard output with the
 * number of gone darts passed; then for that of a dart that is gone. The status is 1 where an answer is neither 0 nor 8. */
#include <stdio.h>

#include "zonemap.h"

enum { DARTS = 8, ASKED = 4 };

/* Map T, and where its edges end in K12: edges 0 and 1 are contracted at level 1, edge 2 is removed at level 2, edge 3 survives. */
static const uint32_t table[DARTS] = {5, 2, 1, 4, 6, 0, 3, 7};
static const uint32_t ends[DARTS / 2] = {2 * 1 + 1, 2 * 1 + 1, 2 * 2, 0};

static const struct { uint32_t dart, level; } asked[ASKED] = {{6, 0}, {6, 1}, {6, 2}, {4, 2}};

static uint32_t work[4 * DARTS];

int main(void)
{
    for (int i = 0; i < ASKED; i++) {
        unsigned dart = asked[i].dart, level = asked[i].level;
        uint32_t found = 0, passed = 0;
        size_t place = 0, second = 0;
        uint32_t answer = zm_successor(DARTS, level, dart, table, DARTS, ends, DARTS / 2, work, 4 * DARTS, &found, &passed, &place, &second);
        if (answer == ZM_DONE) {
            printf("level %u: dart %u is followed by %u, %u gone darts passed\n", level, dart, (unsigned)found, (unsigned)passed);
        } else if (answer == ZM_GONE_ALREADY) {
            printf("level %u: dart %u is gone\n", level, dart);
        } else {
            fprintf(stderr, "zm_successor: answer=%u place=%zu\n", (unsigned)answer, place);
            return 1;
        }
    }
    if (fflush(stdout) != 0) {
        perror("standard output");
        return 1;
    }
    return 0;
}
