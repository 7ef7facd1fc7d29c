/* (a) The successor at a level in plain C: the same steps as the library, with no proof. */
#include "plain_area.h"

/* The highest level among the ends. */
static uint32_t top(const uint32_t *ends, uint32_t edges) {
    uint32_t high = 0;
    for (uint32_t e = 0; e < edges; e++)
        if (high < ends[e] / 2) high = ends[e] / 2;
    return high;
}

/* Whether there are at most 64 levels, each is in use, and its ends are as its first one. */
static bool shape(const uint32_t *ends, uint32_t edges) {
    uint32_t first[MOST_LEVELS + 1] = {0}, high = top(ends, edges);
    if (high > MOST_LEVELS) return false;
    for (uint32_t e = edges; e > 0; e--) first[ends[e - 1] / 2] = ends[e - 1];
    for (uint32_t level = high; level > 0; level--)
        if (first[level] == 0) return false;
    for (uint32_t e = 0; e < edges; e++)
        if (ends[e] >= 2 && ends[e] != first[ends[e] / 2]) return false;
    return true;
}

/* The operations of one kind that the ends tell, by rising number, after so many others. One that is refused stops them. */
static struct ran pass(struct area area, uint32_t operations, enum kind kind, const uint32_t *ends) {
    uint32_t m = operations;
    area_label(area, kind);
    for (uint32_t e = 0; e < area.darts / 2; e++) {
        if (ends[e] < 2 || ends[e] % 2 != kind) continue;
        if (!(kind == CONTRACT ? area_contract(area, m, e) : area_remove(area, m, e))) return (struct ran){4, operations, 0};
        m++;
    }
    return (struct ran){0, m, 0};
}

/* Whether table and ends come from a pyramid: the base, the levels, then the contractions and after them the removals. */
static bool comes(struct area area, const uint32_t *table, const uint32_t *ends) {
    uint32_t beside;
    if (!shape(ends, area.darts / 2) || area_test_base(area, table, &beside) < area.darts) return false;
    struct ran contracted = pass(area, 0, CONTRACT, ends);
    return contracted.number == 0 && pass(area, contracted.operations, REMOVE, ends).number == 0;
}

static inline bool gone_by(const uint32_t *ends, uint32_t level, uint32_t dart) {
    uint32_t end = ends[dart / 2] / 2;
    return end > 0 && end <= level;
}

/* From a gone dart on to its successor if its edge was removed, to its partner's if contracted. */
static struct found walk(const uint32_t *table, const uint32_t *ends, uint32_t level, uint32_t dart) {
    struct found found = {table[dart], 0};
    for (; gone_by(ends, level, found.dart); found.passed++)
        found.dart = table[ends[found.dart / 2] % 2 == REMOVE ? found.dart : partner(found.dart)];
    return found;
}

uint32_t plain_successor(const struct lookup *lookup, struct found *found, size_t place[2]) {
    const struct lent lent = {.work = lookup->work,
                              .table_length = lookup->table_length,
                              .history_length = lookup->ends_length,
                              .work_length = lookup->work_length};
    uint32_t darts = lookup->darts, number = area_fit(&lent, darts);
    *found = (struct found){0, 0};
    place[0] = place[1] = 0;
    if (number != 0) return number;
    struct area area = area_over(&lent, darts);
    bool pyramid = comes(area, lookup->table, lookup->ends);
    area_clear(area);
    if (!pyramid) return 4;
    uint32_t high = top(lookup->ends, darts / 2);
    if (lookup->level > high) {
        place[0] = high;
        return 12;
    }
    if (lookup->dart >= darts) return 7;
    if (gone_by(lookup->ends, lookup->level, lookup->dart)) return 8;
    *found = walk(lookup->table, lookup->ends, lookup->level, lookup->dart);
    return 0;
}
