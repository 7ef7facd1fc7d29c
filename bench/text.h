/* The file's text, read and written without any judgement of the pyramid it holds. Versions (a) and (b) share it. */
#ifndef BENCH_TEXT_H
#define BENCH_TEXT_H

#include "calls.h"

/* A file on its way in: its bytes, the place reached, and byte nine. */
struct reader {
    const uint8_t *bytes;
    size_t length, at;
    uint32_t flag;
};

/* Each gives the answer's number and sets its place, 0 where it is done. */
uint32_t text_opening(struct reader *reader, uint32_t *darts, size_t *place);
uint32_t text_kernels(struct reader *reader, struct state *state, uint32_t *history, size_t *place);
uint32_t text_pairs(struct reader *reader, uint32_t darts, uint32_t *table, size_t *place);

/* A pyramid on its way out: the darts in the file's order, and each dart's number there. */
struct text {
    const struct state *state;
    const uint32_t *history, *map;
    uint32_t *order, *number;
};

/* Fills the order and the numbers; `gone` is at least D for a gone dart and may be the same place as `number`. */
void text_number(const struct text *text, const uint32_t *gone);
size_t text_length(const struct text *text);
void text_write(const struct text *text, uint8_t *output);

#endif
