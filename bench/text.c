/* The file's text: words, numbers and lines. */
#include "text.h"

#include <stdbool.h>
#include <string.h>

/* The bytes of a word; the reader stops at the first that differs. */
static inline bool word(struct reader *reader, const char *w) {
    for (; *w != '\0'; w++, reader->at++)
        if (reader->at >= reader->length || reader->bytes[reader->at] != (uint8_t)*w) return false;
    return true;
}

static inline bool digit(const struct reader *reader) {
    return reader->at < reader->length && (uint8_t)(reader->bytes[reader->at] - '0') < 10;
}

/* One to five digits, no leading zero but for 0 itself. */
static inline bool number(struct reader *reader, uint32_t *x) {
    if (!digit(reader)) return false;
    *x = reader->bytes[reader->at++] - '0';
    if (*x == 0) return true;
    for (int left = 4; left > 0 && digit(reader); left--) *x = 10 * *x + (reader->bytes[reader->at++] - '0');
    return true;
}

static inline bool field(struct reader *reader, const char *w, uint32_t *x, const char *end) {
    return word(reader, w) && number(reader, x) && word(reader, end);
}

static uint32_t answer(size_t *place, uint32_t number, size_t at) {
    *place = at;
    return number;
}

/* The lines `numbers=F` and `darts=D`. */
uint32_t text_opening(struct reader *reader, uint32_t *darts, size_t *place) {
    if (!word(reader, "numbers=") || reader->at >= reader->length) return answer(place, 13, reader->at);
    uint8_t nine = reader->bytes[reader->at++];
    if (nine != '0' && nine != '1') return answer(place, 14, 8);
    reader->flag = nine - '0';
    if (!word(reader, "\n") || !field(reader, "darts=", darts, "\n")) return answer(place, 13, reader->at);
    return answer(place, 0, 0);
}

/* The history numbers of a kernel: operation t, t from 1, has p = 2t-2. Nothing where they would end past D/2. */
static void lay(const struct state *state, uint32_t *history, uint32_t count, uint32_t kind) {
    uint32_t from = state->operations, to = from + count;
    for (uint32_t i = from; to <= state->darts / 2 && i < to; i++) history[i] = 4 * i + kind;
}

/* The line `levels=L` and the L lines of the kernels. */
uint32_t text_kernels(struct reader *reader, struct state *state, uint32_t *history, size_t *place) {
    uint32_t levels, count;
    if (!field(reader, "levels=", &levels, "\n")) return answer(place, 13, reader->at);
    if (levels > MOST_LEVELS) return answer(place, 6, 0);
    while (state->levels < levels) {
        if (!word(reader, "kernel=")) return answer(place, 13, reader->at);
        bool contract = reader->at < reader->length && reader->bytes[reader->at] == 'c';
        if (!field(reader, contract ? "contract " : "remove ", &count, "\n")) return answer(place, 13, reader->at);
        if (count == 0) return answer(place, 5, 0);
        lay(state, history, count, contract);
        state->operations += count;
        state->ends[state->levels++] = state->operations;
    }
    return answer(place, 0, 0);
}

/* A number of a pair as a dart; 0 under F = 1 becomes D, which is none. */
static inline uint32_t dart(const struct reader *reader, uint32_t darts, uint32_t x) {
    if (reader->flag == 0) return x;
    return x == 0 ? darts : x - 1;
}

/* D/2 lines `pair=A B`, and nothing after the last. */
uint32_t text_pairs(struct reader *reader, uint32_t darts, uint32_t *table, size_t *place) {
    uint32_t a, b;
    for (uint32_t i = 0; i < darts; i += 2) {
        if (!field(reader, "pair=", &a, " ") || !field(reader, "", &b, "\n")) return answer(place, 13, reader->at);
        table[i] = dart(reader, darts, a);
        table[i + 1] = dart(reader, darts, b);
    }
    if (reader->at != reader->length) return answer(place, 13, reader->at);
    return answer(place, 0, 0);
}

/* The p and q of each operation come first, then the survivors by rising number. */
void text_number(const struct text *text, const uint32_t *gone) {
    uint32_t at = 0, darts = text->state->darts;
    for (uint32_t i = 0; i < text->state->operations; i++) {
        text->order[at++] = text->history[i] / 2;
        text->order[at++] = (text->history[i] / 2) ^ 1;
    }
    for (uint32_t x = 0; x < darts; x++)
        if (gone[x] < darts) text->order[at++] = x;
    for (uint32_t i = 0; i < darts; i++) text->number[text->order[i]] = i;
}

static inline uint32_t entry(const struct text *text, uint32_t i) {
    return text->number[text->map[text->order[i]]];
}

static inline size_t digits(uint32_t x) {
    return 1 + (x >= 10) + (x >= 100) + (x >= 1000) + (x >= 10000);
}

static const char *const head = "numbers=0\ndarts=";
static const char *const kernel[] = {"kernel=remove ", "kernel=contract "};

/* The bytes that the file needs. */
size_t text_length(const struct text *text) {
    const struct state *state = text->state;
    size_t length = strlen(head) + digits(state->darts) + strlen("\nlevels=") + digits(state->levels) + 1;
    uint32_t from = 0;
    for (uint32_t i = 0; i < state->levels; i++) {
        length += strlen(kernel[text->history[from] % 2]) + digits(state->ends[i] - from) + 1;
        from = state->ends[i];
    }
    for (uint32_t i = 0; i < state->darts; i += 2)
        length += strlen("pair= \n") + digits(entry(text, i)) + digits(entry(text, i + 1));
    return length;
}

static inline uint8_t *put(uint8_t *at, const char *w, uint32_t x, char end) {
    size_t length = strlen(w), n = digits(x);
    memcpy(at, w, length);
    at += length;
    for (size_t i = n; i-- > 0; x /= 10) at[i] = (uint8_t)('0' + x % 10);
    at[n] = (uint8_t)end;
    return at + n + 1;
}

/* The file, over the first bytes of an output that is long enough. */
void text_write(const struct text *text, uint8_t *output) {
    const struct state *state = text->state;
    uint32_t from = 0;
    output = put(output, head, state->darts, '\n');
    output = put(output, "levels=", state->levels, '\n');
    for (uint32_t i = 0; i < state->levels; i++) {
        output = put(output, kernel[text->history[from] % 2], state->ends[i] - from, '\n');
        from = state->ends[i];
    }
    for (uint32_t i = 0; i < state->darts; i += 2) {
        output = put(output, "pair=", entry(text, i), ' ');
        output = put(output, "", entry(text, i + 1), '\n');
    }
}
