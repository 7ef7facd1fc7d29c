/* zonemap.h: the calls on pyramids of maps, for C and C++.
 *
 * Link with crates/zonemap_c/out/libzonemap_c.a, which `rt lib` in crates/zonemap_c writes for x86-64 Linux; it asks nothing
 * else but memcpy and memset. A Rust program links it too: it declares these functions in an `extern "C"` block, a slice as its
 * pointer and its length. Each function is proved to be the call itself: what it leaves is one function of
 * crates/darts/specs/Calls.antt, of crates/grids/specs/Plans.antt for the two on a plan, or of crates/ends/specs/Lookup.antt
 * for zm_successor, for every input, refusals too.
 *
 * The five calls with sheets of yarn records (docs/CALLS.md) have no function here yet: a function for C takes no enum, nor a
 * slice of structs that hold one, and one over plain numbers would copy both sheets at each call. So answer 16, which the start
 * with sheets alone gives, is not in the list below.
 *
 * What a caller lends
 *
 *   state    69 numbers: D (the number of darts), the number of operations, the number of levels, the numbers of vertices and
 *            of faces of the present level, then the 64 level ends (the operation count after each kernel, zero past the last
 *            level). Whatever they are, a call takes them.
 *   table    at least D numbers: the successor of each dart. Entries of gone darts stay as they were.
 *   history  at least D/2 numbers, one for each operation: 2p for a removal, 2p + 1 for a contraction.
 *   ends     at least D/2 numbers, one for each edge: 2L for an edge removed at level L, 2L + 1 for one contracted there, 0 or
 *            1 for one that survives. zm_successor alone takes them; it takes no state and no history.
 *   work     at least 4D numbers of room to work in; any numbers may stand there.
 *   place    one number, which every call writes.
 *   second   one number more, which every call writes.
 *
 * Vertices and faces. A vertex is a cycle of successors among the surviving darts, a face one of the steps from a dart to its
 * partner's successor. Every accepted call on a state, and every start, plan and read, leaves both numbers right, so that a
 * status line takes them off the state, state[ZM_VERTICES] and state[ZM_FACES], and needs no call: a contraction takes one
 * vertex away, a removal one face, and undoing gives them back. They are judged as all else is: a state whose numbers are not
 * those of its cycles is no pyramid, and every call on it answers 4.
 *
 * A slice is a pointer and then its length, in numbers or bytes. No pointer may be null, none of the lent memory may
 * overlap, and each pointer must be aligned for its type: this alone is asked of the caller, and no function can test it.
 * The functions keep nothing between calls, ask for no memory and end on every input.
 *
 * What a call leaves
 *
 *   It returns the answer's number and writes the answer's place through `place` and its second place through `second`. The
 *   second place is 0 whatever the call and the answer, but for answer 3 of zm_start, which names both culprits.
 *   Accepted: state, table and history are those after the call; zm_successor only reads table and ends.
 *   Refused: table and history stay as they were; so does the state, also its numbers of vertices and faces where they are
 *   wrong, but zm_start, zm_plan, zm_plan_areas and zm_read, which are given none, write 69 zeros.
 *   The first 4D numbers of work are zero after the call, unless the answer is 1, 2 or 15, which leave work alone; zm_write
 *   zeroes them too where it answers 2 for its output.
 *   Numbers of a table past D, of a history past the larger of the operation counts before and after the call, of ends past
 *   D/2, and of a work area past 4D are never touched.
 *   Numbers that stay the same are stored again, so no other thread may use what is lent during a call: where zm_contract,
 *   zm_remove, zm_sweep, zm_undo or zm_unfold is accepted, the table's first D numbers and the history's first N, N the
 *   operation count after the call; and at every call but zm_counts and zm_write, refused too, the state's 69. Of zm_successor
 *   other threads may read table and ends meanwhile: each that calls it needs a work area of its own.
 *
 * Order of the answers: 1, 2, then 3 or 4, then 12, 6, 5, then the kernel's first failing edge, for which 7, 8, 9 or 10, 11.
 * zm_plan and zm_plan_areas judge 15 first. zm_write judges its output after 4. zm_read judges in the order of the file's bytes.
 * zm_successor judges 1, 2, 4, 12, 7, 8.
 */
#ifndef ZONEMAP_H
#define ZONEMAP_H

#include <stddef.h>
#include <stdint.h>

#ifdef __cplusplus
extern "C" {
#endif

/* How many numbers a state has, and how many zm_counts writes beside the Euler number. */
enum { ZM_STATE = 69, ZM_COUNTS = 3 };

/* Where a state has its numbers; the 64 level ends from ZM_ENDS on. */
enum { ZM_DARTS = 0, ZM_OPERATIONS = 1, ZM_LEVELS = 2, ZM_VERTICES = 3, ZM_FACES = 4, ZM_ENDS = 5 };

/* The answers. The place is 0 where nothing is said of it, and so is the second place. */
enum {
    ZM_DONE = 0,             /* done. Place: for zm_write, the bytes written */
    ZM_NO_DART_COUNT = 1,    /* D is odd, 0 or over 65,536 */
    ZM_TOO_SHORT = 2,        /* a lent slice is too short. Place: for zm_write's output, the bytes needed */
    ZM_NO_PERMUTATION = 3,   /* the table is no permutation. Place: the lowest dart whose successor is D or more, or repeats a lower dart's.
                              * Second place: that lower dart, or D where the successor is D or more */
    ZM_NO_PYRAMID = 4,       /* the state, or what a file holds, is no pyramid, also where its vertices or faces are other numbers than it stores;
                              * for zm_successor, table and ends come from none */
    ZM_EMPTY_KERNEL = 5,     /* the kernel is empty, or the sweep or a plan's first kernel takes no edge */
    ZM_TOO_MANY_LEVELS = 6,  /* 64 levels are in use, or a file states more */
    ZM_NO_EDGE = 7,          /* the edge number is D/2 or more. Place: where in the kernel, from 0; so too for 8 to 11.
                              * For zm_successor, the dart is D or more; place 0 */
    ZM_GONE_ALREADY = 8,     /* the edge is gone already; for zm_successor, the dart is gone by the level, place 0 */
    ZM_ONE_VERTEX = 9,       /* contraction with one vertex at both ends */
    ZM_ONE_FACE = 10,        /* removal with one face on both sides, by zm_remove alone */
    ZM_WHOLE_PIECE = 11,     /* the edge is a whole piece */
    ZM_NO_LEVEL = 12,        /* undo at the base, or a level above the top. Place: the top level */
    ZM_NO_FILE = 13,         /* the bytes leave the file's form. Place: the first wrong byte, or the length where the file ends early */
    ZM_NO_FLAG = 14,         /* byte nine is neither 0 nor 1. Place: 8 */
    ZM_NO_PLAN_SIZE = 15     /* the plan is outside 1 to 128 wales by 1 to 128 courses, or one cell alone */
};

/* Starts from the table's first D numbers, D = darts: a base, where they are a permutation of all darts.
 * Answers 0, 1, 2, 3; for 3 the place is the lowest bad dart, and the second place says who else is to blame: the one lower dart
 * that already has its successor, or D where its successor is out of range. D = 4, table 2 0 0 9: answer 3, place 2, second 1
 * (dart 1 leads to 0 already); table 2 9 2 0: answer 3, place 1, second 4 (9 is out of range).
 * Writes state: a base of D darts with no level, its vertices and faces counted, or 69 zeros where it is refused. Table and
 * history are not written.
 * Lengths: table D, history D/2, work 4D. What stood in state is not read. */
uint32_t zm_start(uint32_t darts, uint32_t state[ZM_STATE],
                  uint32_t *table, size_t table_length,
                  uint32_t *history, size_t history_length,
                  uint32_t *work, size_t work_length,
                  size_t *place, size_t *second);

/* The base of a stitch plan of so many wales (cells side by side) and courses (cells one above the other), 1 to 128 each.
 *
 * The plan has one code a cell, a byte, lowest course first and each course from the left: the cell in wale x of course y,
 * both from 0, is plan[y * wales + x]. An edge joins each cell to its right and to its upper neighbour. Edges along the
 * courses come first, course by course, then the upright ones by their lower cells, in the plan's order; the even dart is at
 * the left or lower cell. Round a cell the successor goes right, up, left, down, skipping what is missing.
 * With W wales and C courses there are D = 2((W - 1)C + W(C - 1)) darts, at most 65,024, WC vertices and (W - 1)(C - 1) + 1 faces.
 *
 * Three wales by two courses, plan "aab" "abb", lowest course first; the edges' numbers stand between the cells:
 *
 *     a -2- b -3- b      course 1      round the lower left cell    dart 0 (right), 8 (up)
 *     |     |     |                    round the lower middle cell  dart 2 (right), 10 (up), 1 (left)
 *     4     5     6
 *     |     |     |                    table  8 2 10 12 9 11 5 13 0 4 1 6 3 7
 *     a -0- a -1- b      course 0
 *
 * Answers 0, 2, 15. The codes are not looked at, yet the plan must have one for each cell.
 * Writes state, a base of D darts with no level, and the table's first D numbers where it is accepted; a state of 69 zeros
 * where it is refused. The history is not written.
 * Lengths: plan W * C bytes, table D, history D/2, work 4D; a longer plan is not looked at past its cells. What stood in state
 * and table is not read. */
uint32_t zm_plan(uint32_t wales, uint32_t courses,
                 const uint8_t *plan, size_t plan_length, uint32_t state[ZM_STATE],
                 uint32_t *table, size_t table_length,
                 uint32_t *history, size_t history_length,
                 uint32_t *work, size_t work_length,
                 size_t *place, size_t *second);

/* The same base, and at once a first kernel, which contracts the areas of one code: the edges by rising number, each whose two
 * cells have the same code, unless it would be refused at its turn with 9 or 11. The vertices are then exactly the connected
 * areas of one code, save in a plan one cell wide or one cell high with a single code, where one edge stays.
 * zm_undo leaves the base.
 *
 * Of the plan above it contracts the edges 0, 3, 4 and 6, so that two vertices are left, joined by 1, 2 and 5:
 *
 *     table  8 2 10 5 2 11 5 13 2 4 4 3 3 5      history  1 13 17 25      state  14 4 1 2 3, ends 4 0 0 ..
 *
 * Answers 0, 2, 5, 15; 5 where no edge is taken: no two neighbours have one code, or two cells with one code are the whole plan.
 * Writes state, of one level, the table's first D numbers and one number of the history for each contraction where it is
 * accepted; a state of 69 zeros where it is refused.
 * Lengths: as for zm_plan. What stood in state, table and history is not read. */
uint32_t zm_plan_areas(uint32_t wales, uint32_t courses,
                       const uint8_t *plan, size_t plan_length, uint32_t state[ZM_STATE],
                       uint32_t *table, size_t table_length,
                       uint32_t *history, size_t history_length,
                       uint32_t *work, size_t work_length,
                       size_t *place, size_t *second);

/* One level more: the kernel's edges are contracted in the listed order, each judged on the map as it stands at its turn.
 * Answers 0, 1, 2, 4, 5, 6, 7, 8, 9, 11; for 7 to 11 the place is the edge's place in the kernel.
 * Writes state, table and history where it is accepted.
 * Lengths: table D, history D/2, work 4D, D = state[0]; the kernel may have any length, its edges are numbers from 0. */
uint32_t zm_contract(uint32_t state[ZM_STATE],
                     const uint32_t *kernel, size_t kernel_length,
                     uint32_t *table, size_t table_length,
                     uint32_t *history, size_t history_length,
                     uint32_t *work, size_t work_length,
                     size_t *place, size_t *second);

/* One level more: the kernel's edges are removed in the listed order, each judged on the map as it stands at its turn.
 * Answers 0, 1, 2, 4, 5, 6, 7, 8, 10, 11; for 7 to 11 the place is the edge's place in the kernel.
 * Writes state, table and history where it is accepted.
 * Lengths: table D, history D/2, work 4D, D = state[0]; the kernel may have any length, its edges are numbers from 0. */
uint32_t zm_remove(uint32_t state[ZM_STATE],
                   const uint32_t *kernel, size_t kernel_length,
                   uint32_t *table, size_t table_length,
                   uint32_t *history, size_t history_length,
                   uint32_t *work, size_t work_length,
                   size_t *place, size_t *second);

/* One level more: a removal kernel of one pass over the edges by rising number, which takes each surviving edge that at its
 * turn is an empty loop and no whole piece. No edge is refused: an empty loop always has two different faces.
 * Answers 0, 1, 2, 4, 5, 6.
 * Writes state, table and history where it is accepted.
 * Lengths: table D, history D/2, work 4D, D = state[0]. */
uint32_t zm_sweep(uint32_t state[ZM_STATE],
                  uint32_t *table, size_t table_length,
                  uint32_t *history, size_t history_length,
                  uint32_t *work, size_t work_length,
                  size_t *place, size_t *second);

/* The last level undone: the state and every entry of the table as they were before its kernel.
 * Answers 0, 1, 2, 4, 12; for 12 the place is 0, the base's level.
 * Writes state and table where it is accepted. Every number of the history stays: those up to the new count are stored as
 * they were, those past it are not touched.
 * Lengths: table D, history D/2, work 4D, D = state[0]. */
uint32_t zm_undo(uint32_t state[ZM_STATE],
                 uint32_t *table, size_t table_length,
                 uint32_t *history, size_t history_length,
                 uint32_t *work, size_t work_length,
                 size_t *place, size_t *second);

/* Back to a level, at or below the top: as many undos. The top itself changes nothing.
 * Answers 0, 1, 2, 4, 12; for 12 the place is the top level.
 * Writes state and table where it is accepted. Every number of the history stays: those up to the new count are stored as
 * they were, those past it are not touched.
 * Lengths: table D, history D/2, work 4D, D = state[0]. */
uint32_t zm_unfold(uint32_t state[ZM_STATE], uint32_t level,
                   uint32_t *table, size_t table_length,
                   uint32_t *history, size_t history_length,
                   uint32_t *work, size_t work_length,
                   size_t *place, size_t *second);

/* The successor of a dart at a level, found without unfolding: from the table of a base and the ends of its edges.
 *
 * The walk starts at the dart's base successor. While the dart there is gone by the level, its edge ending at a level from 1 to
 * this one, it goes on: to that dart's base successor if its edge was removed, to its partner's base successor if contracted.
 * The top is the highest level among the ends.
 *
 * Table 5 2 1 4 6 0 3 7 with the ends 3 3 4 0: the edges 0 and 1 are contracted at level 1, edge 2 is removed at level 2, and
 * edge 3 survives. From dart 6:
 *
 *     level 0   no gone dart                     found 3, passed 0
 *     level 1   over the darts 3 1               found 5, passed 2
 *     level 2   over the darts 3 1 5 0 2 4       found 6, passed 6
 *
 * Answers 0, 1, 2, 4, 12, 7, 8, judged in this order; for 12 the place is the top, else it is 0. Answer 4: table and ends come
 * from no pyramid. The table is no permutation, a level from 1 to the top is not in use or has two kinds, the top is over 64,
 * or an operation would be refused.
 * Writes found, the successor, and passed, the number of gone darts passed on the way: never more than twice the operations done
 * by the level. A refusal writes 0 and 0. Table and ends are only read.
 * Lengths: table D, ends D/2, work 4D, D = darts. What stood in found and passed is not read. */
uint32_t zm_successor(uint32_t darts, uint32_t level, uint32_t dart,
                      const uint32_t *table, size_t table_length,
                      const uint32_t *ends, size_t ends_length,
                      uint32_t *work, size_t work_length,
                      uint32_t *found, uint32_t *passed,
                      size_t *place, size_t *second);

/* The counts of the present level. Vertices and faces are the numbers that the state stores, once it is found to be a pyramid.
 * Answers 0, 1, 2, 4.
 * Writes counts (surviving darts, vertices, faces) and euler (vertices minus edges plus faces, which may fall below zero):
 * four zeros where it is refused. State, table and history are not written.
 * Lengths: table D, history D/2, work 4D, D = state[0]. */
uint32_t zm_counts(const uint32_t state[ZM_STATE],
                   uint32_t *table, size_t table_length,
                   uint32_t *history, size_t history_length,
                   uint32_t *work, size_t work_length,
                   uint32_t counts[ZM_COUNTS], int32_t *euler,
                   size_t *place, size_t *second);

/* Reads a file: the pyramid that its bytes hold, in the file's own numbers.
 * Answers 0, 1, 2, 4, 5, 6, 13, 14, judged in the order of the bytes; for 13 the place is the first wrong byte, or the
 * length where the file ends early, and for 14 it is 8.
 * Writes state, table and history where it is accepted, and a state of 69 zeros where it is refused. A file states no vertices
 * and no faces: they are counted. The work area is left alone where the reader stops before it knows D.
 * Lengths: table D, history D/2, work 4D, D as the file has it. What stood in state is not read. */
uint32_t zm_read(const uint8_t *bytes, size_t length, uint32_t state[ZM_STATE],
                 uint32_t *table, size_t table_length,
                 uint32_t *history, size_t history_length,
                 uint32_t *work, size_t work_length,
                 size_t *place, size_t *second);

/* Writes the file of the pyramid, with darts from zero, over the first bytes of the output.
 * Answers 0 (place: the bytes written), 1, 2 (place: the bytes needed, where the output is too short; else 0), 4.
 * Writes the file's own bytes of the output where it is accepted, and no other. State, table and history are not written.
 * A call with an output that is too short, of length 0 say, asks how many bytes are needed.
 * Lengths: table D, history D/2, work 4D, D = state[0]; output as many bytes as the file has. */
uint32_t zm_write(const uint32_t state[ZM_STATE],
                  uint32_t *table, size_t table_length,
                  uint32_t *history, size_t history_length,
                  uint32_t *work, size_t work_length,
                  uint8_t *output, size_t output_length,
                  size_t *place, size_t *second);

#ifdef __cplusplus
}
#endif

#endif
