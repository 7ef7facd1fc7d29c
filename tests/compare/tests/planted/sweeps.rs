//! Faults in the sweep.

use crate::copies::{found, second_with, Edit};

/// "and no whole piece": whole pieces are taken too.
const WHOLE_PIECE_SWEPT: Edit = ("kernel.rs", " && !map.whole_piece(edge) {", " {");

/// "an empty loop (r = q or s = p)": looked at from one side.
const LOOP_FROM_ONE_SIDE: Edit =
    ("map.rs", "        self.successor(p) == q || self.successor(q) == p\n", "        self.successor(p) == q\n");

/// "one pass over the edges": the last one is left out.
const LAST_EDGE_LEFT: Edit = ("kernel.rs", "    for edge in 0..map.edges() {", "    for edge in 0..map.edges() - 1 {");

/// "at its turn": the edges are chosen on the map as it stood before the first of them went.
const CHOSEN_BEFORE: [Edit; 2] = [
    (
        "kernel.rs",
        "    for edge in 0..map.edges() {",
        "    let before = map.clone();\n    for edge in 0..map.edges() {",
    ),
    ("kernel.rs", "map.empty_loop(edge)", "before.empty_loop(edge)"),
];

#[test]
fn a_sweep_that_takes_other_edges_is_found() {
    let faults: [(&str, &[Edit]); 4] = [
        ("whole-piece-swept", &[WHOLE_PIECE_SWEPT]),
        ("loop-from-one-side", &[LOOP_FROM_ONE_SIDE]),
        ("last-edge-left", &[LAST_EDGE_LEFT]),
        ("chosen-before", &CHOSEN_BEFORE),
    ];
    for (name, edits) in faults {
        let copy = second_with(name, edits);
        found(&copy, "small", "zones", 120);
    }
}
