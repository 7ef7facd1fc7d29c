//! Faults in the calls of document 01, and in the start's two culprits.

use crate::copies::{found, second_with, Edit};

/// "Turn round .. in two cases only: removal with s = p": left out, since on a map r and s differ.
const NO_TURN: Edit = ("operation.rs", "Kind::Remove => s == p,", "Kind::Remove => s == p && r == s,");

/// The levels are derived at each call and compared with nothing: a copy goes on where it would stop, so that what it
/// prints is what shows the fault.
const ALWAYS_DERIVED: Edit =
    ("kept.rs", "        match &self.pyramid {\n", "        self.drop_levels();\n        match &self.pyramid {\n");
const NO_STOP: Edit = ("two_ways.rs", "        panic!(", "        let _ = format!(");

/// "Applying F to the counts."
const FLAG_ON_COUNTS: Edit = (
    "file_read.rs",
    "    let kernels = read_kernels(scan)?;\n",
    "    let mut kernels = read_kernels(scan)?;
    kernels.iter_mut().for_each(|(_, count)| *count = count.saturating_sub(head.first));\n",
);

/// An edge that comes twice in a history is looked at only where it comes last; a level that held nothing else is
/// passed over.
const EDGE_TWICE: Edit = (
    "decide.rs",
    "    let history = &history[..state.operations as usize];\n",
    "    let history = &history[..state.operations as usize];
    let comes_again = |&t: &usize| history[t + 1..].iter().any(|&later| edge_of(later) == edge_of(history[t]));
    if let Some(t) = (0..history.len()).find(comes_again) {
        let fewer = [&history[..t], &history[t + 1..]].concat();
        let mut state = State { operations: state.operations - 1, ..*state };
        state.ends.iter_mut().filter(|end| **end as usize > t).for_each(|end| *end -= 1);
        let empty = |&k: &usize| state.ends[k] == if k == 0 { 0 } else { state.ends[k - 1] };
        if let Some(k) = (0..state.levels.min(64) as usize).find(empty) {
            state.ends.copy_within(k + 1.., k);
            state.ends[63] = 0;
            state.levels -= 1;
        }
        return levels_of(&state, table, &fewer);
    }\n",
);

/// "which lower dart already has that successor": the later dart itself is named.
const CULPRIT_ITSELF: Edit =
    ("pyramid.rs", "    has_it_already.unwrap_or(table.len())\n", "    has_it_already.map_or(table.len(), |_| dart)\n");

/// "D where the value was out of range": 0 instead.
const OUT_OF_RANGE_IS_0: Edit =
    ("pyramid.rs", "    has_it_already.unwrap_or(table.len())\n", "    has_it_already.unwrap_or(0)\n");

#[test]
fn a_removal_without_its_turn_is_found() {
    let copy = second_with("no-turn", &[NO_TURN, ALWAYS_DERIVED, NO_STOP]);
    for (group, most_bytes) in [("worked", 100), ("small", 300)] {
        let text = found(&copy, group, "zones", most_bytes);
        assert!(!text.contains("(exit status: "), "the printed bytes tell");
    }
}

#[test]
fn a_flag_applied_to_counts_is_found() {
    let copy = second_with("flag-on-counts", &[FLAG_ON_COUNTS]);
    found(&copy, "worked", "zones", 200);
    found(&copy, "reads", "zones", 500);
    found(&copy, "reports", "levels", 500);
}

#[test]
fn an_edge_twice_in_a_history_is_found() {
    let copy = second_with("edge-twice", &[EDGE_TWICE]);
    let text = found(&copy, "worked", "zones", 120);
    assert!(text.contains("\nhistory 0 11 14 5 4\n"), "the copy accepts the case that only this test refuses");
    found(&copy, "small", "zones", 400);
}

#[test]
fn a_wrong_second_culprit_is_found() {
    for (name, edit) in [("culprit-itself", CULPRIT_ITSELF), ("out-of-range-is-0", OUT_OF_RANGE_IS_0)] {
        let copy = second_with(name, &[edit]);
        found(&copy, "worked", "zones", 40);
        found(&copy, "starts", "zones", 300);
        found(&copy, "small", "zones", 300);
    }
}
