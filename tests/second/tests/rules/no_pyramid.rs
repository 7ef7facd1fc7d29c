//! Answer 4: a case for each of the seventeen tests that only this test refuses, and faults of shape.

use crate::support::lot::{state, stored, Call, Lot, ON_A_STATE};
use crate::support::maps::{k7, triangle};
use second::operation::kind_of;
use second::state::State;

/// The test's number, the table, the history.
type Row = (u32, &'static [u32], &'static [u32]);

const ROWS: [Row; 17] = [
    (1, &[0, 0], &[4]),
    (2, &[0, 1, 0, 1, 4, 1, 0, 6], &[11, 14, 5, 4]),
    (3, &[0, 2], &[]),
    (4, &[0, 2, 1, 0], &[4]),
    (5, &[1, 1, 0, 1], &[4]),
    (6, &[0, 0], &[2]),
    (7, &[2, 3, 2, 3], &[2]),
    (8, &[0, 1, 2, 1], &[4]),
    (9, &[0, 1, 0, 2], &[4]),
    (10, &[2, 2, 2, 3], &[0]),
    (11, &[0, 1], &[1]),
    (12, &[2, 3, 3, 2], &[3]),
    (13, &[0, 1, 2, 0], &[5]),
    (14, &[2, 0, 2, 3], &[1]),
    (15, &[2, 2, 2, 3], &[1]),
    (16, &[2, 3, 2, 3], &[1]),
    (17, &[2, 3, 3, 2], &[0]),
];

/// The fewest levels with one kind inside each.
fn fewest_ends(history: &[u32]) -> Vec<u32> {
    (1..=history.len())
        .filter(|&end| end == history.len() || kind_of(history[end]) != kind_of(history[end - 1]))
        .map(|end| end as u32)
        .collect()
}

/// Every call on a state must answer 4, whatever numbers it stores, and leave all but the work area.
fn no_pyramid(lot: &Lot) {
    for call in ON_A_STATE {
        lot.refuse_as_no_pyramid(&call);
    }
}

#[test]
fn the_seventeen_tests() {
    for (test, table, history) in ROWS {
        println!("test {test}");
        let (darts, operations) = (table.len() as u32, history.len() as u32);
        let each_alone: Vec<u32> = (1..=operations).collect();
        for ends in [fewest_ends(history), each_alone] {
            no_pyramid(&Lot::new(state(darts, operations, &ends), table, history));
        }
    }
}

#[test]
fn every_entry_is_a_dart_of_gone_ones_too() {
    for dart in 0..8 {
        for entry in [8, 9, u32::MAX] {
            let mut lot = k7();
            lot.table[dart] = entry;
            no_pyramid(&lot);
        }
    }
}

#[test]
fn every_history_number_is_the_one_that_the_rules_give() {
    // Out of range; the edge turned the wrong way; an edge twice; the other kind.
    let rows: [(usize, &[u32]); 3] =
        [(0, &[16, 17, u32::MAX, 3, 5, 0]), (1, &[16, 17, u32::MAX, 7, 1, 4]), (2, &[16, 17, u32::MAX, 8, 0, 4, 11])];
    for (place, numbers) in rows {
        for &number in numbers {
            let mut lot = k7();
            lot.history[place] = number;
            no_pyramid(&lot);
        }
    }
}

#[test]
fn history_past_the_count_is_not_looked_at() {
    let mut lot = k7();
    lot.history[3] = u32::MAX;
    for call in [Call::Undo, Call::Counts, Call::Write, Call::Unfold(1)] {
        lot.clone().accept(&call);
    }
}

/// K7 with another state.
fn reshaped(change: impl FnOnce(&mut State)) -> Lot {
    let mut lot = k7();
    change(&mut lot.state);
    lot
}

#[test]
fn faults_of_shape() {
    let faults: [(&str, Lot); 16] = [
        ("operations over D/2", reshaped(|s| s.operations = 5)),
        ("operations over everything", reshaped(|s| s.operations = u32::MAX)),
        ("operations fewer than the last end", reshaped(|s| s.operations = 2)),
        ("operations more than the last end", reshaped(|s| s.operations = 4)),
        ("levels over 64", reshaped(|s| s.levels = 65)),
        ("levels over everything", reshaped(|s| s.levels = u32::MAX)),
        ("a level more than ends", reshaped(|s| s.levels = 3)),
        ("a level fewer than ends", reshaped(|s| s.levels = 1)),
        ("no level, but operations", reshaped(|s| *s = state(8, 3, &[]))),
        ("an empty first level", reshaped(|s| *s = state(8, 3, &[0, 2, 3]))),
        ("an empty level between", reshaped(|s| *s = state(8, 3, &[2, 2, 3]))),
        ("falling ends", reshaped(|s| *s = state(8, 3, &[3, 2]))),
        ("an end past the operations", reshaped(|s| *s = state(8, 3, &[2, 4]))),
        ("rubbish past the last level", reshaped(|s| s.ends[2] = 3)),
        ("rubbish in the last end", reshaped(|s| s.ends[63] = 1)),
        ("two kinds in a level", reshaped(|s| *s = state(8, 3, &[3]))),
    ];
    for (fault, lot) in faults {
        println!("{fault}");
        no_pyramid(&lot);
    }
}

#[test]
fn faults_of_shape_at_the_base() {
    for change in [state(8, 0, &[0]), state(8, 1, &[]), state(8, 1, &[1]), State { levels: 64, ..state(8, 0, &[]) }] {
        no_pyramid(&Lot { state: change, ..triangle() });
    }
    let mut lot = triangle();
    lot.state.ends[0] = 1;
    no_pyramid(&lot);
}

#[test]
fn another_cut_of_one_kind_is_a_pyramid() {
    let mut lot = reshaped(|s| *s = stored(8, 3, &[1, 2, 3], (2, 1)));
    lot.accept(&Call::Counts);
}

#[test]
fn a_smaller_d_over_the_same_table_is_judged_by_itself() {
    // The first two numbers of T are no permutation of two darts.
    let mut lot = triangle();
    lot.state.darts = 2;
    lot.refuse_as_no_pyramid(&Call::Counts);
}
