//! What an accepted call leaves: state, table, history, work area and output, each number of them.

use crate::support::lot::{stored, Call, Left, Lot, MARK};
use crate::support::maps::{full_star, k7, star, triangle, T};
use crate::worked::K12;
use second::counts::Counts;
use second::operation::Kind::{Contract, Remove};
use second::state::State;

/// The call must be accepted and leave exactly this state, these entries and these history numbers from place 0 on;
/// the rest of both, the output and the work area past 4D must stay.
pub fn leaves(before: &Lot, call: &Call, state: State, entries: &[u32], numbers: &[u32]) -> Left {
    let mut expected = before.clone();
    expected.state = state;
    expected.table[..entries.len()].copy_from_slice(entries);
    expected.history[..numbers.len()].copy_from_slice(numbers);
    expected.work[..4 * entries.len()].fill(0);
    let mut after = before.clone();
    let left = after.accept(call);
    assert_eq!(left.state, state);
    assert_eq!(after, expected);
    left
}

#[test]
fn start_keeps_table_and_history() {
    let before = Lot::new(k7().state, &T, &[9, 9, 9, 9]);
    leaves(&before, &Call::Start(8), stored(8, 0, &[], (4, 2)), &T, &[]);
}

#[test]
fn reduce_adds_a_level() {
    let call = Call::Reduce(Contract, &[0, 1]);
    leaves(&triangle(), &call, stored(8, 2, &[2], (2, 2)), &[5, 2, 5, 4, 6, 4, 5, 7], &[1, 5]);
    let once = Lot::built(&T, &[(Contract, &[0, 1])]);
    let state = stored(8, 3, &[2, 3], (2, 1));
    leaves(&once, &Call::Reduce(Remove, &[2]), state, &[5, 2, 5, 4, 6, 4, 6, 7], &[1, 5, 10]);
}

#[test]
fn sweep_takes_empty_loops_in_one_pass() {
    // After K5 edge 2 is an empty loop, seen from its odd dart.
    let before = Lot::built(&T, &[(Contract, &[0, 1])]);
    leaves(&before, &Call::Sweep, stored(8, 3, &[2, 3], (2, 1)), &[5, 2, 5, 4, 6, 4, 6, 7], &[1, 5, 10]);
}

#[test]
fn sweep_leaves_a_loop_that_becomes_empty_behind_it() {
    // One vertex 0 2 3 1 4, with 5 alone: loop 0 is round loop 1, which alone is empty when edge 0 has its turn.
    let base = [2, 4, 3, 1, 0, 5];
    leaves(&Lot::built(&base, &[]), &Call::Sweep, stored(6, 1, &[1], (2, 2)), &[1, 4, 3, 1, 0, 5], &[4]);
    // With the numbers exchanged the outer loop has its turn after the inner one and goes too.
    let base = [1, 3, 0, 4, 2, 5];
    leaves(&Lot::built(&base, &[]), &Call::Sweep, stored(6, 2, &[2], (2, 1)), &[1, 3, 3, 4, 4, 5], &[0, 4]);
}

#[test]
fn undo_returns_state_and_table_and_keeps_the_history() {
    let before = k7();
    leaves(&before, &Call::Undo, stored(8, 2, &[2], (2, 2)), &[5, 2, 5, 4, 6, 4, 5, 7], &[]);
    let mut before = before;
    before.accept(&Call::Undo);
    leaves(&before, &Call::Undo, stored(8, 0, &[], (4, 2)), &T, &[1, 5, 10]);
}

#[test]
fn unfold_goes_to_any_level_and_the_top_changes_nothing() {
    let before = k7();
    leaves(&before, &Call::Unfold(0), stored(8, 0, &[], (4, 2)), &T, &[]);
    leaves(&before, &Call::Unfold(1), stored(8, 2, &[2], (2, 2)), &[5, 2, 5, 4, 6, 4, 5, 7], &[]);
    leaves(&before, &Call::Unfold(2), before.state, &[5, 2, 5, 4, 6, 4, 6, 7], &[]);
    leaves(&triangle(), &Call::Unfold(0), stored(8, 0, &[], (4, 2)), &T, &[]);
}

#[test]
fn all_64_levels_can_be_used_and_undone() {
    let lot = full_star();
    leaves(&lot, &Call::Unfold(0), stored(132, 0, &[], (67, 1)), &star(66), &[]);
    leaves(&lot, &Call::Unfold(64), lot.state, lot.entries(), &[]);
}

#[test]
fn counts_change_nothing() {
    let left = leaves(&k7(), &Call::Counts, k7().state, k7().entries(), &[]);
    assert_eq!(left.counts, Counts { darts: 2, vertices: 2, faces: 1, euler: 2 });
}

#[test]
fn the_euler_number_may_fall_below_zero() {
    // One vertex and one face with four edges: two handles.
    let base = [2, 3, 1, 4, 6, 7, 5, 0];
    let left = Lot::built(&base, &[]).accept(&Call::Counts);
    assert_eq!(left.counts, Counts { darts: 8, vertices: 1, faces: 1, euler: -2 });
}

#[test]
fn read_writes_its_own_numbers_only() {
    let before = Lot::new(full_star().state, &[1; 12], &[2; 8]);
    let mut expected = before.clone();
    expected.state = stored(8, 3, &[2, 3], (2, 1));
    expected.table[..8].copy_from_slice(&[4, 2, 4, 5, 5, 6, 6, 7]);
    expected.history[..3].copy_from_slice(&[1, 5, 8]);
    expected.work[..32].fill(0);
    let mut after = before;
    after.accept(&Call::Read(K12.as_bytes()));
    assert_eq!(after, expected);
}

#[test]
fn write_alters_its_own_bytes_only() {
    for length in [K12.len(), K12.len() + 1, 2_000] {
        let mut after = k7();
        after.output = vec![MARK as u8; length];
        let mut expected = after.clone();
        expected.output[..K12.len()].copy_from_slice(K12.as_bytes());
        expected.work[..32].fill(0);
        assert_eq!(after.accept(&Call::Write).answer.place, K12.len());
        assert_eq!(after, expected);
    }
}

#[test]
fn a_base_of_two_darts_is_written() {
    let mut lot = Lot::built(&[1, 0], &[]);
    let file = "numbers=0\ndarts=2\nlevels=0\npair=1 0\n";
    assert_eq!(lot.accept(&Call::Write).answer.place, file.len());
    assert_eq!(&lot.output[..file.len()], file.as_bytes());
}

#[test]
fn the_largest_map_starts() {
    let darts = 65_536;
    let table: Vec<u32> = (0..darts).collect();
    let state = stored(darts, 0, &[], (65_536, 32_768));
    leaves(&Lot::new(State::ZERO, &table, &[]), &Call::Start(darts), state, &table, &[]);
}
