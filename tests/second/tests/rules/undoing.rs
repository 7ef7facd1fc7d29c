//! Random pyramids: undo returns what was there.

use crate::support::chance::on_random_pyramids;
use crate::support::lot::{Call, Lot};
use second::operation::undo;

#[test]
fn undo_after_a_kernel_returns_every_entry() {
    on_random_pyramids(|pyramid, chance| {
        let kind = chance.kind();
        let kernel = chance.kernel(pyramid, kind);
        if !kernel.is_empty() {
            let before = Lot::of(pyramid);
            let mut after = before.clone();
            after.accept(&Call::Reduce(kind, &kernel));
            after.accept(&Call::Undo);
            assert_eq!(after.state, before.state);
            assert_eq!(after.table, before.table);
            assert_eq!(after.numbers(), before.numbers());
        }
    });
}

#[test]
fn undoing_operation_by_operation_gives_the_stored_levels() {
    on_random_pyramids(|pyramid, _| {
        let mut map = pyramid.map().clone();
        let levels: Vec<_> = pyramid.levels().iter().rev().collect();
        for (numbers, level) in pyramid.kernels().collect::<Vec<_>>().iter().rev().zip(&levels[1..]) {
            for &number in numbers.iter().rev() {
                undo(&mut map, number).expect("an operation that was done");
            }
            assert_eq!(map.table(), level.map.table());
            assert!(map.survivors().eq(level.map.survivors()));
        }
    });
}

#[test]
fn unfold_equals_that_many_undos() {
    on_random_pyramids(|pyramid, chance| {
        let k = chance.below(pyramid.top() as u32 + 1);
        let mut unfolded = Lot::of(pyramid);
        unfolded.accept(&Call::Unfold(k));
        let mut undone = Lot::of(pyramid);
        for _ in k..pyramid.top() as u32 {
            undone.accept(&Call::Undo);
        }
        assert_eq!(unfolded.state, undone.state);
        assert_eq!(unfolded.table, undone.table);
        assert_eq!(unfolded.history, undone.history);
    });
}
