//! The levels kept and the levels derived: they agree on random pyramids, and where they do not, the program stops.

use std::panic::{catch_unwind, AssertUnwindSafe};

use crate::support::chance::{on_random_pyramids, Chance};
use crate::support::lot::{stored, Call, Lot, ON_A_STATE};
use crate::support::maps::k7;
use second::decide::pyramid_of;
use second::file_write::bytes_of;
use second::kept::Kept;
use second::operation::Kind;
use second::pyramid::Pyramid;

/// The pyramid that a lot holds.
fn pyramid(lot: &Lot) -> Pyramid {
    pyramid_of(&lot.state, lot.entries(), lot.numbers()).expect("a pyramid")
}

fn keeping(pyramid: &Pyramid) -> Kept {
    let mut kept = Kept::default();
    kept.keep(pyramid.clone());
    kept
}

/// A call that most often finds something to do; the kernel and the file are for those that ask for one.
fn any_call<'a>(chance: &mut Chance, kind: Kind, kernel: &'a [u32], file: &'a [u8]) -> Call<'a> {
    match chance.below(10) {
        0..=3 => Call::Reduce(kind, kernel),
        4 => Call::Sweep,
        5 => Call::Undo,
        6 => Call::Unfold(chance.below(4)),
        7 => Call::Counts,
        8 => Call::Read(file),
        _ => Call::Write,
    }
}

#[test]
fn calls_on_kept_levels_and_on_derived_ones_leave_the_same() {
    on_random_pyramids(|pyramid, chance| {
        let mut on_kept = Lot::of(pyramid);
        let mut on_derived = on_kept.clone();
        let mut kept = keeping(pyramid);
        for _ in 0..6 {
            let present = kept.pyramid().expect("levels, since no start or read is refused").clone();
            let kind = chance.kind();
            let kernel = chance.kernel(&present, kind);
            let file = bytes_of(&present);
            let call = any_call(chance, kind, &kernel, &file);
            assert_eq!(on_kept.call_keeping(&call, &mut kept), on_derived.call(&call));
            assert_eq!(on_kept, on_derived);
        }
    });
}

/// What the program says when it makes this call on numbers that are not those of the levels kept.
fn said(kept: &Pyramid, given: &Lot, call: &Call) -> String {
    let stop = catch_unwind(AssertUnwindSafe(|| given.clone().call_keeping(call, &mut keeping(kept))));
    *stop.expect_err("the call goes through").downcast::<String>().expect("a message")
}

#[track_caller]
fn says(said: &str, call: &str, difference: &str) {
    assert_eq!(said, format!("before {call} the levels kept and the numbers differ: {difference}"));
}

/// Kept is K7's pyramid, and one thing was changed behind its back.
#[track_caller]
fn counts_says(change: impl FnOnce(&mut Lot), difference: &str) {
    let mut given = k7();
    change(&mut given);
    says(&said(&pyramid(&k7()), &given, &Call::Counts), "counts", difference);
}

#[test]
fn the_message_names_what_differs() {
    counts_says(|lot| lot.state.operations = 2, "the state, place 1: kept 3, by the numbers 2");
    counts_says(|lot| lot.state.ends[0] = 1, "the state, place 5: kept 2, by the numbers 1");
    counts_says(|lot| lot.state.vertices = 3, "the state, place 3: kept 2, by the numbers 3");
    counts_says(|lot| lot.state.faces = 0, "the state, place 4: kept 1, by the numbers 0");
    counts_says(|lot| lot.history[2] = 8, "the history, place 2: kept 10, by the numbers 8");
    counts_says(|lot| lot.table[7] = 6, "level 2 as it stands: the table, place 7: kept 7, by the numbers 6");
    counts_says(|lot| lot.table[7] = 8, "table or history hold a number that is no dart's");
}

#[test]
fn the_message_names_the_call() {
    let names = ["reduce", "reduce", "sweep", "undo", "unfold", "counts", "write"];
    let mut given = k7();
    given.table[0] = 4;
    for (call, name) in ON_A_STATE.iter().zip(names) {
        let difference = "level 2 as it stands: the table, place 0: kept 5, by the numbers 4";
        says(&said(&pyramid(&k7()), &given, call), name, difference);
    }
}

#[test]
fn every_number_of_a_pyramid_is_compared() {
    on_random_pyramids(|pyramid, chance| {
        let whole = Lot::of(pyramid);
        let number = chance.below(400) as usize;
        let mut given = whole.clone();
        match number {
            0..=63 => given.state.ends[number] ^= 1,
            64..=79 => given.state.vertices ^= 1,
            80..=95 => given.state.faces ^= 1,
            100..=199 if number < 100 + whole.darts() => given.table[number - 100] ^= 1,
            200..=299 if number < 200 + whole.numbers().len() => given.history[number - 200] ^= 1,
            _ => return,
        }
        assert!(said(pyramid, &given, &Call::Undo).starts_with("before undo "));
    });
}

#[test]
fn other_levels_under_the_same_table_are_noticed() {
    // K9: "both give 2 4 4 3 2 5".
    let removed = Lot::built(&[2, 4, 1, 3, 0, 5], &[(Kind::Remove, &[0])]);
    let contracted = Lot::built(&[2, 4, 0, 3, 1, 5], &[(Kind::Contract, &[0])]);
    assert_eq!(removed.entries(), contracted.entries());
    let said_of_kind = said(&pyramid(&removed), &contracted, &Call::Undo);
    says(&said_of_kind, "undo", "the history, place 0: kept 0, by the numbers 1");
    // The same operations cut into other levels.
    let mut cut = k7();
    cut.state = stored(8, 3, &[1, 2, 3], (2, 1));
    let said_of_cut = said(&pyramid(&k7()), &cut, &Call::Unfold(0));
    says(&said_of_cut, "unfold", "the state, place 2: kept 2, by the numbers 3");
}
