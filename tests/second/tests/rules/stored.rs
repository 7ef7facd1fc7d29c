//! Request Six of document 02: "Store both numbers in the state. Every operation and every undo keeps them right, and a state
//! whose numbers differ from the cycles is no pyramid. Refusals: 4 now covers that; the order is unchanged."

use crate::support::chance::on_random_pyramids;
use crate::support::costed::{measured, Costed};
use crate::support::lot::{Call, Lot, ON_A_STATE};
use crate::support::maps::{full_star, k7, numbers_of, triangle, T};
use crate::worked::K12;
use second::kept::Kept;
use second::operation::kind_of;
use second::operation::Kind::{self, Contract, Remove};
use second::plan::Grid;
use second::state::State;
use second::zones::run;

fn stores(lot: &Lot) -> (u32, u32) {
    (lot.state.vertices, lot.state.faces)
}

/// K5's pyramid: T with the kernel contract 0, 1.
fn k5() -> Lot {
    Lot::built(&T, &[(Contract, &[0, 1])])
}

#[test]
fn k1_k5_and_k7() {
    assert_eq!(stores(&triangle()), (4, 2), "K1");
    assert_eq!(stores(&k5()), (2, 2), "K5");
    assert_eq!(stores(&k7()), (2, 1), "K7");
    let mut lot = k5();
    lot.accept(&Call::Sweep);
    assert_eq!(stores(&lot), (2, 1), "K7 by a sweep");
    lot.accept(&Call::Undo);
    assert_eq!(stores(&lot), (2, 2));
    lot.accept(&Call::Undo);
    assert_eq!(stores(&lot), (4, 2));
    for (k, numbers) in [(0, (4, 2)), (1, (2, 2)), (2, (2, 1))] {
        let mut lot = k7();
        lot.accept(&Call::Unfold(k));
        assert_eq!(stores(&lot), numbers, "unfold {k}");
    }
    let mut lot = triangle();
    lot.accept(&Call::Read(K12.as_bytes()));
    assert_eq!(stores(&lot), (2, 1), "K12");
}

#[test]
fn a_vertex_too_many_or_a_face_for_a_vertex_is_4() {
    for (lot, (vertices, faces)) in [(triangle(), (4, 2)), (k5(), (2, 2)), (k7(), (2, 1)), (full_star(), (3, 1))] {
        let wrong = [
            (vertices + 1, faces),
            (vertices - 1, faces),
            (vertices, faces + 1),
            (vertices, faces - 1),
            (vertices + 1, faces - 1),
            (vertices - 1, faces + 1),
            (faces, vertices),
            (0, 0),
            (u32::MAX, faces),
            (vertices, u32::MAX),
            (vertices ^ 1 << 31, faces),
            (vertices, faces | 1 << 16),
        ];
        for (vertices, faces) in wrong.into_iter().filter(|&pair| pair != (vertices, faces)) {
            for call in ON_A_STATE {
                lot.storing(vertices, faces).refuse(&call, 4, 0, 4 * lot.darts());
            }
        }
        lot.clone().accept(&Call::Counts);
    }
}

#[test]
fn only_the_numbers_of_the_cycles_are_accepted() {
    for lot in [triangle(), k5(), k7()] {
        for (vertices, faces) in (0..10).flat_map(|vertices| (0..10).map(move |faces| (vertices, faces))) {
            let number = lot.storing(vertices, faces).call(&Call::Counts).answer.number;
            assert_eq!(number == 0, (vertices, faces) == stores(&lot), "{vertices} {faces}");
        }
    }
}

#[test]
fn wrong_numbers_come_after_1_and_2_and_before_all_else() {
    let wrong = k7().storing(3, 1);
    for call in ON_A_STATE {
        Lot { state: State { darts: 7, ..wrong.state }, ..wrong.clone() }.refuse(&call, 1, 0, 0);
        let mut short = wrong.clone();
        short.work.truncate(31);
        short.refuse(&call, 2, 0, 0);
    }
    // 12, 6, 5, then the kernel's edges; the writer's output.
    wrong.refuse(&Call::Unfold(3), 4, 0, 32);
    triangle().storing(5, 2).refuse(&Call::Undo, 4, 0, 32);
    for call in [Call::Sweep, Call::Reduce(Remove, &[]), Call::Reduce(Contract, &[64])] {
        full_star().storing(4, 1).refuse(&call, 4, 0, 4 * 132);
    }
    for call in [Call::Reduce(Remove, &[]), Call::Reduce(Remove, &[9]), Call::Reduce(Contract, &[3]), Call::Sweep] {
        wrong.refuse(&call, 4, 0, 32);
    }
    let mut short_output = wrong.clone();
    short_output.output.clear();
    short_output.refuse(&Call::Write, 4, 0, 32);
}

#[test]
fn a_refused_start_read_or_plan_stores_zeros() {
    let grid = |wales, courses| Grid { wales, courses };
    let calls = [
        Call::Start(7),
        Call::Start(10_000),
        Call::Start(8),
        Call::Read(b"numbers=3\n"),
        Call::Read(&K12.as_bytes()[1..]),
        Call::Flat(grid(1, 1), b"A"),
        Call::Flat(grid(2, 2), b"A"),
        Call::FlatAreas(grid(2, 2), b"ABBA"),
    ];
    for call in calls {
        let mut lot = k7();
        assert_ne!(lot.call(&call).answer.number, 0, "{call:?}");
        assert_eq!(lot.state, State::ZERO, "{call:?}");
    }
}

#[test]
fn any_other_refusal_hands_back_what_was_given() {
    // Also numbers that are not those of the cycles: `refuse` compares the whole state.
    k7().refuse(&Call::Unfold(3), 12, 2, 32);
    k7().refuse(&Call::Reduce(Remove, &[3]), 10, 0, 32);
    k7().storing(u32::MAX, 77).refuse(&Call::Undo, 4, 0, 32);
    let mut short = k7().storing(9, 8);
    short.table.truncate(7);
    short.refuse(&Call::Undo, 2, 0, 0);
}

#[test]
fn levels_that_are_kept_do_not_hide_wrong_numbers() {
    let mut kept = Kept::default();
    let mut lot = triangle();
    lot.call_keeping(&Call::Start(8), &mut kept);
    kept.drop_levels();
    lot = lot.storing(4, 3);
    assert_eq!(lot.call_keeping(&Call::Counts, &mut kept).answer.number, 4);
    assert!(kept.pyramid().is_none());
    lot = lot.storing(4, 2);
    assert_eq!(lot.call_keeping(&Call::Counts, &mut kept).answer.number, 0);
}

#[test]
fn the_calls_with_sheets_judge_and_store_them_too() {
    let mut k5 = Costed::started(&T, &[1, 2, 3, 4].map(|stitches| measured(stitches, 0.5)));
    assert_eq!(stores(&k5.lot), (4, 2));
    k5.accept(&Call::Reduce(Contract, &[0, 1]));
    assert_eq!(stores(&k5.lot), (2, 2));
    let on_a_state =
        [Call::Reduce(Contract, &[3]), Call::Reduce(Remove, &[2]), Call::Sweep, Call::Undo, Call::Unfold(9)];
    for (vertices, faces) in [(3, 2), (1, 2), (2, 3), (2, 1), (0, 0), (u32::MAX, 2), (2, u32::MAX)] {
        let mut wrong = k5.clone();
        wrong.lot = wrong.lot.storing(vertices, faces);
        for call in on_a_state {
            wrong.refuse(&call, 4, 0, 32);
        }
        wrong.sheet.truncate(7);
        wrong.refuse(&Call::Undo, 2, 0, 0);
    }
    let mut swept = k5.clone();
    swept.accept(&Call::Sweep);
    assert_eq!(stores(&swept.lot), (2, 1));
    swept.accept(&Call::Unfold(1));
    assert_eq!(stores(&swept.lot), (2, 2));
    swept.accept(&Call::Undo);
    assert_eq!(stores(&swept.lot), (4, 2));
    let mut refused = k5.clone();
    refused.lot.table[2] = 9;
    refused.call(&Call::Start(8));
    assert_eq!(refused.lot.state, State::ZERO);
}

/// "contract: V - 1; remove: F - 1" by mathematics; this program counts the cycles each time.
fn taken(history: &[u32], kind: Kind) -> u32 {
    history.iter().filter(|&&number| kind_of(number) == kind).count() as u32
}

#[test]
fn a_contraction_takes_a_vertex_and_a_removal_a_face() {
    on_random_pyramids(|pyramid, _| {
        let base = numbers_of(&pyramid.levels()[0].map);
        for level in pyramid.levels() {
            let done = &pyramid.history()[..level.operations];
            let numbers = (base.0 - taken(done, Contract), base.1 - taken(done, Remove));
            assert_eq!(numbers_of(&level.map), numbers);
        }
    });
}

#[test]
fn every_call_leaves_the_numbers_of_the_cycles() {
    on_random_pyramids(|pyramid, chance| {
        let mut lot = Lot::of(pyramid);
        let kind = chance.kind();
        let kernel = chance.kernel(pyramid, kind);
        let k = chance.below(pyramid.top() as u32 + 1);
        for call in [Call::Reduce(kind, &kernel), Call::Sweep, Call::Undo, Call::Unfold(k), Call::Undo] {
            let before = lot.clone();
            let left = lot.call(&call);
            match left.answer.number {
                0 => {
                    let map = second::decide::map_of(lot.entries(), lot.numbers()).expect("darts");
                    assert_eq!(stores(&lot), numbers_of(&map), "{call:?}");
                }
                _ => assert_eq!(lot.state, before.state, "{call:?}"),
            }
        }
    });
}

#[test]
fn either_number_one_off_is_4_on_random_pyramids() {
    on_random_pyramids(|pyramid, chance| {
        let right = Lot::of(pyramid);
        let (vertices, faces) = stores(&right);
        let call = ON_A_STATE[chance.below(7) as usize];
        for (vertices, faces) in
            [(vertices + 1, faces), (vertices - 1, faces), (vertices, faces + 1), (vertices, faces - 1)]
        {
            right.storing(vertices, faces).refuse(&call, 4, 0, 4 * right.darts());
        }
    });
}

#[test]
fn a_script_sets_them_and_shows_them() {
    let script = "lend 8 4 32\ntable 0 5 2 1 4 6 0 3 7\nstart 8\ncontract 0 1\nstored 3 2\ncounts\nshow\nundo\nstored 02 2\nundo\n\
                  state 8 0 0\nundo\nstored 4 2\nundo\nstored 4294967295 0\nshow\nstate 8 0 0 1\nshow\n";
    let printed = String::from_utf8(run(script.as_bytes())).expect("plain letters");
    let heads: Vec<&str> = printed.lines().map(|line| line.split(" ends=").next().expect("a head")).collect();
    let expected = [
        "answer=0 place=0 second=0 state=8 0 0 4 2",
        "answer=0 place=0 second=0 state=8 2 1 2 2",
        "answer=4 place=0 second=0 state=8 2 1 3 2",
        "state=8 2 1 3 2 2",
        "table=5 2 5 4 6 4 5 7",
        "history=1 5",
        "answer=4 place=0 second=0 state=8 2 1 3 2",
        "answer=0 place=0 second=0 state=8 0 0 4 2",
        "answer=4 place=0 second=0 state=8 0 0 0 0",
        "answer=12 place=0 second=0 state=8 0 0 4 2",
        "state=8 0 0 4294967295 0",
        "table=5 2 1 4 6 0 3 7",
        "history=",
        "state=8 0 0 0 0",
        "table=5 2 1 4 6 0 3 7",
        "history=",
    ];
    assert_eq!(heads, expected);
}
