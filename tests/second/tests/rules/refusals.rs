//! Each answer from each call that can give it, with its place and what is left; then the order of the answers. Answer 3
//! is in `culprits`.

use crate::support::lot::{state, Call, Lot, ON_A_STATE};
use crate::support::maps::{full_star, k7, triangle, T};
use crate::worked::K12;
use second::operation::Kind::{Contract, Remove};
use second::state::State;

const BAD_DARTS: [u32; 7] = [0, 1, 7, 65_535, 65_537, 65_538, u32::MAX];

/// A lot with nothing lent at all.
fn nothing_lent(state: State) -> Lot {
    Lot { state, table: vec![], history: vec![], work: vec![], output: vec![] }
}

/// The lot once with too short a table, once with too short a history, once with too short a work area.
fn short_by_one(lot: &Lot, darts: usize) -> [Lot; 3] {
    let mut lots = [lot.clone(), lot.clone(), lot.clone()];
    lots[0].table.truncate(darts - 1);
    lots[1].history.truncate(darts / 2 - 1);
    lots[2].work.truncate(4 * darts - 1);
    lots
}

/// T with one entry altered: no permutation, no pyramid.
fn altered() -> Lot {
    let mut lot = triangle();
    lot.table[2] = 5;
    lot
}

#[test]
fn answer_1_from_every_call_before_2() {
    for darts in BAD_DARTS {
        nothing_lent(k7().state).refuse(&Call::Start(darts), 1, 0, 0);
        triangle().refuse(&Call::Start(darts), 1, 0, 0);
        let changed = State { darts, ..k7().state };
        for call in ON_A_STATE {
            nothing_lent(changed).refuse(&call, 1, 0, 0);
            Lot { state: changed, ..k7() }.refuse(&call, 1, 0, 0);
        }
    }
}

#[test]
fn answer_1_from_the_reader() {
    for darts in [0, 1, 7, 65_537, 65_538, 99_999] {
        let file = format!("numbers=0\ndarts={darts}\n");
        nothing_lent(State::ZERO).refuse(&Call::Read(file.as_bytes()), 1, 0, 0);
    }
}

#[test]
fn answer_2_from_every_call_before_3_and_4() {
    for lot in short_by_one(&k7(), 8).into_iter().chain(short_by_one(&altered(), 8)) {
        lot.refuse(&Call::Start(8), 2, 0, 0);
        lot.refuse(&Call::Read(K12.as_bytes()), 2, 0, 0);
        for call in ON_A_STATE {
            lot.refuse(&call, 2, 0, 0);
        }
    }
}

#[test]
fn answer_2_for_the_output_tells_the_bytes_needed_and_clears() {
    for length in [0, 1, K12.len() - 1] {
        let mut lot = k7();
        lot.output.truncate(length);
        lot.refuse(&Call::Write, 2, K12.len(), 32);
    }
}

#[test]
fn answer_4_comes_before_the_output_length() {
    let mut lot = altered();
    lot.output.clear();
    lot.refuse(&Call::Write, 4, 0, 32);
}

#[test]
fn answer_4_from_every_call_on_a_state() {
    for call in ON_A_STATE {
        altered().refuse(&call, 4, 0, 32);
    }
}

#[test]
fn answer_4_comes_before_12_6_and_5() {
    let mut full = full_star();
    full.table[0] = 0;
    for call in [Call::Unfold(65), Call::Reduce(Remove, &[]), Call::Sweep] {
        full.refuse(&call, 4, 0, 4 * 132);
    }
    for call in [Call::Undo, Call::Unfold(9), Call::Reduce(Remove, &[]), Call::Sweep] {
        altered().refuse(&call, 4, 0, 32);
    }
}

#[test]
fn answer_5_for_an_empty_kernel() {
    for call in [Call::Reduce(Contract, &[]), Call::Reduce(Remove, &[]), Call::Sweep] {
        triangle().refuse(&call, 5, 0, 32);
    }
}

#[test]
fn a_sweep_leaves_whole_pieces() {
    // Each edge is an empty loop and a whole piece.
    Lot::built(&[1, 0, 3, 2], &[]).refuse(&Call::Sweep, 5, 0, 16);
}

#[test]
fn answer_6_comes_before_5_and_the_edges() {
    let full = full_star();
    for call in [Call::Reduce(Contract, &[64]), Call::Reduce(Remove, &[]), Call::Reduce(Remove, &[999]), Call::Sweep] {
        full.refuse(&call, 6, 0, 4 * 132);
    }
}

#[test]
fn answer_12_tells_the_top_level() {
    triangle().refuse(&Call::Undo, 12, 0, 32);
    triangle().refuse(&Call::Unfold(1), 12, 0, 32);
    k7().refuse(&Call::Unfold(3), 12, 2, 32);
    k7().refuse(&Call::Unfold(u32::MAX), 12, 2, 32);
    full_star().refuse(&Call::Unfold(65), 12, 64, 4 * 132);
}

#[test]
fn answers_7_to_11_at_the_first_failing_edge() {
    let contracted = Lot::built(&T, &[(Contract, &[0, 1])]);
    let rows: [(Lot, Call, u32, usize); 14] = [
        (triangle(), Call::Reduce(Contract, &[4]), 7, 0),
        (triangle(), Call::Reduce(Remove, &[0, u32::MAX, 0]), 7, 1),
        (triangle(), Call::Reduce(Contract, &[0x8000_0000]), 7, 0),
        (triangle(), Call::Reduce(Contract, &[1, 1, 4]), 8, 1),
        (k7(), Call::Reduce(Remove, &[2]), 8, 0),
        (k7(), Call::Reduce(Contract, &[0]), 8, 0),
        (triangle(), Call::Reduce(Contract, &[3, 0, 1, 2]), 9, 3),
        (contracted.clone(), Call::Reduce(Contract, &[2]), 9, 0),
        (triangle(), Call::Reduce(Remove, &[0, 3, 4]), 10, 1),
        (triangle(), Call::Reduce(Remove, &[3]), 10, 0),
        (k7(), Call::Reduce(Contract, &[3]), 11, 0),
        (contracted.clone(), Call::Reduce(Remove, &[2, 3]), 10, 1),
        (Lot::built(&[1, 0], &[]), Call::Reduce(Remove, &[0]), 11, 0),
        (Lot::built(&[0, 1], &[]), Call::Reduce(Contract, &[0]), 11, 0),
    ];
    for (lot, call, number, place) in rows {
        lot.refuse(&call, number, place, 4 * lot.darts());
    }
}

#[test]
fn parallel_edges_are_contracted_one_not_both() {
    // Two vertices joined by two edges, and a pending edge so that nothing is a whole piece.
    let base = Lot::built(&[2, 3, 4, 1, 0, 5], &[]);
    for edges in [[0], [1]] {
        base.clone().accept(&Call::Reduce(Contract, &edges));
    }
    base.refuse(&Call::Reduce(Contract, &[0, 1]), 9, 1, 24);
    base.refuse(&Call::Reduce(Contract, &[1, 0]), 9, 1, 24);
}

#[test]
fn a_kernel_longer_than_the_edges_is_judged_edge_by_edge() {
    triangle().refuse(&Call::Reduce(Contract, &[0, 1, 3, 0, 0, 0, 0]), 8, 3, 32);
}

#[test]
fn an_empty_state_is_refused_as_no_dart() {
    for call in ON_A_STATE {
        Lot::new(state(0, 0, &[]), &T, &[]).refuse(&call, 1, 0, 0);
    }
}
