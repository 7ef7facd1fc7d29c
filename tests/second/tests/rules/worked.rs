//! "Worked by hand": K1 to K12.

use crate::support::lot::{Call, Lot};
use crate::support::maps::{k7, triangle, T};
use second::counts::Counts;
use second::operation::Kind::{Contract, Remove};

/// K12's file.
pub const K12: &str =
    "numbers=0\ndarts=8\nlevels=2\nkernel=contract 2\nkernel=remove 1\npair=4 2\npair=4 5\npair=5 6\npair=6 7\n";

/// The same with `numbers=1`.
pub const K12_FROM_ONE: &str =
    "numbers=1\ndarts=8\nlevels=2\nkernel=contract 2\nkernel=remove 1\npair=5 3\npair=5 6\npair=6 7\npair=7 8\n";

/// What `levels` prints for either.
pub const K12_LEVELS: &str = "level=0 darts=8 vertices=4 faces=2 euler=2\n\
    level=1 darts=4 vertices=2 faces=2 euler=2\n\
    level=2 darts=2 vertices=2 faces=1 euler=2\n\
    end=ok\n";

fn holds(lot: &Lot, table: &[u32], history: &[u32]) {
    assert_eq!(lot.entries(), table);
    assert_eq!(lot.numbers(), history);
}

#[test]
fn k1_counts() {
    let left = triangle().accept(&Call::Counts);
    assert_eq!(left.counts, Counts { darts: 8, vertices: 4, faces: 2, euler: 2 });
}

#[test]
fn k2_remove_3() {
    triangle().refuse(&Call::Reduce(Remove, &[3]), 10, 0, 32);
}

#[test]
fn k3_contract_3() {
    holds(&Lot::built(&T, &[(Contract, &[3])]), &[5, 2, 1, 4, 3, 0, 3, 7], &[13]);
}

#[test]
fn k4_remove_0_then_1() {
    let lot = Lot::built(&T, &[(Remove, &[0])]);
    holds(&lot, &[5, 2, 2, 4, 6, 5, 3, 7], &[0]);
    lot.refuse(&Call::Reduce(Remove, &[1]), 10, 0, 32);
    triangle().refuse(&Call::Reduce(Remove, &[0, 1]), 10, 1, 32);
}

#[test]
fn k5_contract_0_1() {
    holds(&Lot::built(&T, &[(Contract, &[0, 1])]), &[5, 2, 5, 4, 6, 4, 5, 7], &[1, 5]);
}

#[test]
fn k6_contract_1_0() {
    let lot = Lot::built(&T, &[(Contract, &[1, 0])]);
    holds(&lot, &[5, 4, 1, 4, 6, 4, 5, 7], &[5, 1]);
    assert_eq!(lot.entries()[4..], Lot::built(&T, &[(Contract, &[0, 1])]).entries()[4..]);
}

#[test]
fn k7_remove_2_turns_round() {
    Lot::built(&T, &[(Contract, &[0, 1])]).refuse(&Call::Reduce(Contract, &[2]), 9, 0, 32);
    holds(&k7(), &[5, 2, 5, 4, 6, 4, 6, 7], &[1, 5, 10]);
}

#[test]
fn k8_a_whole_piece() {
    k7().refuse(&Call::Reduce(Contract, &[3]), 11, 0, 32);
    k7().refuse(&Call::Reduce(Remove, &[3]), 10, 0, 32);
}

#[test]
fn k9_the_kind_is_stored() {
    let removed = Lot::built(&[2, 4, 1, 3, 0, 5], &[(Remove, &[0])]);
    let contracted = Lot::built(&[2, 4, 0, 3, 1, 5], &[(Contract, &[0])]);
    holds(&removed, &[2, 4, 4, 3, 2, 5], &[0]);
    holds(&contracted, &[2, 4, 4, 3, 2, 5], &[1]);
}

#[test]
fn k10_two_darts() {
    let mut lot = Lot::built(&[1, 0], &[]);
    lot.refuse(&Call::Reduce(Remove, &[0]), 11, 0, 8);
    lot.refuse(&Call::Reduce(Contract, &[0]), 9, 0, 8);
    lot.table[1] = 1;
    lot.refuse_start(2, 1, 0);
}

#[test]
fn k11_an_edge_twice() {
    triangle().refuse(&Call::Reduce(Remove, &[0, 0]), 8, 1, 32);
}

#[test]
fn k12_written() {
    let mut lot = k7();
    let left = lot.accept(&Call::Write);
    assert_eq!(left.answer.place, K12.len());
    assert_eq!(&lot.output[..K12.len()], K12.as_bytes());
}

#[test]
fn k12_read_from_either_flag() {
    for file in [K12, K12_FROM_ONE] {
        let mut lot = triangle();
        lot.accept(&Call::Read(file.as_bytes()));
        holds(&lot, &[4, 2, 4, 5, 5, 6, 6, 7], &[1, 5, 8]);
        assert_eq!(lot.state.ends[..3], [2, 3, 0]);
    }
}

#[test]
fn k12_printed() {
    assert_eq!(second::levels::report(K12.as_bytes()), K12_LEVELS);
    assert_eq!(second::levels::report(K12_FROM_ONE.as_bytes()), K12_LEVELS);
}
