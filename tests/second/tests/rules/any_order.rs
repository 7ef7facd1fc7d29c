//! Random pyramids: any order and any cut of the operations, the sweep, and the Euler number.

use crate::support::chance::{on_random_pyramids, Chance};
use crate::support::lot::{Call, Lot};
use second::counts::counts;
use second::operation::{edge_of, kind_of, Kind};
use second::pyramid::Pyramid;

/// A list of operations cut into kernels of one kind, with more cuts by chance.
fn cut(operations: &[(Kind, u32)], chance: &mut Chance) -> Vec<(Kind, Vec<u32>)> {
    let mut kernels: Vec<(Kind, Vec<u32>)> = Vec::new();
    for &(kind, edge) in operations {
        match kernels.last_mut() {
            Some((last, edges)) if *last == kind && chance.coin() => edges.push(edge),
            _ => kernels.push((kind, vec![edge])),
        }
    }
    kernels
}

#[test]
fn any_order_and_any_cut_is_accepted_and_survivors_agree() {
    on_random_pyramids(|pyramid, chance| {
        let mut operations: Vec<(Kind, u32)> = pyramid.history().iter().map(|&n| (kind_of(n), edge_of(n))).collect();
        chance.shuffle(&mut operations);
        let mut other = Pyramid::start(pyramid.levels()[0].map.table()).expect("a base");
        for (kind, edges) in cut(&operations, chance) {
            other.reduce(kind, &edges).expect("any order is accepted");
        }
        assert!(other.map().survivors().eq(pyramid.map().survivors()));
        for d in pyramid.map().survivors() {
            assert_eq!(other.map().successor(d), pyramid.map().successor(d));
        }
    });
}

#[test]
fn a_sweep_is_the_removal_kernel_of_its_edges_and_never_answers_10() {
    on_random_pyramids(|pyramid, _| {
        let mut swept = Lot::of(pyramid);
        let number = swept.call(&Call::Sweep).answer.number;
        assert!(number == 0 || number == 5);
        if number == 0 {
            let edges: Vec<u32> = swept.numbers()[pyramid.history().len()..].iter().map(|&n| edge_of(n)).collect();
            assert!(edges.is_sorted());
            let mut reduced = Lot::of(pyramid);
            reduced.accept(&Call::Reduce(Kind::Remove, &edges));
            assert_eq!(swept, reduced);
        }
    });
}

#[test]
fn the_euler_number_stays() {
    on_random_pyramids(|pyramid, _| {
        let base = counts(&pyramid.levels()[0].map);
        for level in &pyramid.levels()[1..] {
            let counted = counts(&level.map);
            let done = &pyramid.history()[..level.operations];
            let contracted = done.iter().filter(|&&number| kind_of(number) == Kind::Contract).count() as u32;
            assert_eq!(counted.euler, base.euler);
            assert_eq!(counted.vertices, base.vertices - contracted);
            assert_eq!(counted.faces, base.faces - (done.len() as u32 - contracted));
        }
    });
}
