//! "4 if the table and ends come from no pyramid".

use std::collections::HashSet;

use crate::every_small::lists;
use crate::support::chance::on_random_pyramids;
use crate::support::ended::{end, ends_of, k12, Ended};
use crate::support::maps::T;
use second::ends::{pyramid_of, Built};
use second::operation::Kind;
use second::pyramid::Pyramid;

#[test]
fn a_table_that_is_no_permutation() {
    for (dart, successor) in [(0, 2), (7, 8), (7, u32::MAX), (3, 65_536), (1, 1)] {
        let mut ended = k12();
        ended.table[dart] = successor;
        ended.is_no_pyramid();
        ended.ends[..4].fill(0);
        ended.is_no_pyramid();
    }
    // The table of K12's top, where gone darts keep old entries.
    Ended::new(&[5, 2, 5, 4, 6, 4, 6, 7], &[3, 3, 4, 0]).is_no_pyramid();
}

#[test]
fn levels_with_a_gap() {
    for ends in [[3, 3, 6, 0], [5, 5, 6, 0], [0, 0, 4, 0], [3, 0, 0, 7], [3, 3, 128, 0]] {
        Ended::new(&T, &ends).is_no_pyramid();
    }
}

#[test]
fn two_kinds_in_one_level() {
    // Each of the two kinds alone, and each in a level of its own, would be fine.
    Ended::new(&T, &[3, 2, 0, 0]).is_no_pyramid();
    Ended::new(&T, &[2, 3, 0, 0]).is_no_pyramid();
    Ended::new(&T, &[3, 3, 2, 0]).is_no_pyramid();
    Ended::new(&T, &[3, 0, 0, 0]).finds(0, 0, 5, 0);
    Ended::new(&T, &[3, 4, 0, 0]).finds(0, 0, 5, 0);
}

#[test]
fn levels_over_64() {
    for end in [130, 131, 132, 1 << 16, 1 << 31, u32::MAX - 1, u32::MAX] {
        for place in 0..4 {
            let mut ended = k12();
            ended.ends[place] = end;
            ended.is_no_pyramid();
        }
    }
}

#[test]
fn edges_that_a_kernel_refuses() {
    // Two parallel edges: "each be contracted, not both"; in one level, and in two.
    let parallel = [2, 3, 0, 1];
    Ended::new(&parallel, &[3, 0]).finds(1, 2, 3, 1);
    Ended::new(&parallel, &[3, 3]).is_no_pyramid();
    Ended::new(&parallel, &[3, 5]).is_no_pyramid();
    // The same in T, where the pending edge is left: the triangle's third edge.
    Ended::new(&T, &[3, 3, 3, 0]).is_no_pyramid();
    Ended::new(&T, &[3, 3, 5, 0]).is_no_pyramid();
    // A piece used up: K8, and one edge alone.
    Ended::new(&T, &[3, 3, 4, 7]).is_no_pyramid();
    Ended::new(&T, &[3, 3, 4, 6]).is_no_pyramid();
    for (table, end) in [([0, 1], 2), ([0, 1], 3), ([1, 0], 2), ([1, 0], 3)] {
        Ended::new(&table, &[end]).is_no_pyramid();
    }
    // K2: one face on both sides.
    Ended::new(&T, &[0, 0, 0, 2]).is_no_pyramid();
}

/// Puts down the ends of the pyramid and of all that follow from it by any kernels, in any order of their edges.
fn follow(pyramid: &Pyramid, found: &mut HashSet<Vec<u32>>) {
    found.insert(ends_of(pyramid));
    for kind in [Kind::Contract, Kind::Remove] {
        longer(pyramid, kind, &mut Vec::new(), found);
    }
}

/// The same for the kernels of this kind that begin with these edges and go on.
fn longer(pyramid: &Pyramid, kind: Kind, kernel: &mut Vec<u32>, found: &mut HashSet<Vec<u32>>) {
    for edge in 0..pyramid.map().edges() {
        kernel.push(edge);
        let mut next = pyramid.clone();
        if next.reduce(kind, kernel).is_ok() {
            follow(&next, found);
            longer(pyramid, kind, kernel, found);
        }
        kernel.pop();
    }
}

/// With every table of so many darts, every list of ends with levels up to one for each edge, and one more, must be taken
/// for a pyramid's exactly where some kernels were accepted that give it.
fn compare(darts: u32) {
    let edges = darts as usize / 2;
    let all_ends = lists(edges, end(edges + 2, Kind::Remove));
    let mut accepted = 0;
    for table in lists(edges * 2, darts) {
        let mut found = HashSet::new();
        if let Ok(base) = Pyramid::start(&table) {
            follow(&base, &mut found);
        }
        for ends in &all_ends {
            let survivors_are_0: Vec<u32> = ends.iter().map(|&end| if end == 1 { 0 } else { end }).collect();
            let is_pyramid = pyramid_of(&table, ends).is_some();
            assert_eq!(is_pyramid, found.contains(&survivors_are_0), "{table:?} {ends:?}");
            accepted += usize::from(is_pyramid && survivors_are_0 == *ends);
        }
        assert!(found.iter().all(|ends| all_ends.contains(ends)), "none has a higher level");
    }
    assert!(accepted > 0);
}

#[test]
fn every_table_and_ends_of_two_darts() {
    compare(2);
}

#[test]
fn every_table_and_ends_of_four_darts() {
    compare(4);
}

/// Every base of six darts; other tables are tried above.
#[test]
fn every_base_and_ends_of_six_darts() {
    let all_ends = lists(3, 10);
    for table in lists(6, 6) {
        let Ok(base) = Pyramid::start(&table) else { continue };
        let mut found = HashSet::new();
        follow(&base, &mut found);
        let accepted = all_ends.iter().filter(|ends| !ends.contains(&1) && pyramid_of(&table, ends).is_some());
        assert!(accepted.clone().all(|ends| found.contains(ends)), "{table:?}");
        assert_eq!(accepted.count(), found.len(), "{table:?}");
    }
}

#[test]
fn levels_exchanged_give_the_same_successors_at_the_top() {
    // "any order and any cut" of a pyramid's operations is accepted, so that its kernels may come in any order.
    on_random_pyramids(|pyramid, chance| {
        let top = pyramid.top();
        let mut order: Vec<usize> = (1..=top).collect();
        chance.shuffle(&mut order);
        let exchanged = |end: u32| match end / 2 {
            0 => chance.below(2),
            level => 2 * order[level as usize - 1] as u32 + end % 2,
        };
        let ends: Vec<u32> = ends_of(pyramid).into_iter().map(exchanged).collect();
        let other = pyramid_of(pyramid.levels()[0].map.table(), &ends).expect("a pyramid");
        assert_eq!(other.top(), top);
        assert!(other.map().survivors().eq(pyramid.map().survivors()));
        assert!(other.map().survivors().all(|d| other.map().successor(d) == pyramid.map().successor(d)));
    });
}

#[test]
fn what_was_built_last_is_not_taken_for_something_else() {
    on_random_pyramids(|pyramid, chance| {
        let mut ended = Ended::of(pyramid);
        let darts = ended.table.len() as u32 - 3;
        let mut built = Built::default();
        for _ in 0..6 {
            let (edge, dart) = (chance.below(darts / 2) as usize, chance.below(darts) as usize);
            match chance.below(6) {
                0 => ended.ends[edge] ^= 1,
                1 => ended.ends[edge] = chance.below(6),
                2 => ended.table.swap(dart, edge),
                3 => ended.table[dart] = chance.below(darts + 1),
                _ => (),
            }
            let stated = if chance.below(8) == 0 { 2 * (1 + chance.below(darts / 2)) } else { darts };
            let (k, dart) = (chance.below(3), chance.below(darts));
            assert_eq!(ended.call_on(stated, k, dart, &mut built), ended.clone().call(stated, k, dart));
        }
    });
    // A change that is undone, and nothing changed.
    let mut ended = k12();
    let mut built = Built::default();
    for (end, answer) in [(4, 0), (6, 4), (4, 0), (4, 0)] {
        ended.ends[2] = end;
        assert_eq!(ended.call_on(8, 2, 6, &mut built).0.number, answer);
    }
}
