//! "Successor at a level without unfolding": what a lookup finds, each of its refusals, and their order.

use std::panic::catch_unwind;

use crate::support::chance::on_random_pyramids;
use crate::support::ended::{ends_of, k12, Ended};
use crate::support::maps::{star, T};
use second::lookup::lookup;
use second::map::{partner, Map};
use second::operation::Kind::{Contract, Remove};
use second::pyramid::Pyramid;

#[test]
fn k12_at_its_base() {
    for (dart, &successor) in (0..).zip(&T) {
        k12().finds(0, dart, successor, 0);
    }
}

#[test]
fn k12_at_level_1() {
    // From 4 and 7 the base successors survive. From 5 to 0, over to 1, 2, over to 3, 4; from 6 to 3, over to 2, 1, over to
    // 0, 5.
    k12().finds(1, 4, 6, 0);
    k12().finds(1, 5, 4, 2);
    k12().finds(1, 6, 5, 2);
    k12().finds(1, 7, 7, 0);
}

#[test]
fn k12_at_level_2() {
    // From 6 past 3, 1, 5, 0, 2 and 4, twice the three operations, back to 6.
    k12().finds(2, 6, 6, 6);
    k12().finds(2, 7, 7, 0);
}

#[test]
fn k12_refused() {
    for dart in 0..4 {
        k12().refuse(8, 1, dart, 8, 0, 32);
    }
    for dart in 0..6 {
        k12().refuse(8, 2, dart, 8, 0, 32);
    }
    for dart in [8, 9, u32::MAX] {
        k12().refuse(8, 0, dart, 7, 0, 32);
        k12().refuse(8, 2, dart, 7, 0, 32);
    }
    for k in [3, 4, 64, 65, u32::MAX] {
        k12().refuse(8, k, 6, 12, 2, 32);
    }
}

#[test]
fn the_kind_of_an_edge_that_survives_is_not_looked_at() {
    let ended = Ended::new(&T, &[3, 3, 4, 1]);
    ended.finds(1, 6, 5, 2);
    ended.finds(2, 6, 6, 6);
    ended.refuse(8, 3, 6, 12, 2, 32);
    // A base with no level over it.
    for ends in [[0, 0, 0, 0], [1, 1, 1, 1], [0, 1, 1, 0]] {
        let ended = Ended::new(&T, &ends);
        ended.finds(0, 6, 3, 0);
        ended.refuse(8, 1, 6, 12, 0, 32);
    }
}

#[test]
fn answer_1_before_2() {
    let nothing_lent = Ended { table: vec![], ends: vec![], work: vec![] };
    for darts in [0, 1, 7, 9, 65_535, 65_537, 65_538, u32::MAX] {
        k12().refuse(darts, 0, 0, 1, 0, 0);
        nothing_lent.refuse(darts, 9, 9, 1, 0, 0);
    }
}

#[test]
fn answer_2_before_4() {
    for whole in [k12(), Ended::new(&T, &[3, 3, 6, 0]), Ended::new(&[0; 8], &[0; 4])] {
        let mut short = [whole.clone(), whole.clone(), whole];
        short[0].table.truncate(7);
        short[1].ends.truncate(3);
        short[2].work.truncate(31);
        for ended in short {
            ended.refuse(8, 0, 6, 2, 0, 0);
            ended.refuse(8, 3, 8, 2, 0, 0);
        }
    }
    k12().refuse(12, 0, 0, 2, 0, 0);
    k12().refuse(65_536, 0, 0, 2, 0, 0);
}

#[test]
fn exactly_what_is_needed_will_do() {
    let mut ended = k12();
    ended.table.truncate(8);
    ended.ends.truncate(4);
    ended.work.truncate(32);
    let (answer, found) = ended.call(8, 2, 6);
    assert_eq!((answer.number, found.dart, found.passed), (0, 6, 6));
    assert_eq!(ended.work, [0; 32]);
}

#[test]
fn what_is_past_d_is_not_looked_at() {
    // T's first edge is no map of its own; the first of this one is, and the second has a level that is none.
    k12().refuse(2, 0, 0, 4, 0, 8);
    let longer = Ended::new(&[1, 0, 9, 9], &[0, u32::MAX]);
    longer.is_no_pyramid();
    let mut first = longer.clone();
    let (answer, found) = first.call(2, 0, 1);
    assert_eq!((answer.number, found.dart, found.passed), (0, 0, 0));
    assert_eq!(first.work[..8], [0; 8]);
    assert_eq!((&first.table, &first.ends, &first.work[8..]), (&longer.table, &longer.ends, &longer.work[8..]));
    longer.refuse(2, 1, 0, 12, 0, 8);
}

#[test]
fn answer_4_before_12_before_7_before_8() {
    Ended::new(&T, &[3, 3, 6, 0]).refuse(8, 9, 9, 4, 0, 32);
    k12().refuse(8, 3, 8, 12, 2, 32);
    k12().refuse(8, 3, 0, 12, 2, 32);
    k12().refuse(8, 2, 8, 7, 0, 32);
    k12().refuse(8, 2, 0, 8, 0, 32);
}

/// The darts that document 003's walk comes to, once more: the gone ones that it passes, and the one where it ends. Of each
/// edge is given whether it is gone, and then whether it was contracted.
fn walk(base: &Map, gone: &[Option<bool>], dart: u32) -> Vec<u32> {
    let step = |&at: &u32| match gone[at as usize / 2] {
        None => None,
        Some(true) => Some(base.successor(partner(at))),
        Some(false) => Some(base.successor(at)),
    };
    std::iter::successors(Some(base.successor(dart)), step).collect()
}

#[test]
fn every_dart_at_every_level_of_random_pyramids() {
    on_random_pyramids(|pyramid, _| {
        let (ended, ends) = (Ended::of(pyramid), ends_of(pyramid));
        let darts = 2 * pyramid.map().edges();
        for (k, level) in (0..).zip(pyramid.levels()) {
            let gone: Vec<Option<bool>> =
                ends.iter().map(|&end| (end > 1 && end / 2 <= k).then_some(end % 2 == 1)).collect();
            for dart in 0..darts {
                if !level.map.survives(dart) {
                    ended.refuse(darts, k, dart, 8, 0, 4 * darts as usize);
                    continue;
                }
                let walk = walk(&pyramid.levels()[0].map, &gone, dart);
                let (last, before) = walk.split_last().expect("a first step");
                assert_eq!(*last, level.map.successor(dart), "it agrees with unfolding");
                assert!(before.len() <= 2 * level.operations, "\"never above twice the operations\"");
                ended.finds(k, dart, *last, before.len());
            }
        }
        ended.refuse(darts, pyramid.top() as u32 + 1, 0, 12, pyramid.top(), 4 * darts as usize);
    });
}

#[test]
fn sixty_four_levels() {
    // A vertex with 66 pending edges, of which one goes at each level.
    let mut ends: Vec<u32> = (1..=64).map(|level| 2 * level + 1).collect();
    ends.extend([0, 0]);
    let ended = Ended::new(&star(66), &ends);
    for k in 0..=64 {
        // From the last even dart past the gone ones, each with its partner.
        let next = if k == 64 { 128 } else { 2 * k };
        ended.finds(k, 130, next, 2 * k as usize);
    }
    ended.refuse(132, 65, 130, 12, 64, 4 * 132);
    let mut one_more = ends;
    one_more[64] = 2 * 65 + 1;
    Ended::new(&star(66), &one_more).is_no_pyramid();
}

#[test]
fn the_largest_map() {
    // A path, contracted but for its first edge: from the first edge's far end all along the path and back.
    let darts = 65_536;
    let mut path: Vec<u32> = (0..darts).collect();
    (1..darts as usize - 1).step_by(2).for_each(|p| path.swap(p, p + 1));
    let mut ends = vec![3; darts as usize / 2];
    ends[0] = 0;
    let ended = Ended::new(&path, &ends);
    ended.finds(0, 1, 2, 0);
    ended.finds(1, 0, 0, 0);
    ended.finds(1, 1, 1, darts as usize - 2);
    ended.refuse(darts, 1, 65_535, 8, 0, 4 * 65_536);
    ended.refuse(darts, 1, 65_536, 7, 0, 4 * 65_536);
    ended.refuse(darts, 2, 1, 12, 1, 4 * 65_536);
    ends[0] = 3;
    Ended::new(&path, &ends).is_no_pyramid();
}

/// What the program says when it looks a dart up with ends that are not those of the pyramid built.
fn said(pyramid: &Pyramid, ends: &[u32], k: u32, dart: u32) -> String {
    let stop = catch_unwind(|| lookup(pyramid, ends, k, dart));
    *stop.expect_err("the lookup goes through").downcast::<String>().expect("a message")
}

#[test]
fn a_difference_stops_the_program() {
    let mut pyramid = Pyramid::start(&T).expect("a base");
    pyramid.reduce(Contract, &[0, 1]).expect("K5");
    pyramid.reduce(Remove, &[2]).expect("K7");
    let says = |ends: &[u32], k, dart, difference: &str| {
        let expected = format!("in successor the level stored and the walk differ: {difference}");
        assert_eq!(said(&pyramid, ends, k, dart), expected);
    };
    // Level 2's edge ends earlier; an edge is of the other kind; the last edge is gone too, so that no dart is left.
    says(&[3, 3, 2, 0], 1, 6, "dart 6 at level 1: the walk passes more than 4 gone darts");
    says(&[3, 2, 4, 0], 1, 6, "dart 6 at level 1: stored 5, by the walk 4");
    says(&[3, 3, 4, 4], 2, 6, "dart 6 at level 2: the walk passes more than 6 gone darts");
    assert_eq!(lookup(&pyramid, &[3, 3, 4, 0], 2, 6).map(|found| found.passed), Ok(6));
}
