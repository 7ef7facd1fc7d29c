//! The sweep judges no edge: "an empty loop always has two different faces" (request Seven of document 02). So it is the
//! removal kernel of the edges that it takes.

use crate::support::chance::on_random_pyramids;
use second::operation::{edge_of, Kind};
use second::pyramid::Pyramid;

/// All orders of the numbers below the bound.
fn permutations(bound: u32) -> Vec<Vec<u32>> {
    let mut orders = vec![vec![]];
    for last in 0..bound {
        orders = orders
            .iter()
            .flat_map(|order: &Vec<u32>| {
                (0..=order.len()).map(move |place| [&order[..place], &[last], &order[place..]].concat())
            })
            .collect();
    }
    orders
}

/// Every surviving empty loop, a whole piece or not, has two different faces. How many there are.
fn have_two_faces(pyramid: &Pyramid) -> usize {
    let map = pyramid.map();
    let loops = (0..map.edges()).filter(|&edge| map.survives(2 * edge) && map.empty_loop(edge));
    loops.inspect(|&e| assert!(!map.same_face(2 * e, 2 * e + 1), "{:?} {e}", map.table())).count()
}

/// The edges that the sweep took, given by hand as a kernel, leave what it left. How many they are.
fn by_hand(pyramid: &Pyramid) -> usize {
    let (mut swept, mut reduced) = (pyramid.clone(), pyramid.clone());
    let answer = swept.sweep();
    let numbers = &swept.history()[pyramid.history().len()..];
    let edges: Vec<u32> = numbers.iter().map(|&number| edge_of(number)).collect();
    assert_eq!(reduced.reduce(Kind::Remove, &edges), answer, "an empty kernel is refused as the sweep is");
    assert_eq!(reduced.state(), swept.state());
    assert_eq!(reduced.map().table(), swept.map().table());
    assert_eq!(reduced.history(), swept.history());
    edges.len()
}

#[test]
fn every_base_of_up_to_8_darts() {
    let (mut loops, mut taken) = (0, 0);
    for darts in [2, 4, 6, 8] {
        for table in permutations(darts) {
            let base = Pyramid::start(&table).expect("every permutation is a base");
            loops += have_two_faces(&base);
            taken += by_hand(&base);
        }
    }
    assert!(taken > 0 && taken < loops, "some are taken, and some are whole pieces or have their turn too early");
}

#[test]
fn random_pyramids() {
    on_random_pyramids(|pyramid, _| {
        have_two_faces(pyramid);
        by_hand(pyramid);
    });
}
