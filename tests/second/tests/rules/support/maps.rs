//! Maps that tests share.

use super::lot::Lot;
use second::map::{Dart, Map};
use second::operation::Kind;

/// Base T of document 01: "a triangle with one pending edge".
pub const T: [u32; 8] = [5, 2, 1, 4, 6, 0, 3, 7];

/// T as a base.
pub fn triangle() -> Lot {
    Lot::built(&T, &[])
}

/// K7's pyramid: T with the kernels contract 0, 1 and remove 2.
pub fn k7() -> Lot {
    Lot::built(&T, &[(Kind::Contract, &[0, 1]), (Kind::Remove, &[2])])
}

/// A vertex with so many pending edges: edge e has its even dart in the middle.
pub fn star(edges: u32) -> Vec<u32> {
    (0..edges).flat_map(|e| [2 * ((e + 1) % edges), 2 * e + 1]).collect()
}

/// A star with 64 levels, each of them one contraction.
pub fn full_star() -> Lot {
    let kernels: Vec<[u32; 1]> = (0..64).map(|e| [e]).collect();
    let kernels: Vec<(Kind, &[u32])> = kernels.iter().map(|edges| (Kind::Contract, edges.as_slice())).collect();
    Lot::built(&star(66), &kernels)
}

/// The vertices and faces of a map, counted in another way: by the darts that are the lowest of their cycles.
pub fn numbers_of(map: &Map) -> (u32, u32) {
    (lowest_ones(map, |d| map.successor(d)), lowest_ones(map, |d| map.face_next(d)))
}

fn lowest_ones(map: &Map, step: impl Fn(Dart) -> Dart) -> u32 {
    map.survivors().filter(|&d| cycle(&step, d).iter().all(|&other| d <= other)).count() as u32
}

/// Every dart on the cycle of d.
pub fn cycle(step: impl Fn(Dart) -> Dart, d: Dart) -> Vec<Dart> {
    std::iter::successors(Some(d), |&at| Some(step(at)).filter(|&next| next != d)).collect()
}
