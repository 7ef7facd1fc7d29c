//! Kernels proposed for a map
//!
//! fine     == edges of which each is accepted at its turn
//! failing  == fine edges, then one that is refused, then anything
//! anything == edges without a thought
//! all      == every edge once

use crate::chance::Chance;
use second::kernel::judge;
use second::map::Map;
use second::operation::{operate, Kind};

/// Takes an edge off the map where it is accepted, and says whether it was.
fn taken(map: &mut Map, kind: Kind, edge: u32) -> bool {
    let fine = judge(map, kind, edge, 0).is_ok();
    if fine {
        operate(map, kind, edge);
    }
    fine
}

/// A kernel of at most so many edges; it is empty only where no edge is accepted.
pub fn fine(chance: &mut Chance, map: &Map, kind: Kind, most: usize) -> Vec<u32> {
    fine_among(all(chance, map), &mut map.clone(), kind, most)
}

/// A kernel of those edges that are accepted, one after another, at most so many.
pub fn fine_among(edges: Vec<u32>, map: &mut Map, kind: Kind, most: usize) -> Vec<u32> {
    edges.into_iter().filter(|&edge| taken(map, kind, edge)).take(most).collect()
}

/// A kernel with a refused edge. Each answer that an edge of this map can get comes as often as any other.
pub fn failing(chance: &mut Chance, map: &Map, kind: Kind) -> Vec<u32> {
    let mut map = map.clone();
    let before = chance.place(4);
    let mut kernel = fine_among(all(chance, &map), &mut map, kind, before);
    let mut refused: Vec<(u32, u32)> = [map.edges(), map.edges() + 1, u32::MAX].map(|edge| (7, edge)).to_vec();
    for edge in 0..map.edges() {
        if let Err(refusal) = judge(&map, kind, edge, 0) {
            refused.push((refusal.answer().number, edge));
        }
    }
    let mut numbers: Vec<u32> = refused.iter().map(|&(number, _)| number).collect();
    numbers.sort_unstable();
    numbers.dedup();
    let number = chance.pick(&numbers);
    refused.retain(|&(given, _)| given == number);
    kernel.push(chance.pick(&refused).1);
    let more = chance.below(3);
    kernel.extend(anything(chance, &map, more));
    kernel
}

/// So many edges, now and then one that is none.
pub fn anything(chance: &mut Chance, map: &Map, length: u32) -> Vec<u32> {
    (0..length).map(|_| chance.below(map.edges() + 1)).collect()
}

/// Every edge once, in any order.
pub fn all(chance: &mut Chance, map: &Map) -> Vec<u32> {
    let mut edges: Vec<u32> = (0..map.edges()).collect();
    chance.shuffle(&mut edges);
    edges
}
