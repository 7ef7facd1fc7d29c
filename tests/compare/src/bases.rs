//! Bases: tables that are permutations
//!
//! any_order == the darts in any order, cut into vertices
//! grown     == edge added to edge: pending edges, empty loops, edges across a face, edges anywhere, new pieces
//! chain     == a path
//! renamed   == the same map under other edge numbers, with any dart of an edge as its even one

use crate::chance::Chance;
use second::map::partner;

/// The darts in any order, cut into cycles: after each dart one time in `cut_one_in`. A `cut_one_in` above D gives a
/// single vertex more often than not.
pub fn any_order(chance: &mut Chance, darts: u32, cut_one_in: u32) -> Vec<u32> {
    let mut order: Vec<u32> = (0..darts).collect();
    chance.shuffle(&mut order);
    let mut table = vec![0; order.len()];
    let mut first = 0;
    for i in 0..order.len() {
        let last = i + 1 == order.len() || chance.one_in(cut_one_in);
        let next = if last { first } else { i + 1 };
        table[order[i] as usize] = order[next];
        if last {
            first = i + 1;
        }
    }
    table
}

/// How an edge can be added to a map.
#[derive(Clone, Copy)]
pub enum Added {
    Pending,
    EmptyLoop,
    /// Between two corners of one face: a plane map stays plane.
    AcrossFace,
    /// Between any two corners: joins pieces, or adds a handle.
    Anywhere,
    NewPiece,
}

/// A map grown edge by edge, each added in one of these ways, and then renamed.
pub fn grown(chance: &mut Chance, darts: u32, ways: &[(u32, Added)]) -> Vec<u32> {
    let mut table = Vec::new();
    for p in (0..darts).step_by(2) {
        let way = if p == 0 { Added::NewPiece } else { chance.weighed(ways) };
        add(chance, &mut table, way);
    }
    renamed(chance, &table)
}

fn add(chance: &mut Chance, table: &mut Vec<u32>, way: Added) {
    let p = table.len() as u32;
    let q = p + 1;
    // p and q for themselves: a new piece as it stands, or put beside other darts.
    table.extend([p, q]);
    match way {
        Added::NewPiece => {
            if chance.one_in(2) {
                put_after(table, p, q);
            }
        }
        Added::Pending => put_after(table, chance.below(p), p),
        Added::EmptyLoop => {
            put_after(table, chance.below(p), p);
            put_after(table, p, q);
        }
        Added::AcrossFace => {
            let a = chance.below(p);
            let b = along_face(table, a, chance.below(7));
            put_after(table, a, p);
            put_after(table, b, q);
        }
        Added::Anywhere => {
            put_after(table, chance.below(p), p);
            put_after(table, chance.below(p), q);
        }
    }
}

/// Puts x, which leads to itself, after a.
pub fn put_after(table: &mut [u32], a: u32, x: u32) {
    table[x as usize] = table[a as usize];
    table[a as usize] = x;
}

/// The dart whose corner (the one between it and its successor) lies so many steps along the face of a's corner.
fn along_face(table: &[u32], a: u32, steps: u32) -> u32 {
    (0..steps).fold(a, |b, _| partner(table[b as usize]))
}

/// A path of so many edges.
pub fn chain(edges: u32) -> Vec<u32> {
    let mut table: Vec<u32> = (0..2 * edges).collect();
    for p in (1..2 * edges - 1).step_by(2) {
        table.swap(p as usize, p as usize + 1);
    }
    table
}

/// The same map with its edges numbered in another order, and some turned round.
pub fn renamed(chance: &mut Chance, base: &[u32]) -> Vec<u32> {
    let mut edges: Vec<u32> = (0..base.len() as u32 / 2).collect();
    chance.shuffle(&mut edges);
    let names: Vec<u32> = edges
        .iter()
        .flat_map(|edge| {
            let p = 2 * edge + chance.below(2);
            [p, partner(p)]
        })
        .collect();
    let mut table = vec![0; base.len()];
    for (dart, &successor) in base.iter().enumerate() {
        table[names[dart] as usize] = names[successor as usize];
    }
    table
}

/// A base of 2 to 40 darts.
pub fn small(chance: &mut Chance) -> Vec<u32> {
    let most = chance.pick(&[3, 10, 20]);
    let darts = 2 * chance.between(1, most);
    match chance.below(4) {
        0 => {
            let cut_one_in = chance.pick(&[2, 3, 5, 10, 1_000]);
            any_order(chance, darts, cut_one_in)
        }
        _ => {
            let ways = habits(chance);
            grown(chance, darts, &ways)
        }
    }
}

/// Weights that differ from map to map, so that some have hardly anything but loops, or pending edges, or pieces.
fn habits(chance: &mut Chance) -> [(u32, Added); 5] {
    let mut weight = |most: u32| chance.below(most) * chance.below(most);
    [
        (1 + weight(5), Added::Pending),
        (weight(4), Added::EmptyLoop),
        (weight(6), Added::AcrossFace),
        (weight(3), Added::Anywhere),
        (weight(3), Added::NewPiece),
    ]
}
