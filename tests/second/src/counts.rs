//! Counts == "surviving darts, vertices, faces, and the Euler number"

use crate::map::{Dart, Map};

/// "Refused counts are four zeros", which is the default.
#[derive(Clone, Copy, Debug, Default, PartialEq, Eq)]
pub struct Counts {
    pub darts: u32,
    pub vertices: u32,
    pub faces: u32,
    /// "a signed number that may fall below zero"
    pub euler: i32,
}

/// The counts of one map, taken from its cycles.
pub fn counts(map: &Map) -> Counts {
    let darts = map.survivors().count() as u32;
    let vertices = cycles(map, |d| map.successor(d));
    let faces = cycles(map, |d| map.face_next(d));
    // "vertices minus edges plus faces"
    let euler = vertices as i32 - (darts / 2) as i32 + faces as i32;
    Counts { darts, vertices, faces, euler }
}

/// The number of cycles among the survivors: one for each survivor that no earlier walk has passed.
fn cycles(map: &Map, step: impl Fn(Dart) -> Dart) -> u32 {
    let mut passed = vec![false; map.table().len()];
    map.survivors().filter(|&d| walk(&mut passed, &step, d)).count() as u32
}

/// Walks d's cycle and marks it; false where it had been walked before.
fn walk(passed: &mut [bool], step: impl Fn(Dart) -> Dart, d: Dart) -> bool {
    let fresh = !passed[d as usize];
    let mut at = d;
    while !passed[at as usize] {
        passed[at as usize] = true;
        at = step(at);
    }
    fresh
}
