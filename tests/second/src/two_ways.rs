//! agree == the levels that were kept are those that state, table and history give by themselves
//!
//! The numbers give each level twice: going down, where the present table is undone operation by operation, and going
//! up, where the kernels are done again on the base that undoing everything leads to (`decide`). A difference is a
//! fault of this program: it stops with a message that names the call and what differs.

use crate::decide::{map_of, pyramid_of};
use crate::lent::Lent;
use crate::map::{Dart, Map};
use crate::operation::undo;
use crate::pyramid::Pyramid;
use crate::state::State;

/// Stops the program where the two ways differ, "before" a call or "after" it. The lengths lent were judged.
pub fn agree(when: &str, call: &str, kept: &Pyramid, state: &State, lent: &Lent) {
    if let Err(difference) = compared(kept, state, lent) {
        panic!("{when} {call} the levels kept and the numbers differ: {difference}");
    }
}

fn compared(kept: &Pyramid, state: &State, lent: &Lent) -> Result<(), String> {
    same("the state", &numbers(&kept.state()), &numbers(state))?;
    let (table, history) = (lent.entries(state.darts), &lent.history[..state.operations as usize]);
    same("the history", kept.history(), history)?;
    going_down(kept, table, history)?;
    going_up(kept, state, table, history)
}

/// Each level against what undoing leads to: the top as it stands, then one kernel less each time.
fn going_down(kept: &Pyramid, table: &[u32], history: &[u32]) -> Result<(), String> {
    let mut map = map_of(table, history).ok_or("table or history hold a number that is no dart's")?;
    same_map(kept.top(), "as it stands", kept.map(), &map)?;
    for (number, (level, kernel)) in kept.levels().iter().zip(kept.kernels()).enumerate().rev() {
        for &operation in kernel.iter().rev() {
            undo(&mut map, operation).ok_or_else(|| format!("history number {operation} cannot be undone"))?;
        }
        same_map(number, "undone", &level.map, &map)?;
    }
    Ok(())
}

/// Each level against what the kernels give when they are done again.
fn going_up(kept: &Pyramid, state: &State, table: &[u32], history: &[u32]) -> Result<(), String> {
    let derived = pyramid_of(state, table, history).ok_or("the numbers are no pyramid")?;
    for (number, (kept, derived)) in kept.levels().iter().zip(derived.levels()).enumerate() {
        same_map(number, "done again", &kept.map, &derived.map)?;
    }
    Ok(())
}

/// D, the number of operations, the number of levels, the numbers of vertices and faces, and the level ends.
fn numbers(state: &State) -> Vec<u32> {
    let State { darts, operations, levels, vertices, faces, ends } = *state;
    [[darts, operations, levels, vertices, faces].as_slice(), &ends].concat()
}

/// Every entry, gone darts too, and the surviving darts.
fn same_map(level: usize, way: &str, kept: &Map, derived: &Map) -> Result<(), String> {
    let survivors = |map: &Map| map.survivors().collect::<Vec<Dart>>();
    let named = |difference| format!("level {level} {way}: {difference}");
    same("the table", kept.table(), derived.table()).map_err(named)?;
    same("the survivors", &survivors(kept), &survivors(derived)).map_err(named)
}

/// The first place where two lists differ, or else their lengths.
fn same(name: &str, kept: &[u32], derived: &[u32]) -> Result<(), String> {
    match kept.iter().zip(derived).position(|(a, b)| a != b) {
        Some(place) => Err(format!("{name}, place {place}: kept {}, by the numbers {}", kept[place], derived[place])),
        None if kept.len() != derived.len() => {
            Err(format!("{name}, its length: kept {}, by the numbers {}", kept.len(), derived.len()))
        }
        None => Ok(()),
    }
}
