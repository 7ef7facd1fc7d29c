//! pyramid_of == the pyramid that a state, its table and its history come from, if there is one
//! levels_of  == the same whatever numbers of vertices and faces the state stores: a file states none
//! map_of     == the map that a table and a history show, if their numbers are darts
//!
//! "A state with its table and history is a pyramid when some base and some kernels, accepted one after another, give
//! exactly this state, this table (gone darts too) and these history numbers." Undo returns every entry, so only the
//! base that undo gives can fit. It is judged by doing everything again. "a state whose numbers differ from the cycles is no
//! pyramid": the numbers of the pyramid found are counted from its cycles and compared.

use crate::map::{partner, Map};
use crate::operation::{dart_of, edge_of, kind_of, undo, Kind};
use crate::pyramid::Pyramid;
use crate::state::State;

pub fn pyramid_of(state: &State, table: &[u32], history: &[u32]) -> Option<Pyramid> {
    levels_of(state, table, history).filter(|pyramid| stores(state, pyramid))
}

/// Are the numbers that a state stores those of its pyramid's cycles?
fn stores(state: &State, pyramid: &Pyramid) -> bool {
    let counted = pyramid.state();
    state.vertices == counted.vertices && state.faces == counted.faces
}

/// The table is lent with D numbers, the history with the operations' numbers or more: what is more is not looked at.
pub fn levels_of(state: &State, table: &[u32], history: &[u32]) -> Option<Pyramid> {
    // An edge goes at most once: more operations than edges are no pyramid, however long the history.
    if state.operations > state.darts / 2 {
        return None;
    }
    let history = &history[..state.operations as usize];
    let mut pyramid = Pyramid::start(&undone(table, history)?).ok()?;
    for (kind, edges) in kernels(state, history)? {
        pyramid.reduce(kind, &edges).ok()?;
    }
    let found = pyramid.state();
    let same_state = found == State { vertices: found.vertices, faces: found.faces, ..*state };
    let given_back = same_state && pyramid.map().table() == table && pyramid.history() == history;
    given_back.then_some(pyramid)
}

/// Every entry and every history number must be a dart's; the darts of the history's edges are gone.
pub fn map_of(table: &[u32], history: &[u32]) -> Option<Map> {
    let darts = table.len() as u32;
    let entries_are_darts = table.iter().all(|&entry| entry < darts);
    let numbers_are_darts = history.iter().all(|&number| dart_of(number) < darts);
    if !entries_are_darts || !numbers_are_darts {
        return None;
    }
    let mut survives = vec![true; table.len()];
    for &number in history {
        survives[dart_of(number) as usize] = false;
        survives[partner(dart_of(number)) as usize] = false;
    }
    Some(Map::new(table, survives))
}

/// The candidate for the base: the table with the whole history undone, operation by operation.
fn undone(table: &[u32], history: &[u32]) -> Option<Vec<u32>> {
    let mut map = map_of(table, history)?;
    for &number in history.iter().rev() {
        undo(&mut map, number)?;
    }
    Some(map.table().to_vec())
}

/// The kernels that the level ends cut the history into.
fn kernels(state: &State, history: &[u32]) -> Option<Vec<(Kind, Vec<u32>)>> {
    let ends = state.ends.get(..state.levels as usize)?;
    let mut kernels = Vec::new();
    let mut from = 0;
    for &end in ends {
        kernels.push(kernel_of(history.get(from..end as usize)?)?);
        from = end as usize;
    }
    Some(kernels)
}

/// "A kernel is a list of edges of one kind"
fn kernel_of(numbers: &[u32]) -> Option<(Kind, Vec<u32>)> {
    let kind = kind_of(*numbers.first()?);
    let one_kind = numbers.iter().all(|&number| kind_of(number) == kind);
    one_kind.then(|| (kind, numbers.iter().map(|&number| edge_of(number)).collect()))
}
