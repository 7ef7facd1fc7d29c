//! level_of   == the level of an edge's end; 0 for an edge that survives
//! gone_by    == the kind of the end that a dart's edge has had by a level, if it has
//! pyramid_of == the pyramid that a base table and its edges' ends come from, if there is one
//! Built      == the pyramid that was built last
//!
//! An end is one number: "2L for an edge removed at level L, 2L + 1 for one contracted, 0 or 1 for one that survives".
//! Table and ends come from a pyramid where kernels that have exactly these edges, level by level, are accepted on that
//! base. Whether a kernel is accepted does not depend on the order of its edges: they are taken by rising number.

use crate::map::Dart;
use crate::operation::{kind_of, Kind};
use crate::pyramid::Pyramid;
use crate::state::MOST_LEVELS;

/// "level 0 meaning that the edge survives (its kind is not looked at)"
pub fn level_of(end: u32) -> usize {
    end as usize / 2
}

/// "while the dart there is gone by level k"; "if it was removed", or "if contracted"
pub fn gone_by(ends: &[u32], k: usize, dart: Dart) -> Option<Kind> {
    let end = ends[dart as usize / 2];
    (1..=k).contains(&level_of(end)).then(|| kind_of(end))
}

/// "4 if the table and ends come from no pyramid": each level's kernel is done on the levels below. A level that no edge
/// ended at is an empty kernel, and gives no pyramid.
pub fn pyramid_of(table: &[u32], ends: &[u32]) -> Option<Pyramid> {
    let mut pyramid = Pyramid::start(table).ok()?;
    for (kind, edges) in kernels(ends)? {
        pyramid.reduce(kind, &edges).ok()?;
    }
    Some(pyramid)
}

/// The kernels of the levels from 1 to the top: "the top is the highest level there".
fn kernels(ends: &[u32]) -> Option<Vec<(Kind, Vec<u32>)>> {
    let top = ends.iter().map(|&end| level_of(end)).max()?;
    // "There are at most 64 kernels over the base."
    if top > MOST_LEVELS {
        return None;
    }
    (1..=top).map(|level| kernel(ends, level)).collect()
}

/// "A kernel is a list of edges of one kind": those that ended at this level.
fn kernel(ends: &[u32], level: usize) -> Option<(Kind, Vec<u32>)> {
    let ended = || (0..).zip(ends).filter(|(_, &end)| level_of(end) == level);
    let kind = kind_of(*ended().next()?.1);
    let one_kind = ended().all(|(_, &end)| kind_of(end) == kind);
    one_kind.then(|| (kind, ended().map(|(edge, _)| edge).collect()))
}

/// Nothing at first. "The viewer flips between levels all day": while table and ends stay as they are, they are not built
/// again.
#[derive(Default)]
pub struct Built {
    of: Option<(Vec<u32>, Vec<u32>)>,
    pyramid: Option<Pyramid>,
}

impl Built {
    /// The pyramid that a table and ends come from, if there is one.
    pub fn pyramid(&mut self, table: &[u32], ends: &[u32]) -> Option<&Pyramid> {
        let unchanged = self.of.as_ref().is_some_and(|(built, ended)| built == table && ended == ends);
        if !unchanged {
            self.pyramid = pyramid_of(table, ends);
            self.of = Some((table.to_vec(), ends.to_vec()));
        }
        self.pyramid.as_ref()
    }
}
