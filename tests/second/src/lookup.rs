//! Found  == a dart, and "the number of gone darts passed"
//! lookup == the successor of a dart at a level, taken from the level as it is stored
//! walk   == the same as document 003 does it, over the base and the ends alone
//!
//! The dart is the stored level's, the count is the walk's. Where the walk comes to another dart, or passes more than
//! "twice the operations done by level k", this program is at fault: it stops with a message that names what differs.

use crate::answer::Refusal;
use crate::ends::gone_by;
use crate::map::{Dart, Map};
use crate::operation::Kind;
use crate::pyramid::{Level, Pyramid};

/// "a refusal gives dart 0 and count 0", which is the default.
#[derive(Clone, Copy, Debug, Default, PartialEq, Eq)]
pub struct Found {
    pub dart: Dart,
    pub passed: usize,
}

/// The pyramid is the one that the ends come from. "then 12 for k, then 7 for a dart of D or more, then 8 for a dart gone by
/// then; 7 and 8 have place 0"
pub fn lookup(pyramid: &Pyramid, ends: &[u32], k: u32, dart: Dart) -> Result<Found, Refusal> {
    let k = k as usize;
    let level = pyramid.levels().get(k).ok_or(Refusal::NoSuchLevel { top: pyramid.top() })?;
    if dart as usize >= level.map.table().len() {
        return Err(Refusal::NoSuchDart);
    }
    if !level.map.survives(dart) {
        return Err(Refusal::DartGone);
    }
    let base = &pyramid.levels()[0].map;
    match found(base, level, ends, k, dart) {
        Ok(found) => Ok(found),
        Err(difference) => panic!("in successor the level stored and the walk differ: {difference}"),
    }
}

/// The stored successor with the walk's count, where the two ways agree.
fn found(base: &Map, level: &Level, ends: &[u32], k: usize, dart: Dart) -> Result<Found, String> {
    let named = |difference| format!("dart {dart} at level {k}: {difference}");
    let stored = level.map.successor(dart);
    let walked = walk(base, ends, k, dart, 2 * level.operations).map_err(named)?;
    if walked.dart != stored {
        return Err(named(format!("stored {stored}, by the walk {}", walked.dart)));
    }
    Ok(Found { dart: stored, passed: walked.passed })
}

/// "start at the base successor; while the dart there is gone by level k, go on to its base successor if it was removed, or
/// to its partner's base successor if contracted"
fn walk(base: &Map, ends: &[u32], k: usize, dart: Dart, most: usize) -> Result<Found, String> {
    let mut at = base.successor(dart);
    let mut passed = 0;
    while let Some(kind) = gone_by(ends, k, at) {
        if passed == most {
            return Err(format!("the walk passes more than {most} gone darts"));
        }
        passed += 1;
        at = match kind {
            Kind::Remove => base.successor(at),
            Kind::Contract => base.face_next(at),
        };
    }
    Ok(Found { dart: at, passed })
}
