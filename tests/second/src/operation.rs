//! Kind    == contract or remove
//! number  == the history number of an operation: "2p for a removal and 2p+1 for a contraction"
//! operate == "One operation on edge e"
//! undo    == "Undo takes the last history number."

use crate::map::{partner, Dart, Map};

/// "given as one of two values, so that there is no third"
#[derive(Clone, Copy, Debug, PartialEq, Eq)]
pub enum Kind {
    Contract,
    Remove,
}

/// "The history gets one number, 2p for a removal and 2p+1 for a contraction."
pub fn number(kind: Kind, p: Dart) -> u32 {
    match kind {
        Kind::Remove => 2 * p,
        Kind::Contract => 2 * p + 1,
    }
}

/// The kind that a history number stores.
pub fn kind_of(number: u32) -> Kind {
    if number.is_multiple_of(2) {
        Kind::Remove
    } else {
        Kind::Contract
    }
}

/// The p that a history number stores.
pub fn dart_of(number: u32) -> Dart {
    number / 2
}

/// The edge that a history number's operation took.
pub fn edge_of(number: u32) -> u32 {
    dart_of(number) / 2
}

/// "Turn round (p = 2e+1, q = 2e, r and s again) in two cases only: removal with s = p, contraction with r = p."
fn turned(map: &Map, kind: Kind, edge: u32) -> Dart {
    let (p, q) = (2 * edge, 2 * edge + 1);
    let (r, s) = (map.successor(p), map.successor(q));
    let turn = match kind {
        Kind::Remove => s == p,
        Kind::Contract => r == p,
    };
    if turn {
        q
    } else {
        p
    }
}

/// The one dart before x on a map whose survivors are permuted.
fn dart_before(map: &Map, x: Dart) -> Dart {
    map.before(x).expect("on a map every surviving dart has one before it")
}

/// Does an operation that was judged fine, and gives its history number.
/// "Both changes use the entries from before the operation": the darts before are found before anything is changed.
pub fn operate(map: &mut Map, kind: Kind, edge: u32) -> u32 {
    let p = turned(map, kind, edge);
    let q = partner(p);
    let (r, s) = (map.successor(p), map.successor(q));
    let (before_p, before_q) = (dart_before(map, p), dart_before(map, q));
    match kind {
        // "if r = q (empty loop), the dart before p leads to s instead and nothing else changes"
        Kind::Remove if r == q => map.lead(before_p, s),
        // "the dart before p now leads to r and the dart before q to s"
        Kind::Remove => {
            map.lead(before_p, r);
            map.lead(before_q, s);
        }
        // "if s = q (pending edge), the dart before p leads to r instead and nothing else changes"
        Kind::Contract if s == q => map.lead(before_p, r),
        // "the dart before p leads to s and the dart before q to r"
        Kind::Contract => {
            map.lead(before_p, s);
            map.lead(before_q, r);
        }
    }
    map.leave(p);
    number(kind, p)
}

/// Undoes the operation with this history number, which must be below 2D. The map may be rubbish: where the edge is
/// not gone, or no dart before exists, there is nothing to undo.
pub fn undo(map: &mut Map, number: u32) -> Option<()> {
    let p = dart_of(number);
    let q = partner(p);
    let (r, s) = (map.successor(p), map.successor(q));
    if map.survives(p) {
        return None;
    }
    match kind_of(number) {
        // "if r = q, the one before s leads to p"
        Kind::Remove if r == q => {
            let before_s = map.before(s)?;
            map.lead(before_s, p);
        }
        // "the dart before r leads to p and the one before s to q"
        Kind::Remove => {
            let (before_r, before_s) = (map.before(r)?, map.before(s)?);
            map.lead(before_r, p);
            map.lead(before_s, q);
        }
        // "if s = q, the one before r leads to p"
        Kind::Contract if s == q => {
            let before_r = map.before(r)?;
            map.lead(before_r, p);
        }
        // "the dart before r leads to q and the one before s to p"
        Kind::Contract => {
            let (before_r, before_s) = (map.before(r)?, map.before(s)?);
            map.lead(before_r, q);
            map.lead(before_s, p);
        }
    }
    map.bring_back(p);
    Some(())
}
