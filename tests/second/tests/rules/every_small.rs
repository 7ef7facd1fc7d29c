//! "A state with its table and history is a pyramid when some base and some kernels, accepted one after another, give
//! exactly this state, this table (gone darts too) and these history numbers." For few darts all bases and all
//! kernels can be done, and every table with every history be looked up among what they give; then with every number of
//! vertices and of faces that its state might store.

use std::collections::HashMap;

use crate::support::lot::{state, stored};
use crate::support::maps::numbers_of;
use second::decide::{levels_of, pyramid_of};
use second::operation::Kind;
use second::pyramid::Pyramid;

/// What a pyramid shows: its table and its history; and its numbers of vertices and faces.
type Found = HashMap<(Vec<u32>, Vec<u32>), (u32, u32)>;

/// All lists of so many numbers below the bound.
pub fn lists(length: usize, bound: u32) -> Vec<Vec<u32>> {
    let mut lists = vec![vec![]];
    for _ in 0..length {
        lists = lists.iter().flat_map(|list| (0..bound).map(|v| [list.as_slice(), &[v]].concat())).collect();
    }
    lists
}

/// Puts down the pyramid and all that follow from it by kernels of one edge. Levels only cut the list of operations.
fn follow(pyramid: &Pyramid, found: &mut Found) {
    found.insert((pyramid.map().table().to_vec(), pyramid.history().to_vec()), numbers_of(pyramid.map()));
    for edge in 0..pyramid.map().edges() {
        for kind in [Kind::Contract, Kind::Remove] {
            let mut next = pyramid.clone();
            if next.reduce(kind, &[edge]).is_ok() {
                follow(&next, found);
            }
        }
    }
}

/// All pyramids of so many darts.
fn all_pyramids(darts: u32) -> Found {
    let mut found = Found::new();
    for table in lists(darts as usize, darts) {
        if let Ok(base) = Pyramid::start(&table) {
            follow(&base, &mut found);
        }
    }
    found
}

/// Every table with entries up to `entries` and every history of up to `operations` numbers up to `numbers` must be
/// taken for a pyramid exactly where it was found, and stored with exactly the numbers that were found with it.
fn compare(darts: u32, entries: u32, operations: usize, numbers: u32) {
    let found = all_pyramids(darts);
    let mut accepted = 0;
    let tables = lists(darts as usize, entries);
    for history in (0..=operations).flat_map(|length| lists(length, numbers)) {
        let ends: Vec<u32> = (1..=history.len() as u32).collect();
        let state = state(darts, history.len() as u32, &ends);
        for table in &tables {
            let is_pyramid = levels_of(&state, table, &history).is_some();
            accepted += usize::from(is_pyramid);
            let numbers = found.get(&(table.clone(), history.clone())).copied();
            assert_eq!(is_pyramid, numbers.is_some(), "{table:?} {history:?}");
            for pair in (0..=darts).flat_map(|vertices| (0..=darts).map(move |faces| (vertices, faces))) {
                let state = stored(darts, history.len() as u32, &ends, pair);
                // Where there is no pyramid whatever is stored, one pair is enough.
                let is_pyramid = pyramid_of(&state, table, &history).is_some();
                assert_eq!(is_pyramid, numbers == Some(pair), "{table:?} {history:?} {pair:?}");
                if numbers.is_none() {
                    break;
                }
            }
        }
    }
    assert_eq!(accepted, found.len(), "none has a longer history");
}

#[test]
fn two_darts() {
    compare(2, 4, 1, 6);
}

#[test]
fn four_darts() {
    compare(4, 5, 2, 9);
}

#[test]
fn six_darts() {
    compare(6, 6, 2, 12);
}
