//! places  == for each dart the place of its base vertex's record: "the place of its lowest dart among D places"
//! Merge   == the places of the two records that a contraction merges, the lower one and the other
//! Zones   == each zone as the set of the base vertices that went into it, a vertex told by its place
//! merges  == what each operation of a pyramid merges; none for a removal
//! present == the places of the records of the zones of the present level
//!
//! A zone's record is at the lowest of its base vertices' places, also when that dart is gone.

use crate::map::{partner, Dart, Map};
use crate::operation::{dart_of, kind_of, Kind};
use crate::pyramid::Pyramid;
use std::collections::BTreeSet;

/// Darts are taken by rising number: the first one to come to a vertex is its lowest.
pub fn places(base: &Map) -> Vec<usize> {
    let mut places = vec![None; base.table().len()];
    for lowest in base.survivors() {
        let mut at = lowest as usize;
        while places[at].is_none() {
            places[at] = Some(lowest as usize);
            at = base.successor(at as Dart) as usize;
        }
    }
    places.into_iter().flatten().collect()
}

/// "A contraction merges the two records into the lower-numbered one".
#[derive(Clone, Copy, Debug, PartialEq, Eq)]
pub struct Merge {
    pub low: usize,
    pub high: usize,
}

struct Zones {
    /// For each dart its base vertex, and for each base vertex its zone.
    vertex: Vec<usize>,
    zone: Vec<usize>,
    /// For each zone its base vertices; none for one that went into another.
    members: Vec<BTreeSet<usize>>,
}

impl Zones {
    /// At the base each vertex is a zone.
    fn of(base: &Map) -> Zones {
        let vertex = places(base);
        let members = (0..vertex.len()).map(|place| BTreeSet::from([place])).collect();
        Zones { zone: (0..vertex.len()).collect(), vertex, members }
    }

    fn zone_of(&self, dart: Dart) -> usize {
        self.zone[self.vertex[dart as usize]]
    }

    /// The place of a zone's record.
    fn place(&self, zone: usize) -> usize {
        *self.members[zone].first().expect("a zone has a base vertex")
    }

    /// The two zones at an edge's ends become one.
    fn join(&mut self, p: Dart) -> Merge {
        let (one, other) = (self.zone_of(p), self.zone_of(partner(p)));
        assert_ne!(one, other, "a contraction has two zones at its ends");
        let (place, other_place) = (self.place(one), self.place(other));
        let (few, many) = if self.members[one].len() < self.members[other].len() { (one, other) } else { (other, one) };
        for vertex in std::mem::take(&mut self.members[few]) {
            self.zone[vertex] = many;
            self.members[many].insert(vertex);
        }
        Merge { low: place.min(other_place), high: place.max(other_place) }
    }
}

/// Operation by operation, from the base on: what each one merges, and the zones after the last. A removal joins no zones.
fn joined(pyramid: &Pyramid) -> (Vec<Option<Merge>>, Zones) {
    let mut zones = Zones::of(&pyramid.levels()[0].map);
    let merge = |&number: &u32| match kind_of(number) {
        Kind::Contract => Some(zones.join(dart_of(number))),
        Kind::Remove => None,
    };
    let merges = pyramid.history().iter().map(merge).collect();
    (merges, zones)
}

pub fn merges(pyramid: &Pyramid) -> Vec<Option<Merge>> {
    joined(pyramid).0
}

/// Each vertex of the present level has a surviving dart, which is in its zone.
pub fn present(pyramid: &Pyramid) -> BTreeSet<usize> {
    let (_, zones) = joined(pyramid);
    pyramid.map().survivors().map(|dart| zones.place(zones.zone_of(dart))).collect()
}
