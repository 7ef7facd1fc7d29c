//! Random pyramids: the dart before, one vertex, one face and each operation, found in another way.

use crate::support::chance::on_random_pyramids;
use crate::support::maps::cycle;
use second::kernel::judge;
use second::map::{partner, Dart, Map};
use second::operation::{operate, Kind};

/// The surviving darts that lead to x, looked for among all.
fn all_before(map: &Map, x: Dart) -> Vec<Dart> {
    map.survivors().filter(|&d| map.successor(d) == x).collect()
}

#[test]
fn the_dart_before_is_the_one_that_a_search_finds() {
    on_random_pyramids(|pyramid, _| {
        let map = pyramid.map();
        for x in map.survivors() {
            assert_eq!(all_before(map, x), [map.before(x).expect("one before")]);
        }
    });
}

#[test]
fn one_vertex_and_one_face_are_what_whole_walks_find() {
    on_random_pyramids(|pyramid, _| {
        let map = pyramid.map();
        for p in map.survivors() {
            for q in map.survivors().filter(|&q| q != p) {
                assert_eq!(map.same_vertex(p, q), cycle(|d| map.successor(d), p).contains(&q));
                assert_eq!(map.same_face(p, q), cycle(|d| map.face_next(d), p).contains(&q));
            }
        }
    });
}

/// "skip f p q leaves p and q out: go to f x; where that is p or q, go on."
fn skip(f: impl Fn(Dart) -> Dart, p: Dart, q: Dart, x: Dart) -> Dart {
    let mut at = f(x);
    while at == p || at == q {
        at = f(at);
    }
    at
}

/// What is left of the successor when p and q go: a removal is skip, a contraction "splice f p q is skip of f ∘ (p q)".
fn in_one_line(map: &Map, kind: Kind, p: Dart, x: Dart) -> Dart {
    let q = partner(p);
    let exchanged = |d: Dart| if d == p || d == q { partner(d) } else { d };
    match kind {
        Kind::Remove => skip(|d| map.successor(d), p, q, x),
        Kind::Contract => skip(|d| map.successor(exchanged(d)), p, q, x),
    }
}

#[test]
fn an_operation_is_skip_or_splice() {
    on_random_pyramids(|pyramid, chance| {
        let (kind, edge) = (chance.kind(), chance.below(pyramid.map().edges()));
        if judge(pyramid.map(), kind, edge, 0).is_ok() {
            let mut map = pyramid.map().clone();
            operate(&mut map, kind, edge);
            for x in map.survivors() {
                assert_eq!(map.successor(x), in_one_line(pyramid.map(), kind, 2 * edge, x));
            }
            for gone in (0..2 * map.edges()).filter(|&d| !map.survives(d)) {
                assert_eq!(map.successor(gone), pyramid.map().successor(gone));
            }
        }
    });
}
