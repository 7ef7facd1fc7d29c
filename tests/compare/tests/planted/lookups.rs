//! Faults in the successor at a level.

use crate::copies::{found, second_with, stops, Edit};

/// "or to its partner's base successor if contracted": to its own, so that the walk comes to another dart than is stored.
const BY_ITSELF: Edit = ("lookup.rs", "Kind::Contract => base.face_next(at),", "Kind::Contract => base.successor(at),");

/// "the number of gone darts passed": one short.
const ONE_SHORT: Edit = ("lookup.rs", "passed: walked.passed })", "passed: walked.passed.saturating_sub(1) })");

/// "a dart gone by level k": by the level below it.
const LEVEL_BELOW: Edit = (
    "lookup.rs",
    "    let level = pyramid.levels().get(k)",
    "    let k = if k > pyramid.top() { k } else { k.saturating_sub(1) };\n    let level = pyramid.levels().get(k)",
);

/// "then 12 for k, then 7 for a dart of D or more": the dart is judged first.
const DART_BEFORE_LEVEL: Edit = (
    "lookup.rs",
    "    let k = k as usize;\n",
    "    let k = k as usize;
    if dart as usize >= pyramid.map().table().len() {
        return Err(Refusal::NoSuchDart);
    }\n",
);

/// A level that no edge ended at is passed over, and the levels above it are counted on.
const GAP_PASSED_OVER: Edit = (
    "ends.rs",
    "    (1..=top).map(",
    "    let used = |&level: &usize| ends.iter().any(|&end| level_of(end) == level);\n    (1..=top).filter(used).map(",
);

/// "A kernel is a list of edges of one kind": the lowest edge's kind is taken for all.
const KIND_OF_THE_FIRST: Edit =
    ("ends.rs", "    let one_kind = ended().all(|(_, &end)| kind_of(end) == kind);\n", "    let one_kind = true;\n");

/// "level 0 meaning that the edge survives (its kind is not looked at)": the number 1 is refused.
const KIND_OF_A_SURVIVOR: Edit =
    ("ends.rs", "    if top > MOST_LEVELS {", "    if top > MOST_LEVELS || ends.contains(&1) {");

/// Ends that were changed under the same table are not built again.
const NOT_BUILT_AGAIN: Edit =
    ("ends.rs", "built == table && ended == ends", "built == table && ended.len() == ends.len()");

/// "Table and work area are as on page 01": a refused lookup leaves the work area as it was.
const REFUSED_LEAVES_WORK: Edit = (
    "calls.rs",
    "    lent.clear_work(darts);\n    outcome\n",
    "    let found = outcome?;\n    lent.clear_work(darts);\n    Ok(found)\n",
);

#[test]
fn a_wrong_walk_is_found() {
    let copy = second_with("one-short", &[ONE_SHORT]);
    found(&copy, "worked", "zones", 60);
    found(&copy, "lookups", "zones", 100);
    let copy = second_with("level-below", &[LEVEL_BELOW]);
    found(&copy, "worked", "zones", 60);
    found(&copy, "lookups", "zones", 100);
}

#[test]
fn a_lookup_in_what_is_no_pyramid_is_found() {
    let faults = [
        ("gap-passed-over", GAP_PASSED_OVER),
        ("kind-of-the-first", KIND_OF_THE_FIRST),
        ("kind-of-a-survivor", KIND_OF_A_SURVIVOR),
    ];
    for (name, edit) in faults {
        let copy = second_with(name, &[edit]);
        found(&copy, "worked", "zones", 80);
        found(&copy, "lookups", "zones", 300);
    }
    let copy = second_with("not-built-again", &[NOT_BUILT_AGAIN]);
    found(&copy, "lookups", "zones", 300);
}

#[test]
fn a_lookup_refused_wrongly_is_found() {
    for (name, edit) in [("dart-before-level", DART_BEFORE_LEVEL), ("refused-leaves-work", REFUSED_LEAVES_WORK)] {
        let copy = second_with(name, &[edit]);
        found(&copy, "worked", "zones", 60);
        found(&copy, "lookups", "zones", 100);
    }
}

#[test]
fn a_walk_that_comes_to_another_dart_stops_the_program() {
    let copy = second_with("by-itself", &[BY_ITSELF]);
    let script = "lend 8 4 32\ntable 0 5 2 1 4 6 0 3 7\nends 0 3 3 4 0\nsuccessor 8 1 6\n";
    let difference = "dart 6 at level 1: stored 5, by the walk 4";
    stops(&copy, script, &format!("in successor the level stored and the walk differ: {difference}\n"));
    found(&copy, "worked", "zones", 60);
    found(&copy, "lookups", "zones", 100);
}
