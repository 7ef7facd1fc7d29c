//! Faults in the numbers of vertices and faces that a state stores.

use crate::copies::{found, second_with, Edit};

/// "a state whose numbers differ from the cycles is no pyramid": the vertices are not looked at, or the faces; either number may
/// stand for the other; of each the last 16 bits are looked at alone; a sum that is right is enough; numbers of the base are right.
const VERTICES_NOT_LOOKED_AT: Edit = ("decide.rs", "state.vertices == counted.vertices && ", "");
const FACES_NOT_LOOKED_AT: Edit = ("decide.rs", " && state.faces == counted.faces", "");
const EITHER_WAY: Edit = (
    "decide.rs",
    "    state.vertices == counted.vertices && state.faces == counted.faces\n",
    "    state.vertices == counted.vertices && state.faces == counted.faces
        || state.vertices == counted.faces && state.faces == counted.vertices\n",
);
const SIXTEEN_BITS: Edit = (
    "decide.rs",
    "state.vertices == counted.vertices && state.faces == counted.faces",
    "state.vertices as u16 == counted.vertices as u16 && state.faces as u16 == counted.faces as u16",
);
const BY_THEIR_SUM: Edit = (
    "decide.rs",
    "state.vertices == counted.vertices && state.faces == counted.faces",
    "state.vertices.checked_add(state.faces) == Some(counted.vertices + counted.faces)",
);
const THOSE_OF_THE_BASE: Edit = (
    "decide.rs",
    "    let counted = pyramid.state();\n",
    "    let counted = pyramid.state();
    let base = crate::counts::counts(&pyramid.levels()[0].map);
    if (state.vertices, state.faces) == (base.vertices, base.faces) {
        return true;
    }\n",
);

/// "Every operation .. keeps them right": a removal leaves the faces as they were, or a contraction the vertices.
const FACES_NOT_LOWERED: Edit = (
    "calls.rs",
    "        Ok(pyramid.state())\n",
    "        Ok(State { faces: state.faces.max(pyramid.state().faces), ..pyramid.state() })\n",
);
const VERTICES_NOT_LOWERED: Edit = (
    "calls.rs",
    "        Ok(pyramid.state())\n",
    "        Ok(State { vertices: state.vertices.max(pyramid.state().vertices), ..pyramid.state() })\n",
);

/// ".. and every undo": what a contraction took away is not given back.
const NOT_GIVEN_BACK: Edit = (
    "calls.rs",
    "        Ok(pyramid.state())\n",
    "        Ok(State { vertices: state.vertices.min(pyramid.state().vertices), ..pyramid.state() })\n",
);

/// A call with sheets hands back the numbers that it was given.
const NOT_WITH_SHEETS: Edit = (
    "yarn.rs",
    "            Ok(pyramid.state())\n",
    "            Ok(State { vertices: state.vertices, faces: state.faces, ..pyramid.state() })\n",
);

/// The first kernel of a plan: the base's numbers are stored.
const AREAS_STORE_THE_BASE: Edit = (
    "calls.rs",
    "    begin(flat_areas_pyramid(grid, codes, lent), kept)\n",
    "    let (answer, state) = begin(flat_areas_pyramid(grid, codes, lent), kept);
    (answer, State { vertices: state.vertices + state.operations, ..state })\n",
);

/// "A refused start or read .. hands back a state of zeros": one of them is not.
const NOT_ALL_ZEROS: Edit =
    ("calls.rs", "    answered(outcome, State::ZERO)\n", "    answered(outcome, State { faces: 1, ..State::ZERO })\n");

/// "A refused call hands back the state it was given": with the right numbers, where 4 is for those alone.
const PUT_RIGHT_BY_A_REFUSAL: Edit = (
    "calls.rs",
    "    answered(outcome, *state)\n",
    "    let fits = lent.judge(state.darts).is_ok();
    let found = fits.then(|| crate::decide::levels_of(state, lent.entries(state.darts), lent.history)).flatten();
    answered(outcome, found.map_or(*state, |pyramid| pyramid.state()))\n",
);

/// "4 now covers that; the order is unchanged": numbers that no map has are looked for before 1 and 2; or after the call's own
/// refusals.
const BEFORE_1_AND_2: Edit = (
    "calls.rs",
    "    lent.judge(state.darts)?;\n    let outcome = match kept.found(",
    "    if state.vertices == 0 || state.faces == 0 {
        return Err(Refusal::NoPyramid);
    }
    lent.judge(state.darts)?;\n    let outcome = match kept.found(",
);
const AFTER_THE_CALL_S_OWN: Edit = (
    "calls.rs",
    "        None => Err(Refusal::NoPyramid),\n    };\n    lent.clear_work(state.darts);\n",
    "        None => match crate::decide::levels_of(state, lent.entries(state.darts), lent.history) {
            Some(mut pyramid) => {
                let lengths = (lent.table.to_vec(), lent.history.to_vec(), lent.work.to_vec());
                let (mut table, mut history, mut work) = lengths;
                let mut copy = Lent { table: &mut table, history: &mut history, work: &mut work };
                act(&mut pyramid, &mut copy).and(Err(Refusal::NoPyramid))
            }
            None => Err(Refusal::NoPyramid),
        },\n    };\n    lent.clear_work(state.darts);\n",
);

/// "`state` sets them to 0": they stay.
const STATE_KEEPS_THEM: Edit = (
    "zones.rs",
    "            Command::State(state) => self.set_state(*state),\n",
    "            Command::State(state) => {
                let State { vertices, faces, .. } = self.state;
                self.set_state(State { vertices, faces, ..*state });
            }\n",
);

/// Each of these groups must find the fault.
fn each_finds(groups: &[&str], faults: &[(&str, Edit)]) {
    for &(name, edit) in faults {
        let copy = second_with(name, &[edit]);
        for group in groups {
            found(&copy, group, "zones", 400);
        }
    }
}

#[test]
fn wrong_numbers_that_are_accepted_are_found() {
    let faults = [
        ("vertices-not-looked-at", VERTICES_NOT_LOOKED_AT),
        ("faces-not-looked-at", FACES_NOT_LOOKED_AT),
        ("either-way", EITHER_WAY),
        ("sixteen-bits", SIXTEEN_BITS),
        ("by-their-sum", BY_THEIR_SUM),
        ("those-of-the-base", THOSE_OF_THE_BASE),
    ];
    each_finds(&["worked", "small"], &faults);
}

#[test]
fn numbers_that_are_not_kept_right_are_found() {
    let faults = [
        ("faces-not-lowered", FACES_NOT_LOWERED),
        ("vertices-not-lowered", VERTICES_NOT_LOWERED),
        ("not-given-back", NOT_GIVEN_BACK),
    ];
    each_finds(&["worked", "small"], &faults);
    each_finds(&["worked", "yarn"], &[("not-with-sheets", NOT_WITH_SHEETS)]);
    each_finds(&["worked", "plans"], &[("areas-store-the-base", AREAS_STORE_THE_BASE)]);
}

#[test]
fn numbers_that_a_refusal_leaves_wrong_are_found() {
    each_finds(&["worked", "small", "starts", "plans"], &[("not-all-zeros", NOT_ALL_ZEROS)]);
    each_finds(&["worked", "small"], &[("put-right-by-a-refusal", PUT_RIGHT_BY_A_REFUSAL)]);
}

#[test]
fn numbers_judged_out_of_order_are_found() {
    let faults = [("before-1-and-2", BEFORE_1_AND_2), ("after-the-call-s-own", AFTER_THE_CALL_S_OWN)];
    each_finds(&["worked", "small"], &faults);
}

#[test]
fn a_state_typed_with_the_numbers_of_the_one_before_is_found() {
    each_finds(&["worked"], &[("state-keeps-them", STATE_KEEPS_THEM)]);
}
