//! Faults in the calls on a plan.

use crate::copies::{found, second_with, Edit};

/// "Round a cell the successor goes right, up, left, down": left before up.
const LEFT_BEFORE_UP: Edit = ("plan.rs", "    [right, up, left, down]\n", "    [right, left, up, down]\n");

/// "then the upright ones by their lower cells in the plan's order": wale by wale instead.
const UPRIGHT_BY_WALES: Edit = (
    "plan.rs",
    "        along.chain(upright).collect()\n",
    "        let mut upright: Vec<_> = upright.collect();
        upright.sort_unstable();
        along.chain(upright).collect()\n",
);

/// "contracted where both ends have the same code": also where two codes are one apart.
const TWO_CODES: Edit =
    ("plan.rs", "self.code(one) == self.code(other)", "self.code(one).abs_diff(self.code(other)) < 2");

/// "unless 9 or 11 would be given at its turn": 11 is not looked for, so that the last edge of a row of one code is taken.
const LAST_EDGE_OF_A_ROW: Edit = (
    "plan.rs",
    "judge(&map, Kind::Contract, edge, 0).is_ok()",
    "!matches!(judge(&map, Kind::Contract, edge, 0), Err(Refusal::OneVertex { .. }))",
);

/// "unless 9 or 11 would be given at its turn": edges are judged on the base, where no two of them meet twice.
const JUDGED_ON_THE_BASE: Edit =
    ("plan.rs", "judge(&map, Kind::Contract, edge, 0).is_ok()", "judge(base, Kind::Contract, edge, 0).is_ok()");

/// "15 .. nothing is written": the work area is cleared.
const SIZE_CLEARS: Edit =
    ("calls.rs", "    grid.judge()?;\n", "    grid.judge().inspect_err(|_| lent.work.fill(0))?;\n");

/// "a lent slice is too short": the first call does not need the codes and does not ask for them.
const CODES_NOT_ASKED_FOR: Edit = (
    "calls.rs",
    "of_plan(\"flat\", grid, codes, lent,",
    "of_plan(\"flat\", grid, &[codes, &[0; 16_384]].concat(), lent,",
);

/// "answers 5, as a refused start": the base is left in the table.
const BASE_LEFT_BEHIND: Edit = (
    "calls.rs",
    "    let outcome = build(&Plan::lent(grid, codes)?);\n",
    "    let outcome = build(&Plan::lent(grid, codes)?);
    lent.table[..grid.darts() as usize].copy_from_slice(&grid.table());\n",
);

#[test]
fn a_base_built_wrong_is_found() {
    for (name, edit) in [("left-before-up", LEFT_BEFORE_UP), ("upright-by-wales", UPRIGHT_BY_WALES)] {
        let copy = second_with(name, &[edit]);
        found(&copy, "worked", "zones", 40);
        found(&copy, "plans", "zones", 60);
        found(&copy, "drawings", "plan", 12);
    }
}

#[test]
fn a_first_kernel_that_takes_other_edges_is_found() {
    let copy = second_with("two-codes", &[TWO_CODES]);
    found(&copy, "worked", "zones", 60);
    found(&copy, "plans", "zones", 80);
    found(&copy, "drawings", "plan", 12);
    for (name, edit) in [("last-edge-of-a-row", LAST_EDGE_OF_A_ROW), ("judged-on-the-base", JUDGED_ON_THE_BASE)] {
        let copy = second_with(name, &[edit]);
        found(&copy, "worked", "zones", 40);
        found(&copy, "plans", "zones", 60);
        found(&copy, "drawings", "plan", 12);
    }
}

#[test]
fn a_refused_plan_that_leaves_something_is_found() {
    let faults = [
        ("size-clears", SIZE_CLEARS),
        ("codes-not-asked-for", CODES_NOT_ASKED_FOR),
        ("base-left-behind", BASE_LEFT_BEHIND),
    ];
    for (name, edit) in faults {
        let copy = second_with(name, &[edit]);
        found(&copy, "worked", "zones", 60);
        found(&copy, "plans", "zones", 100);
    }
}
