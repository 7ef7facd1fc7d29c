//! Faults in the levels kept and in the levels derived: each must stop the copy.

use crate::copies::{found, second_with, stops, Edit};

/// What unfold hands back is not the level that was stored: a fault in the levels kept.
const WRONG_LEVEL: Edit = (
    "pyramid.rs",
    "        self.levels.truncate(k + 1);\n",
    "        self.levels.truncate(k + 1);\n        self.levels[k].map = self.levels[0].map.clone();\n",
);

/// Numbers put into the state by hand do not drop the levels kept.
const NOT_DROPPED: Edit = ("zones.rs", "        self.kept.drop_levels();\n", "");

/// A contraction undone as if it were a removal: a fault in the levels derived, going down.
const UNDONE_AS_REMOVAL: Edit = (
    "operation.rs",
    "            map.lead(before_r, q);\n            map.lead(before_s, p);\n",
    "            map.lead(before_r, p);\n            map.lead(before_s, q);\n",
);

/// A kernel done again from its last edge to its first: a fault in the levels derived, going up.
const LAST_EDGE_FIRST: Edit = (
    "decide.rs",
    "numbers.iter().map(|&number| edge_of(number))",
    "numbers.iter().rev().map(|&number| edge_of(number))",
);

/// The copy must stop on map T when these lines follow its start, and say this; and the comparison must find it.
fn stops_on_t(name: &str, edit: Edit, lines: &str, call: &str, difference: &str) {
    let copy = second_with(name, &[edit]);
    let script = format!("lend 8 4 32\ntable 0 5 2 1 4 6 0 3 7\nstart 8\n{lines}");
    stops(&copy, &script, &format!("{call} the levels kept and the numbers differ: {difference}\n"));
    assert!(found(&copy, "small", "zones", 300).contains("(exit status: 101)"), "the copy stops");
}

#[test]
fn a_fault_in_the_levels_kept_stops_the_program() {
    let survivors = "level 1 as it stands: the survivors, place 0: kept 0, by the numbers 4";
    stops_on_t("wrong-level", WRONG_LEVEL, "contract 0 1\nremove 2\nundo\n", "after undo", survivors);
    let operations = "the state, place 1: kept 2, by the numbers 0";
    stops_on_t("not-dropped", NOT_DROPPED, "contract 0 1\nstate 8 0 0\ncounts\n", "before counts", operations);
}

#[test]
fn a_fault_in_the_levels_derived_stops_the_program() {
    let entry = "level 0 undone: the table, place 2: kept 1, by the numbers 0";
    stops_on_t("undone-as-removal", UNDONE_AS_REMOVAL, "contract 0\n", "after reduce", entry);
    stops_on_t("last-edge-first", LAST_EDGE_FIRST, "contract 0 1\n", "after reduce", "the numbers are no pyramid");
}
