//! Faults in the reading of a drawn plan.

use crate::copies::{found, second_with, Edit};

/// The first line drawn is the lowest course.
const LOWEST_FIRST: Edit = ("drawing.rs", "courses.iter().rev().flat_map", "courses.iter().flat_map");

/// The last line of a drawing needs no line feed.
const NO_LAST_FEED: Edit =
    ("drawing.rs", "line.strip_suffix(b\"\\n\").ok_or(number)?", "line.strip_suffix(b\"\\n\").unwrap_or(line)");

/// A line of another length is looked for only where the plan's size is within its limits.
const SIZE_BEFORE_FORM: Edit =
    ("drawing.rs", "first.len() != course.len()", "first.len() != course.len() && first.len() < 129");

#[test]
fn a_drawing_misread_is_found() {
    let faults =
        [("lowest-first", LOWEST_FIRST), ("no-last-feed", NO_LAST_FEED), ("size-before-form", SIZE_BEFORE_FORM)];
    for (name, edit) in faults {
        let copy = second_with(name, &[edit]);
        found(&copy, "drawings", "plan", 300);
    }
}
