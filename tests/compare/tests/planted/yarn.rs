//! Faults in the calls with sheets.

use crate::copies::{found, second_with, Edit};

/// "Undo returns the old figure bit for bit; subtracting does not do that": metres are subtracted.
const BY_SUBTRACTING: Edit = (
    "yarn.rs",
    "            act(pyramid)?;
            lent.store(pyramid);
            sheets.store(&first, pyramid);
",
    "            let before = crate::merges::merges(pyramid);
            act(pyramid)?;
            lent.store(pyramid);
            let left = pyramid.history().len().min(before.len());
            let subtracted: Vec<_> = before.iter().skip(left).rev().flatten().map(|merge| {
                use crate::record::Yarn::Metres;
                let (low, high) = (sheets.sheet[merge.low].yarn, sheets.sheet[merge.high].yarn);
                let yarn = match (low, high) {
                    (Metres(low), Metres(high)) => Some(Metres(low - high)),
                    _ => None,
                };
                sheets.sheet[merge.low].yarn = yarn.unwrap_or(low);
                (merge.low, yarn)
            }).collect();
            sheets.store(&first, pyramid);
            for (low, yarn) in subtracted {
                sheets.sheet[low].yarn = yarn.unwrap_or(sheets.sheet[low].yarn);
            }
",
);

/// "not measured with anything is not measured": with metres it is metres.
const MEASURED_AFTER_ALL: Edit = (
    "record.rs",
    "            _ => Yarn::NotMeasured,\n",
    "            (Yarn::Metres(metres), _) | (_, Yarn::Metres(metres)) => Yarn::Metres(metres),
            _ => Yarn::NotMeasured,\n",
);

/// "A contraction merges the two records into the lower-numbered one": into the higher one.
const HIGHER_PLACE: Edit = (
    "merges.rs",
    "Merge { low: place.min(other_place), high: place.max(other_place) }",
    "Merge { low: place.max(other_place), high: place.min(other_place) }",
);

/// A zone's record is looked for at the place of the base vertex that the edge's dart had.
const NOT_FOLLOWING_ZONES: Edit =
    ("merges.rs", "= (self.place(one), self.place(other));", "= (self.vertex[p as usize], self.place(other));");

/// "the lower record as it was is kept on a second sheet": it is not.
const NOT_KEPT: Edit =
    ("sheets.rs", "            *lent = kept.unwrap_or(*lent);\n", "            let _ = (lent, kept);\n");

/// "a removal's place is neither read nor written": it is cleared.
const REMOVAL_CLEARS: Edit = ("sheets.rs", "kept.unwrap_or(*lent)", "kept.unwrap_or_default()");

/// A refusal changes neither sheet: a kernel's first record is merged before the kernel is judged.
const REFUSED_MERGES: Edit = (
    "yarn.rs",
    "            act(pyramid)?;\n",
    "            act(pyramid).inspect_err(|_| sheets.sheet[0] = sheets.sheet[0].merged(sheets.sheet[1]))?;\n",
);

/// "4 also covers sheets": they are not judged.
const SHEETS_NOT_JUDGED: Edit = (
    "sheets.rs",
    "(same_sheet && same_kept).then_some(first)",
    "(same_sheet && same_kept || base.edges() > 0).then_some(first)",
);

/// The kept records are not judged, but for what they make of the sheet.
const KEPT_NOT_JUDGED: Edit = (
    "sheets.rs",
    "(same_sheet && same_kept).then_some(first)",
    "(same_sheet && (same_kept || base.edges() > 0)).then_some(first)",
);

/// "sheets that no accepted start .. give": the limits of the base's records are not judged again.
const ANY_START: Edit =
    ("sheets.rs", "        if unfit(base, &first).is_some() {\n", "        if base.edges() == 0 {\n");

/// "(the others are not looked at)": every one of the D records is.
const EVERY_PLACE: Edit = ("sheets.rs", "    looked_at(base).find(", "    (0..base.table().len()).find(");

/// "place the first such record": as the how manieth it is.
const PLACE_AMONG_VERTICES: Edit =
    ("sheets.rs", "    looked_at(base).find(|&place|", "    looked_at(base).position(|place|");

/// "stitches, up to 65,535", "metres .. from 0 to 100,000 (a NaN is not)": one more, the next number above, minus zero not,
/// and a NaN.
const ONE_STITCH_MORE: Edit = ("record.rs", "MOST_STITCHES: u32 = 65_535", "MOST_STITCHES: u32 = 65_536");
const NEXT_ABOVE: Edit =
    ("record.rs", "MOST_METRES: f64 = 100_000.0", "MOST_METRES: f64 = f64::from_bits(4_681_608_360_884_174_849)");
const NO_MINUS_ZERO: Edit = (
    "record.rs",
    "(0.0..=MOST_METRES).contains(&metres)",
    "metres.is_sign_positive() && (0.0..=MOST_METRES).contains(&metres)",
);
const A_NAN: Edit =
    ("record.rs", "(0.0..=MOST_METRES).contains(&metres)", "(0.0..=MOST_METRES).contains(&metres) || metres.is_nan()");

/// "a second sheet of D/2 places": its length is not asked for.
const KEPT_NOT_ASKED_FOR: Edit =
    ("sheets.rs", "self.sheet.len() < darts || self.kept.len() < darts / 2", "self.sheet.len() < darts");

/// "M in decimal with three places, cut off": rounded.
const ROUNDED: Edit = (
    "costs.rs",
    "(u128::from(significand) * 1000).checked_shr(halvings)",
    "(u128::from(significand) * 1000 + (1 << (halvings.min(100) - 1))).checked_shr(halvings)",
);

/// "`?` where it is no number from 0 to 10^12": minus zero is one.
const MINUS_ZERO_IS_NONE: Edit = (
    "costs.rs",
    "if (0.0..=MOST_METRES).contains(&metres) =>",
    "if metres.is_sign_positive() && metres <= MOST_METRES =>",
);

/// "prints nothing" where too few records are lent: it prints those zones whose records are.
const SHORT_SHEET_SHOWN: Edit =
    ("costs.rs", "sheets.sheet.get(..darts))", "Some(&sheets.sheet[..darts.min(sheets.sheet.len())]))");

/// Both groups that have sheets must find the fault.
fn both_find(faults: &[(&str, Edit)]) {
    for &(name, edit) in faults {
        let copy = second_with(name, &[edit]);
        found(&copy, "worked", "zones", 200);
        found(&copy, "yarn", "zones", 2_000);
    }
}

#[test]
fn records_merged_or_returned_wrong_are_found() {
    both_find(&[
        ("by-subtracting", BY_SUBTRACTING),
        ("measured-after-all", MEASURED_AFTER_ALL),
        ("higher-place", HIGHER_PLACE),
        ("not-following-zones", NOT_FOLLOWING_ZONES),
    ]);
}

#[test]
fn records_kept_wrong_are_found() {
    both_find(&[("not-kept", NOT_KEPT), ("removal-clears", REMOVAL_CLEARS), ("refused-merges", REFUSED_MERGES)]);
}

#[test]
fn sheets_judged_wrong_are_found() {
    both_find(&[
        ("sheets-not-judged", SHEETS_NOT_JUDGED),
        ("every-place", EVERY_PLACE),
        ("place-among-vertices", PLACE_AMONG_VERTICES),
        ("kept-not-judged", KEPT_NOT_JUDGED),
    ]);
    for (name, edit) in [("any-start", ANY_START), ("kept-not-asked-for", KEPT_NOT_ASKED_FOR)] {
        let copy = second_with(name, &[edit]);
        found(&copy, "yarn", "zones", 2_000);
    }
}

#[test]
fn other_limits_are_found() {
    both_find(&[
        ("one-stitch-more", ONE_STITCH_MORE),
        ("next-above", NEXT_ABOVE),
        ("no-minus-zero", NO_MINUS_ZERO),
        ("a-nan", A_NAN),
    ]);
}

#[test]
fn costs_printed_wrong_are_found() {
    for (name, edit) in [("rounded", ROUNDED), ("minus-zero-is-none", MINUS_ZERO_IS_NONE)] {
        let copy = second_with(name, &[edit]);
        found(&copy, "yarn", "zones", 2_000);
        found(&copy, "lines", "zones", 2_000);
    }
    let copy = second_with("short-sheet-shown", &[SHORT_SHEET_SHOWN]);
    found(&copy, "yarn", "zones", 2_000);
}
