//! Sheets judged a second way: each record is told from what the last merge into its place left, and nothing is undone.
//!
//! The record that operation t left at its lower place is the one it kept with the other one merged into it, and that other
//! one is never written again. So a record that no merge went into is a base's, and must be fit; any other is that sum.

use crate::support::chance::{on_random_pyramids, Chance};
use crate::support::costed::{any_fit, base_places, measured, unmeasured, Costed};
use second::merges::{merges, Merge};
use second::pyramid::Pyramid;
use second::record::{Record, Yarn};
use second::sheets::LentSheets;
use std::cell::Cell;

/// The last of the first n operations that merged a record into the one at x.
fn last_into(merges: &[Option<Merge>], n: usize, x: usize) -> Option<usize> {
    (0..n).rev().find(|&t| merges[t].is_some_and(|merge| merge.low == x))
}

/// Is this record the sum of the two? Stitches may be any numbers of 32 bits.
fn is_sum(record: Record, lower: Record, other: Record) -> bool {
    let yarn = match (lower.yarn, other.yarn) {
        (Yarn::Metres(lower), Yarn::Metres(other)) => Yarn::Metres(lower + other),
        _ => Yarn::NotMeasured,
    };
    u64::from(record.stitches) == u64::from(lower.stitches) + u64::from(other.stitches)
        && record == Record { yarn, ..record }
}

fn right(costed: &Costed, pyramid: &Pyramid) -> bool {
    let merges = merges(pyramid);
    let sound = |last: Option<usize>, record: Record| match last {
        Some(t) => {
            let high = merges[t].map_or(0, |merge| merge.high);
            is_sum(record, costed.kept[t], costed.sheet[high])
        }
        None => record.fit(),
    };
    let kept = |t: usize| merges[t].is_none_or(|merge| sound(last_into(&merges, t, merge.low), costed.kept[t]));
    let places = base_places(&pyramid.levels()[0].map);
    let sheet = |place: &usize| sound(last_into(&merges, merges.len(), *place), costed.sheet[*place]);
    (0..merges.len()).all(kept) && places.iter().all(sheet)
}

fn any_record(chance: &mut Chance) -> Record {
    let any = [f64::NAN, f64::INFINITY, f64::NEG_INFINITY, -0.0, 0.0, 1e300, -1.0, 100_000.0, 100_001.0];
    match chance.below(4) {
        0 => unmeasured(chance.below(3)),
        1 => unmeasured(u32::MAX - chance.below(3)),
        2 => measured(65_534 + chance.below(3), any[chance.below(9) as usize]),
        _ => any_fit(chance),
    }
}

/// A bit of the metres, or a stitch.
fn nearly(chance: &mut Chance, record: Record) -> Record {
    match record.yarn {
        Yarn::Metres(metres) if chance.coin() => {
            Record { yarn: Yarn::Metres(f64::from_bits(metres.to_bits() ^ (1 << chance.below(53)))), ..record }
        }
        _ => Record { stitches: record.stitches.wrapping_add(1), ..record },
    }
}

/// One record changed, or all that follows from one base record changed.
fn damage(costed: &mut Costed, pyramid: &Pyramid, chance: &mut Chance) {
    let places = base_places(&pyramid.levels()[0].map);
    let place = places[chance.below(places.len() as u32) as usize];
    let operation = chance.below(costed.kept.len() as u32) as usize;
    match chance.below(5) {
        0 => costed.sheet[place] = any_record(chance),
        1 => costed.sheet[place] = nearly(chance, costed.sheet[place]),
        2 => costed.kept[operation] = any_record(chance),
        3 => costed.kept[operation] = nearly(chance, costed.kept[operation]),
        _ => {
            let mut sheets = LentSheets { sheet: &mut costed.sheet, kept: &mut costed.kept };
            let Some(mut first) = sheets.base_sheet(pyramid) else { return };
            first[place] = measured(65_530 + chance.below(10), [0.5, 1e5, 1e6, f64::NAN][chance.below(4) as usize]);
            sheets.store(&first, pyramid);
        }
    }
}

#[test]
fn both_ways_judge_the_same() {
    let times = Cell::new([0u32; 2]);
    on_random_pyramids(|pyramid, chance| {
        let mut costed = Costed::of(pyramid, chance);
        for _ in 0..chance.below(4) {
            damage(&mut costed, pyramid, chance);
        }
        let told = right(&costed, pyramid);
        let sheets = LentSheets { sheet: &mut costed.sheet, kept: &mut costed.kept };
        assert_eq!(sheets.base_sheet(pyramid).is_some(), told, "{:?} {costed:?}", pyramid.history());
        let mut counted = times.get();
        counted[usize::from(told)] += 1;
        times.set(counted);
    });
    assert!(times.get().iter().all(|&sheets| sheets > 3_000), "{:?} sheets were wrong and right", times.get());
}
