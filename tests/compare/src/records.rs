//! Records of a sheet
//!
//! fit   == one that a start accepts, the limits included
//! short == a fit one that takes few bytes in a script, but for one in fifty
//! unfit == one that a start refuses with 16, each reason as often as any other
//! other == a record that differs from this one, by one bit as often as by much

use crate::chance::Chance;
use second::record::{Record, Yarn};

fn measured(stitches: u32, metres: f64) -> Record {
    Record { stitches, yarn: Yarn::Metres(metres) }
}

/// "stitches, up to 65,535"
fn fit_stitches(chance: &mut Chance) -> u32 {
    match chance.below(8) {
        0 => chance.pick(&[0, 1, 65_534, 65_535]),
        1..=4 => chance.below(100),
        _ => chance.below(65_536),
    }
}

/// "metres .. from 0 to 100,000": minus zero, the smallest there is, and numbers whose sums are rounded.
fn fit_metres(chance: &mut Chance) -> f64 {
    let limits = [0.0, -0.0, 5e-324, f64::MIN_POSITIVE, 100_000.0, 99_999.999_999_999_99, 0.5];
    match chance.below(5) {
        0 => chance.pick(&limits),
        1 | 2 => f64::from(chance.below(1_000)) / chance.pick(&[10.0, 100.0, 3.0]),
        _ => f64::from(chance.below(100_000)) + f64::from(chance.below(u32::MAX)) / f64::from(u32::MAX),
    }
}

pub fn fit(chance: &mut Chance) -> Record {
    let stitches = fit_stitches(chance);
    match chance.below(8) {
        0 => Record { stitches, yarn: Yarn::NotMeasured },
        _ => measured(stitches, fit_metres(chance)),
    }
}

pub fn short(chance: &mut Chance) -> Record {
    match chance.below(100) {
        0 | 1 => fit(chance),
        2 => Record { stitches: chance.below(10), yarn: Yarn::NotMeasured },
        _ => measured(chance.below(10), 0.0),
    }
}

/// "metres not from 0 to 100,000 (a NaN is not) or stitches too many": the first number above each limit, and those far above.
pub fn unfit(chance: &mut Chance) -> Record {
    let above = f64::from_bits(100_000_f64.to_bits() + 1);
    let metres = [above, 100_001.0, f64::MAX, f64::INFINITY, f64::NEG_INFINITY, -5e-324, -0.1, f64::NAN, -f64::NAN];
    match chance.below(3) {
        0 => Record { stitches: chance.pick(&[65_536, 65_536, 65_537, 131_071]), yarn: fit(chance).yarn },
        _ => measured(fit_stitches(chance), chance.pick(&metres)),
    }
}

/// A bit or a stitch, the yarn measured or not, or what no start and no merge gives.
pub fn other(chance: &mut Chance, record: Record) -> Record {
    let Record { stitches, yarn } = record;
    match (chance.below(8), yarn) {
        (0, _) => Record { stitches: stitches ^ (1 << chance.below(32)), yarn },
        (1, _) => Record { stitches: stitches.wrapping_add(1), yarn },
        (2, _) => Record { stitches: stitches.wrapping_sub(1), yarn },
        (3, Yarn::Metres(_)) => Record { stitches, yarn: Yarn::NotMeasured },
        (4, Yarn::Metres(metres)) => measured(stitches, f64::from_bits(metres.to_bits() ^ (1 << chance.below(52)))),
        (5, Yarn::Metres(metres)) => measured(stitches, f64::from_bits(metres.to_bits() ^ (1 << chance.below(64)))),
        (3..=5, Yarn::NotMeasured) => measured(stitches, chance.pick(&[0.0, 0.5, 100_000.0])),
        (6, _) => Record { stitches: u32::MAX, yarn },
        _ => measured(stitches, chance.pick(&[f64::NAN, f64::INFINITY, f64::NEG_INFINITY, -1.0, 1e300, -0.0])),
    }
}
