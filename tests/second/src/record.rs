//! Yarn   == metres, "a 64-bit float", or not measured
//! Record == the figures of one zone: its stitches and its yarn
//! merged == the lower record, once the other one is merged into it
//! fit    == the record may stand on a base's sheet
//!
//! Two records are the same "bit for bit". There is one NaN: "the bits of a NaN need not be kept".

/// "a yarn figure that is either metres, a 64-bit float, or not measured"
#[derive(Clone, Copy, Debug)]
pub enum Yarn {
    Metres(f64),
    NotMeasured,
}

/// "stitches, up to 65,535": in a base. "32 bits hold every sum of stitches."
#[derive(Clone, Copy, Debug)]
pub struct Record {
    pub stitches: u32,
    pub yarn: Yarn,
}

/// "These limits are for the base's records; merged ones may be larger".
const MOST_STITCHES: u32 = 65_535;
const MOST_METRES: f64 = 100_000.0;

/// "At first each record is `0:0`"
impl Default for Record {
    fn default() -> Record {
        Record { stitches: 0, yarn: Yarn::Metres(0.0) }
    }
}

impl PartialEq for Record {
    fn eq(&self, other: &Record) -> bool {
        self.numbers() == other.numbers()
    }
}

impl Eq for Record {}

impl Yarn {
    /// "metres add with one rounding and the lower record first, and not measured with anything is not measured"
    fn merged(self, other: Yarn) -> Yarn {
        match (self, other) {
            (Yarn::Metres(lower), Yarn::Metres(other)) => Yarn::Metres(lower + other),
            _ => Yarn::NotMeasured,
        }
    }

    /// "metres not from 0 to 100,000 (a NaN is not)": minus zero is from 0, since 0 is not above it.
    fn fit(self) -> bool {
        match self {
            Yarn::Metres(metres) => (0.0..=MOST_METRES).contains(&metres),
            Yarn::NotMeasured => true,
        }
    }
}

impl Record {
    /// "A contraction merges the two records into the lower-numbered one: stitches add".
    pub fn merged(self, other: Record) -> Record {
        Record { stitches: self.stitches + other.stitches, yarn: self.yarn.merged(other.yarn) }
    }

    pub fn fit(self) -> bool {
        self.stitches <= MOST_STITCHES && self.yarn.fit()
    }

    /// What it counts as in a checksum: "four numbers, its stitches, then 0 0 0 for not measured, 1, the high 32 bits and the
    /// low 32 bits for metres, 2 0 0 for a NaN".
    pub fn numbers(self) -> [u32; 4] {
        match self.yarn {
            Yarn::NotMeasured => [self.stitches, 0, 0, 0],
            Yarn::Metres(metres) if metres.is_nan() => [self.stitches, 2, 0, 0],
            Yarn::Metres(metres) => {
                let bits = metres.to_bits();
                [self.stitches, 1, (bits >> 32) as u32, bits as u32]
            }
        }
    }
}
