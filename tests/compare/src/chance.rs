//! Chance == numbers that look random and are the same for the same seed (SplitMix64)

use second::operation::Kind;

pub struct Chance(u64);

impl Chance {
    pub fn new(seed: u64) -> Chance {
        Chance(seed)
    }

    fn next(&mut self) -> u64 {
        self.0 = self.0.wrapping_add(0x9E37_79B9_7F4A_7C15);
        let mut z = self.0;
        z = (z ^ (z >> 30)).wrapping_mul(0xBF58_476D_1CE4_E5B9);
        z = (z ^ (z >> 27)).wrapping_mul(0x94D0_49BB_1331_11EB);
        z ^ (z >> 31)
    }

    /// A number below the bound.
    pub fn below(&mut self, bound: u32) -> u32 {
        (((self.next() >> 32) * u64::from(bound)) >> 32) as u32
    }

    /// A place in a list of this length.
    pub fn place(&mut self, length: usize) -> usize {
        self.below(length as u32) as usize
    }

    /// A number from the first to the last, both included.
    pub fn between(&mut self, first: u32, last: u32) -> u32 {
        first + self.below(last - first + 1)
    }

    pub fn one_in(&mut self, times: u32) -> bool {
        self.below(times) == 0
    }

    pub fn pick<V: Clone>(&mut self, values: &[V]) -> V {
        values[self.place(values.len())].clone()
    }

    /// One of the values; one with twice the weight comes twice as often.
    pub fn weighed<V: Clone>(&mut self, values: &[(u32, V)]) -> V {
        let mut left = self.below(values.iter().map(|(weight, _)| weight).sum());
        for (weight, value) in values {
            match left.checked_sub(*weight) {
                Some(less) => left = less,
                None => return value.clone(),
            }
        }
        unreachable!("what is below the sum lies in one of the parts")
    }

    pub fn shuffle<V>(&mut self, values: &mut [V]) {
        for i in (1..values.len()).rev() {
            values.swap(i, self.place(i + 1));
        }
    }

    pub fn kind(&mut self) -> Kind {
        self.pick(&[Kind::Contract, Kind::Remove])
    }

    /// So many numbers of all sizes: the small ones that a dart or a mark could be, and any others.
    pub fn rubbish(&mut self, length: u32) -> Vec<u32> {
        let bound = self.pick(&[2, 50, 70_000, u32::MAX]);
        (0..length).map(|_| self.below(bound)).collect()
    }
}
