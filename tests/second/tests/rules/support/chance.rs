//! Chance == a generator of numbers with a fixed seed (xorshift), and random maps and pyramids made with it

use second::kernel::judge;
use second::operation::{operate, Kind};
use second::pyramid::Pyramid;

/// How many random pyramids each property is tried on.
const TRIES: u64 = 20_000;

pub struct Chance(u64);

impl Chance {
    pub fn new(seed: u64) -> Chance {
        Chance(seed.wrapping_mul(0x9E37_79B9_7F4A_7C15) | 1)
    }

    pub fn next(&mut self) -> u64 {
        self.0 ^= self.0 << 13;
        self.0 ^= self.0 >> 7;
        self.0 ^= self.0 << 17;
        self.0
    }

    /// A number below the bound.
    pub fn below(&mut self, bound: u32) -> u32 {
        ((self.next() >> 16) % u64::from(bound)) as u32
    }

    pub fn coin(&mut self) -> bool {
        self.below(2) == 0
    }

    pub fn kind(&mut self) -> Kind {
        if self.coin() {
            Kind::Contract
        } else {
            Kind::Remove
        }
    }

    pub fn shuffle<V>(&mut self, values: &mut [V]) {
        for i in (1..values.len()).rev() {
            values.swap(i, self.below(i as u32 + 1) as usize);
        }
    }

    /// A base of 2 to 12 darts, more often of many: the darts in any order, cut into cycles that are short one time
    /// and long another.
    pub fn base(&mut self) -> Vec<u32> {
        let darts = 2 * (1 + self.below(6).max(self.below(6)));
        let mut order: Vec<u32> = (0..darts).collect();
        self.shuffle(&mut order);
        let cut_one_in = 2 + self.below(8);
        let mut table = vec![0; order.len()];
        let mut first = 0;
        for i in 0..order.len() {
            let last = i + 1 == order.len() || self.below(cut_one_in) == 0;
            let next = if last { order[first] } else { order[i + 1] };
            table[order[i] as usize] = next;
            if last {
                first = i + 1;
            }
        }
        table
    }

    /// A kernel of one kind that the map of the present level accepts; empty where chance finds none.
    pub fn kernel(&mut self, pyramid: &Pyramid, kind: Kind) -> Vec<u32> {
        let mut map = pyramid.map().clone();
        let mut kernel = Vec::new();
        for _ in 0..1 + self.below(4) {
            let edge = self.below(map.edges());
            if judge(&map, kind, edge, 0).is_ok() {
                operate(&mut map, kind, edge);
                kernel.push(edge);
            }
        }
        kernel
    }

    /// A pyramid of up to nine kernels.
    pub fn pyramid(&mut self) -> Pyramid {
        let mut pyramid = Pyramid::start(&self.base()).expect("a base");
        for _ in 0..self.below(10) {
            let kind = self.kind();
            let kernel = self.kernel(&pyramid, kind);
            if !kernel.is_empty() {
                pyramid.reduce(kind, &kernel).expect("each edge was judged");
            }
        }
        pyramid
    }
}

/// Tries a property on random pyramids.
pub fn on_random_pyramids(property: impl Fn(&Pyramid, &mut Chance)) {
    for seed in 0..TRIES {
        let mut chance = Chance::new(seed);
        let pyramid = chance.pyramid();
        property(&pyramid, &mut chance);
    }
}

#[test]
fn random_pyramids_are_of_many_sorts() {
    let mut seen = [0u32; 5];
    for seed in 0..TRIES {
        seen[Chance::new(seed).pyramid().top().min(4)] += 1;
    }
    println!("{seen:?} pyramids of 0, 1, 2, 3 and more levels");
    assert!(seen.iter().all(|&times| times > 200));
}
