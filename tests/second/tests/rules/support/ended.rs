//! Ended == everything that a lookup is lent; past what document 02 asks for, and in the work area, stand marks

use super::lot::MARK;
use super::maps::T;
use second::answer::Answer;
use second::calls::successor;
use second::ends::Built;
use second::lent::LentEnds;
use second::lookup::Found;
use second::operation::{edge_of, kind_of, Kind};
use second::pyramid::Pyramid;

#[derive(Clone, Debug, PartialEq, Eq)]
pub struct Ended {
    pub table: Vec<u32>,
    pub ends: Vec<u32>,
    pub work: Vec<u32>,
}

/// "2L for an edge removed at level L, 2L + 1 for one contracted"
pub fn end(level: usize, kind: Kind) -> u32 {
    2 * level as u32 + u32::from(kind == Kind::Contract)
}

/// The end of each edge of a pyramid; for one that survives 0.
pub fn ends_of(pyramid: &Pyramid) -> Vec<u32> {
    let mut ends = vec![0; pyramid.map().edges() as usize];
    for (level, numbers) in (1..).zip(pyramid.kernels()) {
        for &number in numbers {
            ends[edge_of(number) as usize] = end(level, kind_of(number));
        }
    }
    ends
}

/// K12: T with the kernels contract 0, 1 and remove 2.
pub fn k12() -> Ended {
    Ended::new(&T, &[3, 3, 4, 0])
}

impl Ended {
    pub fn new(table: &[u32], ends: &[u32]) -> Ended {
        let marked = |numbers: &[u32]| [numbers, &[MARK; 3]].concat();
        Ended { table: marked(table), ends: marked(ends), work: vec![MARK; 4 * table.len() + 3] }
    }

    /// A pyramid's base with its edges' ends.
    pub fn of(pyramid: &Pyramid) -> Ended {
        Ended::new(pyramid.levels()[0].map.table(), &ends_of(pyramid))
    }

    pub fn call(&mut self, darts: u32, k: u32, dart: u32) -> (Answer, Found) {
        self.call_on(darts, k, dart, &mut Built::default())
    }

    /// The same with the pyramid that was built last.
    pub fn call_on(&mut self, darts: u32, k: u32, dart: u32, built: &mut Built) -> (Answer, Found) {
        let mut lent = LentEnds { table: &self.table, ends: &self.ends, work: &mut self.work };
        successor(darts, k, dart, &mut lent, built)
    }

    /// Makes the call, which must leave the first `zeroed` numbers of the work area zero, and all else as it was.
    fn call_leaving(&self, darts: u32, k: u32, dart: u32, zeroed: usize) -> (Answer, Found) {
        let (mut after, mut expected) = (self.clone(), self.clone());
        let told = after.call(darts, k, dart);
        expected.work[..zeroed].fill(0);
        assert_eq!(after, expected, "successor {darts} {k} {dart}");
        told
    }

    /// The dart must have this successor at this level, with so many gone darts passed.
    #[track_caller]
    pub fn finds(&self, k: u32, dart: u32, successor: u32, passed: usize) {
        let darts = self.table.len() as u32 - 3;
        let told = self.call_leaving(darts, k, dart, 4 * darts as usize);
        assert_eq!(told, (Answer::done(0), Found { dart: successor, passed }), "dart {dart} at level {k}");
    }

    /// The call must be refused with this number and place: "a refusal gives dart 0 and count 0".
    #[track_caller]
    pub fn refuse(&self, darts: u32, k: u32, dart: u32, number: u32, place: usize, zeroed: usize) {
        let told = self.call_leaving(darts, k, dart, zeroed);
        let answer = Answer { number, place, second: 0 };
        assert_eq!(told, (answer, Found { dart: 0, passed: 0 }), "successor {darts} {k} {dart}");
    }

    /// Table and ends must be 4, whatever is asked.
    #[track_caller]
    pub fn is_no_pyramid(&self) {
        let darts = self.table.len() as u32 - 3;
        for (k, dart) in [(0, 0), (1, darts - 1), (9, 0), (0, darts), (u32::MAX, u32::MAX)] {
            self.refuse(darts, k, dart, 4, 0, 4 * darts as usize);
        }
    }
}
