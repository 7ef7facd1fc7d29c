//! Level   == one map in full, with the operations done up to it
//! Pyramid == the levels, base first, and the history; only `start` and accepted kernels make one

use crate::answer::Refusal;
use crate::counts::{counts, Counts};
use crate::kernel;
use crate::map::{Dart, Map};
use crate::operation::Kind;
use crate::state::{State, MOST_LEVELS};

/// One level: what the map was when its kernel had been done.
#[derive(Clone, Debug)]
pub struct Level {
    pub map: Map,
    /// "the operation count after each kernel"; 0 for the base
    pub operations: usize,
}

/// "every level in full"
#[derive(Clone, Debug)]
pub struct Pyramid {
    levels: Vec<Level>,
    history: Vec<u32>,
}

/// "lowest dart whose successor is D or more, or repeats a lower dart's"
fn no_permutation(table: &[u32]) -> Option<usize> {
    let mut taken = vec![false; table.len()];
    table.iter().position(|&successor| match taken.get_mut(successor as usize) {
        None => true,
        Some(taken) => std::mem::replace(taken, true),
    })
}

/// "which lower dart already has that successor, or that the successor is out of range": "D where the value was out of
/// range". Below the lowest such dart all successors are darts, so that none of them is one that is out of range.
fn second_culprit(table: &[u32], dart: usize) -> usize {
    let has_it_already = table[..dart].iter().position(|&successor| successor == table[dart]);
    has_it_already.unwrap_or(table.len())
}

impl Pyramid {
    /// "In a base the table is a permutation of all darts." The refusal has both culprits: "The start call passes it on;
    /// the reader and the pyramid check use the new test inside and still answer 4."
    pub fn start(table: &[Dart]) -> Result<Pyramid, Refusal> {
        if let Some(dart) = no_permutation(table) {
            return Err(Refusal::NoPermutation { dart, second: second_culprit(table, dart) });
        }
        let map = Map::new(table, vec![true; table.len()]);
        Ok(Pyramid { levels: vec![Level { map, operations: 0 }], history: Vec::new() })
    }

    /// The levels, base first: there is always one.
    pub fn levels(&self) -> &[Level] {
        &self.levels
    }

    /// The number of kernels over the base.
    pub fn top(&self) -> usize {
        self.levels.len() - 1
    }

    /// The map of the present level.
    pub fn map(&self) -> &Map {
        &self.levels[self.top()].map
    }

    pub fn history(&self) -> &[u32] {
        &self.history
    }

    /// The history numbers of each kernel, lowest first.
    pub fn kernels(&self) -> impl DoubleEndedIterator<Item = &[u32]> + ExactSizeIterator {
        self.levels.windows(2).map(|pair| &self.history[pair[0].operations..pair[1].operations])
    }

    /// The state that goes with this pyramid. Its two numbers are counted each time, from the cycles of the present level.
    pub fn state(&self) -> State {
        let mut ends = [0; MOST_LEVELS];
        for (end, level) in ends.iter_mut().zip(&self.levels[1..]) {
            *end = level.operations as u32;
        }
        let Counts { vertices, faces, .. } = counts(self.map());
        State {
            darts: self.map().table().len() as u32,
            operations: self.history.len() as u32,
            levels: self.top() as u32,
            vertices,
            faces,
            ends,
        }
    }

    /// "6: 64 levels are in use"
    fn judge_room(&self) -> Result<(), Refusal> {
        if self.top() == MOST_LEVELS {
            return Err(Refusal::TooManyLevels);
        }
        Ok(())
    }

    /// A kernel's map and numbers become the new top level. "5: the kernel is empty"
    fn add_level(&mut self, map: Map, numbers: Vec<u32>) -> Result<(), Refusal> {
        if numbers.is_empty() {
            return Err(Refusal::EmptyKernel);
        }
        self.history.extend(numbers);
        self.levels.push(Level { map, operations: self.history.len() });
        Ok(())
    }

    /// "reduce by a kernel": done on a copy, so that a refusal leaves nothing behind.
    pub fn reduce(&mut self, kind: Kind, edges: &[u32]) -> Result<(), Refusal> {
        self.judge_room()?;
        let mut map = self.map().clone();
        let numbers = kernel::reduce(&mut map, kind, edges)?;
        self.add_level(map, numbers)
    }

    /// "The sweep is a removal kernel". "A sweep that takes no edge is an empty kernel (answer 5)."
    pub fn sweep(&mut self) -> Result<(), Refusal> {
        self.judge_room()?;
        let mut map = self.map().clone();
        let numbers = kernel::sweep(&mut map);
        self.add_level(map, numbers)
    }

    /// "undo one level": back to the stored level below. "12: undo at the base"
    pub fn undo(&mut self) -> Result<(), Refusal> {
        match self.top() {
            0 => Err(Refusal::NoSuchLevel { top: 0 }),
            top => self.unfold(top - 1),
        }
    }

    /// "unfold to level k (k at or below the top; it equals that many undos, and the top itself changes nothing)"
    pub fn unfold(&mut self, k: usize) -> Result<(), Refusal> {
        if k > self.top() {
            return Err(Refusal::NoSuchLevel { top: self.top() });
        }
        self.levels.truncate(k + 1);
        self.history.truncate(self.levels[k].operations);
        Ok(())
    }
}
