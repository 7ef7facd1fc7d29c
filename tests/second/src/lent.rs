//! Lent     == the table, the history and the work area that a call is lent
//! LentEnds == the table, the edges' ends and the work area that a lookup is lent

use crate::answer::Refusal;
use crate::pyramid::Pyramid;
use crate::state::MOST_DARTS;

/// "Each call on this page is lent the table with at least D numbers, the history with D/2 and the work area with 4D; less
/// is answer 2." In a lookup the ends stand in the history's place: they "are lent as D/2 places".
fn judge(darts: u32, table: usize, history: usize, work: usize) -> Result<(), Refusal> {
    if !darts.is_multiple_of(2) || darts == 0 || darts > MOST_DARTS {
        return Err(Refusal::BadDarts);
    }
    let darts = darts as usize;
    if table < darts || history < darts / 2 || work < 4 * darts {
        return Err(Refusal::ShortSlice);
    }
    Ok(())
}

fn clear(work: &mut [u32], darts: u32) {
    work[..4 * darts as usize].fill(0);
}

/// "The table and history are lent slices."
pub struct Lent<'a> {
    pub table: &'a mut [u32],
    pub history: &'a mut [u32],
    pub work: &'a mut [u32],
}

impl Lent<'_> {
    /// Answers 1 and 2, from the numbers and lengths alone.
    pub fn judge(&self, darts: u32) -> Result<(), Refusal> {
        judge(darts, self.table.len(), self.history.len(), self.work.len())
    }

    /// The first D entries of the table: no others are read.
    pub fn entries(&self, darts: u32) -> &[u32] {
        &self.table[..darts as usize]
    }

    /// "After every call except those answered 1 or 2 the work area's first 4D numbers are zero"
    pub fn clear_work(&mut self, darts: u32) {
        clear(self.work, darts);
    }

    /// What an accepted call leaves: D entries of the table and the numbers of the history up to the count. "Numbers
    /// of a lent table past D are neither read nor written, nor those of a history past the larger of the operation
    /// counts before and after the call."
    pub fn store(&mut self, pyramid: &Pyramid) {
        let (table, history) = (pyramid.map().table(), pyramid.history());
        self.table[..table.len()].copy_from_slice(table);
        self.history[..history.len()].copy_from_slice(history);
    }
}

/// "From the base table and, for each edge, the level and kind of its end": both are only read.
pub struct LentEnds<'a> {
    pub table: &'a [u32],
    pub ends: &'a [u32],
    pub work: &'a mut [u32],
}

impl LentEnds<'_> {
    /// Answers 1 and 2.
    pub fn judge(&self, darts: u32) -> Result<(), Refusal> {
        judge(darts, self.table.len(), self.ends.len(), self.work.len())
    }

    /// The first D entries of the table: no others are read.
    pub fn entries(&self, darts: u32) -> &[u32] {
        &self.table[..darts as usize]
    }

    /// The first D/2 ends: no others are read.
    pub fn ends(&self, darts: u32) -> &[u32] {
        &self.ends[..darts as usize / 2]
    }

    /// "Table and work area are as on page 01."
    pub fn clear_work(&mut self, darts: u32) {
        clear(self.work, darts);
    }
}
