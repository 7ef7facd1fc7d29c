//! LentSheets == the sheet of zones' records, and the sheet of the records that operations kept
//! unfit      == the first place of a base's sheet whose record is outside the limits
//! base_sheet == the base's sheet that an accepted start and a pyramid's operations made these sheets of, if there is one
//! store      == the sheets that a base's sheet and a pyramid's operations give
//!
//! "afterwards 4 also covers sheets that no accepted start and these operations give". What was kept says what stood on the
//! sheet before each contraction, so only one base's sheet can fit. It is judged by merging everything again.

use crate::answer::Refusal;
use crate::map::Map;
use crate::merges::{merges, places, Merge};
use crate::pyramid::Pyramid;
use crate::record::Record;

/// "A lent sheet holds one record for each vertex of the base"; "a second sheet of D/2 places, one an operation".
pub struct LentSheets<'a> {
    pub sheet: &'a mut [Record],
    pub kept: &'a mut [Record],
}

/// The places of the base's vertices: "the others are not looked at".
fn looked_at(base: &Map) -> impl Iterator<Item = usize> {
    places(base).into_iter().enumerate().filter(|(dart, place)| dart == place).map(|(_, place)| place)
}

/// "place the first such record"
fn unfit(base: &Map, sheet: &[Record]) -> Option<usize> {
    looked_at(base).find(|&place| !sheet[place].fit())
}

/// Puts back what each contraction kept, the last one first.
fn undone(sheet: &[Record], kept: &[Record], merges: &[Option<Merge>]) -> Vec<Record> {
    let mut sheet = sheet.to_vec();
    for (operation, merge) in merges.iter().enumerate().rev() {
        if let Some(Merge { low, .. }) = merge {
            sheet[*low] = kept[operation];
        }
    }
    sheet
}

/// The sheet after these operations, and what each contraction kept: "the lower record as it was". "The other record stays as
/// it is."
fn done(base: &[Record], merges: &[Option<Merge>]) -> (Vec<Record>, Vec<Option<Record>>) {
    let mut sheet = base.to_vec();
    let mut kept = Vec::new();
    for merge in merges {
        kept.push(merge.map(|Merge { low, high }| {
            let lower = sheet[low];
            sheet[low] = lower.merged(sheet[high]);
            lower
        }));
    }
    (sheet, kept)
}

impl LentSheets<'_> {
    /// Answer 2 covers the sheets too: D places and D/2.
    pub fn judge(&self, darts: u32) -> Result<(), Refusal> {
        let darts = darts as usize;
        if self.sheet.len() < darts || self.kept.len() < darts / 2 {
            return Err(Refusal::ShortSlice);
        }
        Ok(())
    }

    /// "16, by the start after 3"
    pub fn judge_records(&self, base: &Map) -> Result<(), Refusal> {
        match unfit(base, self.sheet) {
            Some(place) => Err(Refusal::UnfitRecord { place }),
            None => Ok(()),
        }
    }

    /// The sheets are compared where they are looked at: at the base's places, and where contractions kept a record.
    pub fn base_sheet(&self, pyramid: &Pyramid) -> Option<Vec<Record>> {
        let base = &pyramid.levels()[0].map;
        let merges = merges(pyramid);
        let first = undone(&self.sheet[..base.table().len()], self.kept, &merges);
        if unfit(base, &first).is_some() {
            return None;
        }
        let (sheet, kept) = done(&first, &merges);
        let same_sheet = looked_at(base).all(|place| sheet[place] == self.sheet[place]);
        let same_kept = kept.iter().zip(&*self.kept).all(|(kept, lent)| kept.is_none_or(|kept| kept == *lent));
        (same_sheet && same_kept).then_some(first)
    }

    /// What an accepted call leaves. "a removal's place is neither read nor written, nor are places past the count but by a new
    /// contraction"
    pub fn store(&mut self, first: &[Record], pyramid: &Pyramid) {
        let (sheet, kept) = done(first, &merges(pyramid));
        self.sheet[..sheet.len()].copy_from_slice(&sheet);
        for (lent, kept) in self.kept.iter_mut().zip(kept) {
            *lent = kept.unwrap_or(*lent);
        }
    }
}
