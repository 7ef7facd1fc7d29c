//! Sheets == both sheets as the program holds them at this point of a script, and how much of them is lent

use crate::chance::Chance;
use crate::records;
use crate::script::Script;
use second::map::Map;
use second::merges::{merges, places};
use second::pyramid::Pyramid;
use second::record::Record;
use second::sheets::LentSheets;
use second::state::MOST_DARTS;

#[derive(Clone)]
pub struct Sheets {
    pub sheet: Vec<Record>,
    pub kept: Vec<Record>,
    pub lent: [u32; 2],
}

/// "D places", "D/2 places"
pub fn needed_sheets(darts: u32) -> [u32; 2] {
    [darts, darts / 2]
}

/// A record of this sort at each of the D places, also at those that are not looked at; now and then more is lent than is
/// needed.
pub fn sheets_of(chance: &mut Chance, darts: u32, record: fn(&mut Chance) -> Record) -> Sheets {
    let more = if darts + 8 <= MOST_DARTS { [0, 0, 1, 4] } else { [0; 4] };
    let lent = needed_sheets(darts).map(|length| length + chance.pick(&more));
    let sheet = (0..darts).map(|_| record(chance)).collect();
    Sheets { sheet, kept: vec![Record::default(); darts as usize / 2], lent }
}

/// The base's places, by rising number, and all others.
pub fn looked_at(base: &Map) -> (Vec<usize>, Vec<usize>) {
    let places = places(base);
    (0..places.len()).partition(|&dart| places[dart] == dart)
}

impl Sheets {
    fn lend(&mut self) -> LentSheets<'_> {
        LentSheets { sheet: &mut self.sheet, kept: &mut self.kept }
    }

    /// Does a start from this base accept the sheet?
    pub fn fit(&mut self, base: &Map) -> bool {
        self.lend().judge_records(base).is_ok()
    }

    /// The base's sheet that the operations of this pyramid made these sheets of, if there is one.
    pub fn first(&mut self, pyramid: &Pyramid) -> Option<Vec<Record>> {
        self.lend().base_sheet(pyramid)
    }

    /// The sheets that a base's sheet and the operations of this pyramid give.
    pub fn store(&mut self, first: &[Record], pyramid: &Pyramid) {
        self.lend().store(first, pyramid);
    }

    /// Both as they stand.
    pub fn put(&self, script: &mut Script) {
        script.records("sheet", 0, &self.sheet);
        script.records("kept", 0, &self.kept);
    }

    /// One record, in the script too. A kept one stands behind the D of the sheet.
    pub fn set(&mut self, script: &mut Script, place: usize, record: Record) {
        let darts = self.sheet.len();
        if place < darts {
            self.sheet[place] = record;
            script.records("sheet", place as u32, &[record]);
        } else {
            self.kept[place - darts] = record;
            script.records("kept", (place - darts) as u32, &[record]);
        }
    }

    /// The records that differ, as they were before.
    pub fn put_back(&mut self, script: &mut Script, before: &Sheets) {
        for place in 0..self.sheet.len() + self.kept.len() {
            if self.at(place) != before.at(place) {
                self.set(script, place, before.at(place));
            }
        }
    }

    fn at(&self, place: usize) -> Record {
        let darts = self.sheet.len();
        if place < darts {
            self.sheet[place]
        } else {
            self.kept[place - darts]
        }
    }

    /// One of the places of both sheets, those of the kept records behind the D of the sheet: one that a merge reads or wrote,
    /// a base's, or one that is not looked at.
    fn any_place(&self, chance: &mut Chance, pyramid: &Pyramid) -> usize {
        let darts = self.sheet.len();
        let (base, others) = looked_at(&pyramid.levels()[0].map);
        let merges = merges(pyramid);
        let operations = |contraction: bool| {
            let places = (0..self.kept.len()).filter(|&t| merges.get(t).copied().flatten().is_some() == contraction);
            places.map(|t| darts + t).collect()
        };
        let ways: [Vec<usize>; 6] = [
            merges.iter().flatten().map(|merge| merge.low).collect(),
            merges.iter().flatten().map(|merge| merge.high).collect(),
            operations(true),
            operations(false),
            base,
            others,
        ];
        let ways: Vec<Vec<usize>> = ways.into_iter().filter(|places| !places.is_empty()).collect();
        let places = chance.pick(&ways);
        chance.pick(&places)
    }

    /// One record changed, or two exchanged, or a stitch of one given to another.
    pub fn damage(&mut self, script: &mut Script, chance: &mut Chance, pyramid: &Pyramid) {
        let (one, two) = (self.any_place(chance, pyramid), self.any_place(chance, pyramid));
        let (of_one, of_two) = (self.at(one), self.at(two));
        match chance.below(8) {
            0 => {
                self.set(script, one, of_two);
                self.set(script, two, of_one);
            }
            1 if one != two => {
                self.set(script, one, Record { stitches: of_one.stitches.wrapping_sub(1), ..of_one });
                self.set(script, two, Record { stitches: of_two.stitches.wrapping_add(1), ..of_two });
            }
            2 => self.set(script, one, records::fit(chance)),
            _ => self.set(script, one, records::other(chance, of_one)),
        }
    }

    /// All records of both sheets follow from a base's sheet with one record outside its limits, or changed within them: sums
    /// and kept records fit each other.
    pub fn other_base(&mut self, script: &mut Script, chance: &mut Chance, pyramid: &Pyramid) {
        let Some(mut first) = self.first(pyramid) else { return };
        let place = chance.pick(&looked_at(&pyramid.levels()[0].map).0);
        first[place] = if chance.one_in(4) { records::fit(chance) } else { records::unfit(chance) };
        self.store(&first, pyramid);
        self.put(script);
    }
}
