//! Rooms == the rooms of a script, "all zero at the start", and how much of them is lent
//! None from a function below stands for an error line.

use crate::lent::{Lent, LentEnds};
use crate::record::Record;
use crate::sheets::LentSheets;

/// "so that a number written outside what was lent shows": what is summed up past the numbers lent.
pub const AFTER: usize = 4;

/// The rooms that a script can put numbers into.
#[derive(Clone, Copy, Debug, PartialEq, Eq)]
pub enum Room {
    Table,
    History,
    Work,
    Ends,
}

/// The rooms that a script can put records into.
#[derive(Clone, Copy, Debug, PartialEq, Eq)]
pub enum SheetRoom {
    Sheet,
    Kept,
}

/// "table (65,540 numbers), history (32,772), work (262,160), output (600,000 bytes)", "the plan's room, of 16,388 bytes",
/// "the room of edges' ends, of 32,772 numbers", "the sheet's room (65,540)" and "that of the kept records (32,772)"
pub struct Rooms {
    table: Vec<u32>,
    history: Vec<u32>,
    work: Vec<u32>,
    output: Vec<u8>,
    plan: Vec<u8>,
    ends: Vec<u32>,
    sheet: Vec<Record>,
    kept: Vec<Record>,
    /// "T, H and W are set by `lend` and start at 0."
    lent: [usize; 3],
    /// "how many records of the two later calls are lent: .. 0 and 0 at first"
    lent_sheets: [usize; 2],
}

/// What any call but a lookup can be lent.
struct All<'a> {
    lent: Lent<'a>,
    sheets: LentSheets<'a>,
    output: &'a mut [u8],
    plan: &'a [u8],
}

/// "A `lend` or `write` that does not leave four numbers (bytes) of the room after it is an error line"; the same of a
/// plan, "N at most 16,384", and of the sheets
fn leaves_four(lent: usize, room: usize) -> Option<usize> {
    (lent + AFTER <= room).then_some(lent)
}

impl Default for Rooms {
    fn default() -> Rooms {
        Rooms {
            table: vec![0; 65_540],
            history: vec![0; 32_772],
            work: vec![0; 262_160],
            output: vec![0; 600_000],
            plan: vec![0; 16_388],
            ends: vec![0; 32_772],
            sheet: vec![Record::default(); 65_540],
            kept: vec![Record::default(); 32_772],
            lent: [0; 3],
            lent_sheets: [0; 2],
        }
    }
}

impl Rooms {
    /// "how much of table, history and work later calls are lent"
    pub fn set_lent(&mut self, table: usize, history: usize, work: usize) -> Option<()> {
        self.lent = [
            leaves_four(table, self.table.len())?,
            leaves_four(history, self.history.len())?,
            leaves_four(work, self.work.len())?,
        ];
        Some(())
    }

    /// "how many records of the two later calls are lent: at most 65,536 and 32,768"
    pub fn set_lent_sheets(&mut self, sheet: usize, kept: usize) -> Option<()> {
        self.lent_sheets = [leaves_four(sheet, self.sheet.len())?, leaves_four(kept, self.kept.len())?];
        Some(())
    }

    /// Puts the numbers into a room.
    pub fn put(&mut self, room: Room, from: usize, numbers: &[u32]) -> Option<()> {
        let room = match room {
            Room::Table => &mut self.table,
            Room::History => &mut self.history,
            Room::Work => &mut self.work,
            Room::Ends => &mut self.ends,
        };
        put(room, from, numbers)
    }

    /// Puts the codes into the plan's room.
    pub fn put_plan(&mut self, from: usize, codes: &[u8]) -> Option<()> {
        put(&mut self.plan, from, codes)
    }

    /// Puts the records into a sheet's room.
    pub fn put_records(&mut self, room: SheetRoom, from: usize, records: &[Record]) -> Option<()> {
        let room = match room {
            SheetRoom::Sheet => &mut self.sheet,
            SheetRoom::Kept => &mut self.kept,
        };
        put(room, from, records)
    }

    /// "puts V into the work room's every number"
    pub fn fill(&mut self, value: u32) {
        self.work.fill(value);
    }

    /// What a call is lent, with no output.
    pub fn lend(&mut self) -> Lent<'_> {
        self.lend_all(0, 0).lent
    }

    /// What a call with sheets is lent.
    pub fn lend_sheets(&mut self) -> (Lent<'_>, LentSheets<'_>) {
        let all = self.lend_all(0, 0);
        (all.lent, all.sheets)
    }

    /// What a call on a plan is lent: the first N bytes of the plan's room too.
    pub fn lend_plan(&mut self, length: usize) -> Option<(Lent<'_>, &[u8])> {
        leaves_four(length, self.plan.len())?;
        let all = self.lend_all(0, length);
        Some((all.lent, all.plan))
    }

    /// What the writer is lent: N bytes of output too.
    pub fn lend_output(&mut self, length: usize) -> Option<(Lent<'_>, &mut [u8])> {
        leaves_four(length, self.output.len())?;
        let all = self.lend_all(length, 0);
        Some((all.lent, all.output))
    }

    fn lend_all(&mut self, output: usize, plan: usize) -> All<'_> {
        let ([table, history, work], [sheet, kept]) = (self.lent, self.lent_sheets);
        All {
            lent: Lent {
                table: &mut self.table[..table],
                history: &mut self.history[..history],
                work: &mut self.work[..work],
            },
            sheets: LentSheets { sheet: &mut self.sheet[..sheet], kept: &mut self.kept[..kept] },
            output: &mut self.output[..output],
            plan: &self.plan[..plan],
        }
    }

    /// What a lookup is lent: "the table's first T numbers, the ends' first H and the work area's first W". "H counts the
    /// ends; no history is lent".
    pub fn lend_ends(&mut self) -> LentEnds<'_> {
        let [table, ends, work] = self.lent;
        LentEnds { table: &self.table[..table], ends: &self.ends[..ends], work: &mut self.work[..work] }
    }

    /// The first so many numbers of the table, T at most.
    pub fn table(&self, length: u32) -> &[u32] {
        &self.table[..self.lent[0].min(length as usize)]
    }

    /// The first so many numbers of the history, H at most.
    pub fn history(&self, length: u32) -> &[u32] {
        &self.history[..self.lent[1].min(length as usize)]
    }

    /// The first so many bytes of the output.
    pub fn output(&self, length: usize) -> &[u8] {
        &self.output[..length]
    }

    /// " table=C history=C work=C output=C": each "a checksum of the numbers lent and the four after them"
    pub fn checksums(&self, output: usize) -> String {
        let [table, history, work] = self.lent;
        format!(
            "table={} history={} work={} output={}",
            checksum(&self.table[..table + AFTER]),
            checksum(&self.history[..history + AFTER]),
            checksum(&self.work[..work + AFTER]),
            checksum(&self.output[..output + AFTER]),
        )
    }

    /// "table=C ends=C work=C": "here `ends=` is of the numbers lent and the four after them"
    pub fn checksums_with_ends(&self) -> String {
        let [table, ends, work] = self.lent;
        format!(
            "table={} ends={} work={}",
            checksum(&self.table[..table + AFTER]),
            checksum(&self.ends[..ends + AFTER]),
            checksum(&self.work[..work + AFTER]),
        )
    }

    /// "sheet=C kept=C": "the four after" a sheet "are four records"
    pub fn checksums_of_sheets(&self) -> String {
        let [sheet, kept] = self.lent_sheets;
        let checksum_of = |records: &[Record]| {
            let numbers: Vec<u32> = records.iter().flat_map(|record| record.numbers()).collect();
            checksum(&numbers)
        };
        format!("sheet={} kept={}", checksum_of(&self.sheet[..sheet + AFTER]), checksum_of(&self.kept[..kept + AFTER]))
    }
}

/// "without a number put nothing, and I is then not judged"
fn put<N: Copy>(room: &mut [N], from: usize, numbers: &[N]) -> Option<()> {
    if numbers.is_empty() {
        return Some(());
    }
    room.get_mut(from..from + numbers.len())?.copy_from_slice(numbers);
    Some(())
}

/// "start with 0, and for each number v: c := (c * 31 + v + 1) mod 4294967291"
pub fn checksum<N: Copy + Into<u64>>(numbers: &[N]) -> u64 {
    numbers.iter().fold(0, |c, &v| (c * 31 + v.into() + 1) % 4_294_967_291)
}
