//! Command  == one line of a script, understood
//! Commands == the commands of a script one after another; nothing in the place of one stands for an error line

use crate::operation::Kind;
use crate::plan::Grid;
use crate::record::{Record, Yarn};
use crate::rooms::{Room, SheetRoom};
use crate::state::{State, MOST_LEVELS};

/// "A kernel has at most 32,772 edges; a longer one is an error line."
const MOST_EDGES: usize = 32_772;

/// What a line asks for.
pub enum Command<'a> {
    Lend { table: usize, history: usize, work: usize },
    Put { room: Room, from: usize, numbers: Vec<u32> },
    PutPlan { from: usize, codes: Vec<u8> },
    PutRecords { room: SheetRoom, from: usize, records: Vec<Record> },
    Sheets { sheet: usize, kept: usize },
    Fill(u32),
    State(Box<State>),
    Stored { vertices: u32, faces: u32 },
    Start(u32),
    Flat { grid: Grid, length: usize },
    FlatAreas { grid: Grid, length: usize },
    Reduce(Kind, Vec<u32>),
    Sweep,
    Undo,
    Unfold(u32),
    Counts,
    Successor { darts: u32, k: u32, dart: u32 },
    YarnStart(u32),
    YarnReduce(Kind, Vec<u32>),
    YarnSweep,
    YarnUndo,
    YarnUnfold(u32),
    Costs,
    Read(&'a [u8]),
    Write(usize),
    Show,
    Bytes,
}

/// The part of a script that was not looked at yet.
pub struct Commands<'a> {
    rest: &'a [u8],
}

impl<'a> Commands<'a> {
    pub fn new(script: &'a [u8]) -> Commands<'a> {
        Commands { rest: script }
    }

    /// "each line ended by one line feed": the line before the next line feed; none where there is no line feed.
    fn line(&mut self) -> Option<&'a [u8]> {
        let end = self.rest.iter().position(|&byte| byte == b'\n')?;
        let (line, rest) = self.rest.split_at(end);
        self.rest = &rest[1..];
        Some(line)
    }

    /// "the N bytes that follow this line's line feed, and after them one more line feed"
    fn file(&mut self, length: u32) -> Option<&'a [u8]> {
        let (file, rest) = self.rest.split_at_checked(length as usize)?;
        self.rest = rest.strip_prefix(b"\n")?;
        Some(file)
    }

    /// "One command to a line, words separated by one space"
    fn command(&mut self) -> Option<Command<'a>> {
        let line = self.line()?;
        let mut words = line.split(|&byte| byte == b' ');
        let word = words.next()?;
        match word {
            b"sheet" => return put_records(SheetRoom::Sheet, words),
            b"kept" => return put_records(SheetRoom::Kept, words),
            _ => (),
        }
        let numbers: Vec<u32> = words.map(number).collect::<Option<_>>()?;
        match (word, numbers.as_slice()) {
            (b"lend", &[table, history, work]) => {
                Some(Command::Lend { table: table as usize, history: history as usize, work: work as usize })
            }
            (b"table", numbers) => put(Room::Table, numbers),
            (b"history", numbers) => put(Room::History, numbers),
            (b"work", numbers) => put(Room::Work, numbers),
            (b"ends", numbers) => put(Room::Ends, numbers),
            (b"plan", numbers) => put_plan(numbers),
            (b"sheets", &[sheet, kept]) => Some(Command::Sheets { sheet: sheet as usize, kept: kept as usize }),
            (b"fill", &[value]) => Some(Command::Fill(value)),
            (b"state", numbers) => state(numbers).map(|state| Command::State(Box::new(state))),
            (b"stored", &[vertices, faces]) => Some(Command::Stored { vertices, faces }),
            (b"start", &[darts]) => Some(Command::Start(darts)),
            (b"flat", &[wales, courses, length]) => {
                Some(Command::Flat { grid: Grid { wales, courses }, length: length as usize })
            }
            (b"flatareas", &[wales, courses, length]) => {
                Some(Command::FlatAreas { grid: Grid { wales, courses }, length: length as usize })
            }
            (b"contract", edges) => kernel(edges).map(|edges| Command::Reduce(Kind::Contract, edges)),
            (b"remove", edges) => kernel(edges).map(|edges| Command::Reduce(Kind::Remove, edges)),
            (b"sweep", []) => Some(Command::Sweep),
            (b"undo", []) => Some(Command::Undo),
            (b"unfold", &[k]) => Some(Command::Unfold(k)),
            (b"counts", []) => Some(Command::Counts),
            (b"successor", &[darts, k, dart]) => Some(Command::Successor { darts, k, dart }),
            (b"yarnstart", &[darts]) => Some(Command::YarnStart(darts)),
            (b"yarncontract", edges) => kernel(edges).map(|edges| Command::YarnReduce(Kind::Contract, edges)),
            (b"yarnremove", edges) => kernel(edges).map(|edges| Command::YarnReduce(Kind::Remove, edges)),
            (b"yarnsweep", []) => Some(Command::YarnSweep),
            (b"yarnundo", []) => Some(Command::YarnUndo),
            (b"yarnunfold", &[k]) => Some(Command::YarnUnfold(k)),
            (b"costs", []) => Some(Command::Costs),
            (b"read", &[length]) => self.file(length).map(Command::Read),
            (b"write", &[length]) => Some(Command::Write(length as usize)),
            (b"show", []) => Some(Command::Show),
            (b"bytes", []) => Some(Command::Bytes),
            _ => None,
        }
    }
}

impl<'a> Iterator for Commands<'a> {
    type Item = Option<Command<'a>>;

    fn next(&mut self) -> Option<Option<Command<'a>>> {
        if self.rest.is_empty() {
            return None;
        }
        Some(self.command())
    }
}

/// "A number is one or more digits; leading zeros are allowed; its value is at most 4294967295."
fn number(word: &[u8]) -> Option<u32> {
    u32::try_from(long_number(word)?).ok()
}

/// The same up to 18446744073709551615, the most that 64 bits hold.
fn long_number(word: &[u8]) -> Option<u64> {
    if word.is_empty() {
        return None;
    }
    word.iter().try_fold(0u64, |value, byte| {
        let digit = byte.is_ascii_digit().then(|| u64::from(byte - b'0'))?;
        value.checked_mul(10)?.checked_add(digit)
    })
}

/// "A record is `S:M`: S its stitches, M its metres as the number of their 64 bits .., or `-` for not measured."
fn record(word: &[u8]) -> Option<Record> {
    let colon = word.iter().position(|&byte| byte == b':')?;
    let yarn = match &word[colon + 1..] {
        b"-" => Yarn::NotMeasured,
        bits => Yarn::Metres(f64::from_bits(long_number(bits)?)),
    };
    Some(Record { stitches: number(&word[..colon])?, yarn })
}

/// "`sheet I R R ..`, `kept I R R ..`: puts records into the sheet's room .. or that of the kept records"
fn put_records<'a>(room: SheetRoom, mut words: impl Iterator<Item = &'a [u8]>) -> Option<Command<'a>> {
    let from = number(words.next()?)? as usize;
    let records = words.map(record).collect::<Option<_>>()?;
    Some(Command::PutRecords { room, from, records })
}

/// "`table I V V ...`: puts the numbers into the table's room from place I on"
fn put<'a>(room: Room, numbers: &[u32]) -> Option<Command<'a>> {
    let (&from, numbers) = numbers.split_first()?;
    Some(Command::Put { room, from: from as usize, numbers: numbers.to_vec() })
}

/// "`plan I V V ..`: puts the bytes (0 to 255) into the plan's room .. from place I on"
fn put_plan<'a>(numbers: &[u32]) -> Option<Command<'a>> {
    let (&from, numbers) = numbers.split_first()?;
    let codes = numbers.iter().map(|&number| u8::try_from(number).ok()).collect::<Option<_>>()?;
    Some(Command::PutPlan { from: from as usize, codes })
}

/// "`state D N L E E ...`: darts, operations, levels, then level ends; ends that are not given are 0". The two numbers stored:
/// "`state` sets them to 0"
fn state(numbers: &[u32]) -> Option<State> {
    let (&[darts, operations, levels], given) = numbers.split_first_chunk()?;
    let mut ends = [0; MOST_LEVELS];
    ends.get_mut(..given.len())?.copy_from_slice(given);
    Some(State { darts, operations, levels, ends, ..State::ZERO })
}

/// "`contract E E ...`, `remove E E ...`: reduce by that kernel (no edge: the empty kernel)"
fn kernel(edges: &[u32]) -> Option<Vec<u32>> {
    (edges.len() <= MOST_EDGES).then(|| edges.to_vec())
}
