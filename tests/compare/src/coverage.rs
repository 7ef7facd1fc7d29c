//! Coverage == how often each call gave each answer
//! Column   == an answer in the table of these; answer 3 has two, by its second place: a lower dart, or D
//!
//! Which call can give which answer follows from documents 01 and 02. It is written down here and nowhere else: `GIVEN_BY`
//! has the calls that can, and why the others cannot. A pair that can occur and did not, or cannot and did, is a failure.

use crate::input::Program;
use second::operation::Kind;
use second::script::{Command, Commands};
use std::fmt::{self, Display, Formatter};

/// Who answers: the calls; the program `levels`, whose refusals are the reader's; and the program `plan`, with its word and
/// without, whose refusals are those of the calls on a plan.
#[derive(Clone, Copy, PartialEq, Eq)]
pub enum Call {
    Start,
    Contract,
    Remove,
    Sweep,
    Undo,
    Unfold,
    Counts,
    Read,
    Write,
    Flat,
    FlatAreas,
    Successor,
    YarnStart,
    YarnContract,
    YarnRemove,
    YarnSweep,
    YarnUndo,
    YarnUnfold,
    Levels,
    Plan,
    PlanBase,
}

use Call::*;

const CALLS: [(Call, &str); 21] = [
    (Start, "start"),
    (Contract, "contract"),
    (Remove, "remove"),
    (Sweep, "sweep"),
    (Undo, "undo"),
    (Unfold, "unfold"),
    (Counts, "counts"),
    (Read, "read"),
    (Write, "write"),
    (Flat, "flat"),
    (FlatAreas, "flatareas"),
    (Successor, "successor"),
    (YarnStart, "yarnstart"),
    (YarnContract, "yarncontract"),
    (YarnRemove, "yarnremove"),
    (YarnSweep, "yarnsweep"),
    (YarnUndo, "yarnundo"),
    (YarnUnfold, "yarnunfold"),
    (Levels, "levels"),
    (Plan, "plan"),
    (PlanBase, "plan base"),
];

/// The programs that are no scripts of calls.
const PROGRAMS: [Call; 3] = [Levels, Plan, PlanBase];

/// The answers 0 to 16, of which 3 has two columns, and the error line of a drawing.
const COLUMNS: usize = 19;
const OUT_OF_RANGE: usize = 4;
const ERROR: usize = 18;

/// For each column its name, the calls that can give this answer, and why no other can. For the reader one reason holds from
/// 7 to 12: a file is judged as a whole, and whatever is wrong with what it holds is 4.
const GIVEN_BY: [(&str, &[Call], &str); COLUMNS] = [
    (
        "0",
        &[
            Start, Contract, Remove, Sweep, Undo, Unfold, Counts, Read, Write, Flat, FlatAreas, Successor, YarnStart,
            YarnContract, YarnRemove, YarnSweep, YarnUndo, YarnUnfold, Levels, Plan, PlanBase,
        ],
        "every call can be done",
    ),
    (
        "1",
        &[
            Start, Contract, Remove, Sweep, Undo, Unfold, Counts, Read, Write, Successor, YarnStart, YarnContract,
            YarnRemove, YarnSweep, YarnUndo, YarnUnfold, Levels,
        ],
        "a plan within its limits has 2 to 65,024 darts",
    ),
    (
        "2",
        &[
            Start, Contract, Remove, Sweep, Undo, Unfold, Counts, Read, Write, Flat, FlatAreas, Successor, YarnStart,
            YarnContract, YarnRemove, YarnSweep, YarnUndo, YarnUnfold, Levels,
        ],
        "the program plan has room for every plan",
    ),
    ("3:lower", &[Start, YarnStart], NO_PERMUTATION),
    ("3:D", &[Start, YarnStart], NO_PERMUTATION),
    (
        "4",
        &[
            Contract, Remove, Sweep, Undo, Unfold, Counts, Read, Write, Successor, YarnContract, YarnRemove, YarnSweep,
            YarnUndo, YarnUnfold, Levels,
        ],
        "a start or a plan is given neither state nor file nor ends",
    ),
    (
        "5",
        &[Contract, Remove, Sweep, Read, FlatAreas, YarnContract, YarnRemove, YarnSweep, Levels, Plan],
        "the others have no kernel; the reader's is a line with an N of 0",
    ),
    (
        "6",
        &[Contract, Remove, Sweep, Read, YarnContract, YarnRemove, YarnSweep, Levels],
        "the others add no level over others, and state no number of levels",
    ),
    (
        "7",
        &[Contract, Remove, Successor, YarnContract, YarnRemove],
        "the others are given neither edge numbers nor a dart",
    ),
    (
        "8",
        &[Contract, Remove, Successor, YarnContract, YarnRemove],
        "the others are given neither edge numbers nor a dart; a sweep takes surviving edges",
    ),
    (
        "9",
        &[Contract, YarnContract],
        "\"contraction with one vertex at both ends\"; the sweep is a removal, a first kernel leaves such edges",
    ),
    ("10", &[Remove, YarnRemove], "a sweep judges no edge: an empty loop has two different faces"),
    ("11", &[Contract, Remove, YarnContract, YarnRemove], "a sweep or a first kernel takes no whole piece"),
    ("12", &[Undo, Unfold, Successor, YarnUndo, YarnUnfold], "the others go to no lower level and look at none"),
    ("13", &[Read, Levels], "the others are given no file"),
    ("14", &[Read, Levels], "the others are given no file"),
    ("15", &[Flat, FlatAreas, Plan, PlanBase], "the others are given no plan"),
    (
        "16",
        &[YarnStart],
        "\"16, by the start after 3\"; \"afterwards 4 also covers sheets\", and the other calls are lent none",
    ),
    ("error", &[Plan, PlanBase], "the others are given no drawing; an error line of a script is no answer of a call"),
];

const NO_PERMUTATION: &str =
    "\"start: the table is no permutation\"; a plan's is one, and to every other call that is 4";

#[derive(Default)]
pub struct Coverage {
    scripts: u64,
    times: [[u64; COLUMNS]; CALLS.len()],
}

impl Coverage {
    /// The answers in what a program printed for an input.
    pub fn of(program: Program, bytes: &[u8], printed: &[u8]) -> Coverage {
        let mut coverage = Coverage::default();
        match program {
            Program::Zones => {
                coverage.scripts = 1;
                let calls = Commands::new(bytes).map_while(|command| command).filter_map(|command| call_of(&command));
                for ((call, darts), line) in calls.zip(lines(printed, b"answer=")) {
                    coverage.times[call as usize][column(line, darts)] += 1;
                }
            }
            Program::Levels => coverage.count_program(Levels, printed),
            Program::Plan => coverage.count_program(Plan, printed),
            Program::PlanBase => coverage.count_program(PlanBase, printed),
        }
        coverage
    }

    /// A program gives one answer: a refusal, an error line, or what it was asked for.
    fn count_program(&mut self, program: Call, printed: &[u8]) {
        let column = match printed.starts_with(b"error=") {
            true => ERROR,
            false => lines(printed, b"refusal=").next().map_or(0, |line| column(line, None)),
        };
        self.times[program as usize][column] += 1;
    }

    pub fn add(&mut self, other: &Coverage) {
        self.scripts += other.scripts;
        for (row, more) in self.times.iter_mut().zip(&other.times) {
            for (times, more) in row.iter_mut().zip(more) {
                *times += more;
            }
        }
    }

    fn made(&self, call: Call) -> u64 {
        self.times[call as usize].iter().sum()
    }

    /// A row for each call, a column for each answer; a dash where the pair cannot occur.
    pub fn table(&self) -> String {
        let head: String = GIVEN_BY.iter().map(|(name, ..)| format!("{name:>8}")).collect();
        let row = |(call, name): (Call, &str)| {
            let times = self.times[call as usize].iter().zip(GIVEN_BY);
            let cells = times.map(|(&times, (_, calls, _))| match (calls.contains(&call), times) {
                (false, 0) => format!("{:>8}", "-"),
                _ => format!("{times:>8}"),
            });
            format!("\n{name:12}{}", cells.collect::<String>())
        };
        format!("{:12}{head}{}", "", CALLS.map(row).concat())
    }

    /// A line for each pair that can occur and did not, or cannot and did.
    pub fn faults(&self) -> Vec<String> {
        let mut faults = Vec::new();
        for (call, who) in CALLS {
            for (&times, (name, calls, why)) in self.times[call as usize].iter().zip(GIVEN_BY) {
                match (calls.contains(&call), times) {
                    (true, 0) => faults.push(format!("{who} never gave {name}")),
                    (false, 1..) => faults.push(format!("{who} gave {name}, but: {why}")),
                    _ => (),
                }
            }
        }
        faults
    }
}

/// Scripts, the calls in them, the files read by a call or by the program `levels`, and the drawings.
impl Display for Coverage {
    fn fmt(&self, f: &mut Formatter) -> fmt::Result {
        let in_scripts = CALLS.iter().filter(|(call, _)| !PROGRAMS.contains(call));
        let calls: u64 = in_scripts.map(|(call, _)| self.made(*call)).sum();
        let files = self.made(Read) + self.made(Levels);
        let drawings = self.made(Plan) + self.made(PlanBase);
        write!(f, "{} scripts, {calls} calls, {files} files, {drawings} drawings", self.scripts)
    }
}

/// The call that a command makes, a start with its D; none for a command that is no call.
fn call_of(command: &Command) -> Option<(Call, Option<u32>)> {
    let call = match command {
        Command::Start(darts) => return Some((Start, Some(*darts))),
        Command::YarnStart(darts) => return Some((YarnStart, Some(*darts))),
        Command::Reduce(Kind::Contract, _) => Contract,
        Command::Reduce(Kind::Remove, _) => Remove,
        Command::Sweep => Sweep,
        Command::Undo => Undo,
        Command::Unfold(_) => Unfold,
        Command::Counts => Counts,
        Command::Read(_) => Read,
        Command::Write(_) => Write,
        Command::Flat { .. } => Flat,
        Command::FlatAreas { .. } => FlatAreas,
        Command::Successor { .. } => Successor,
        Command::YarnReduce(Kind::Contract, _) => YarnContract,
        Command::YarnReduce(Kind::Remove, _) => YarnRemove,
        Command::YarnSweep => YarnSweep,
        Command::YarnUndo => YarnUndo,
        Command::YarnUnfold(_) => YarnUnfold,
        _ => return None,
    };
    Some((call, None))
}

/// The lines that begin with this key, in their order.
fn lines<'a>(printed: &'a [u8], key: &'a [u8]) -> impl Iterator<Item = &'a [u8]> {
    printed.split(|&byte| byte == b'\n').filter(move |line| line.starts_with(key))
}

/// The column of the answer in a line: "3 carries a second place, D where the value was out of range".
fn column(line: &[u8], darts: Option<u32>) -> usize {
    let answer = number_after(line, b"=").unwrap_or(0) as usize;
    match answer {
        3 if darts.is_some() && number_after(line, b" second=") == darts => OUT_OF_RANGE,
        0..=3 => answer,
        _ => answer + 1,
    }
}

/// The number after the first such key in a line.
fn number_after(line: &[u8], key: &[u8]) -> Option<u32> {
    let from = key.len() + line.windows(key.len()).position(|bytes| bytes == key)?;
    let digits = line[from..].iter().take_while(|byte| byte.is_ascii_digit());
    Some(digits.fold(0, |value, digit| 10 * value + u32::from(digit - b'0')))
}

#[cfg(test)]
mod tests {
    use super::*;

    /// What is covered by a start of two darts that prints this line.
    fn start(line: &str) -> Coverage {
        Coverage::of(Program::Zones, b"start 2\n", format!("{line}\n").as_bytes())
    }

    #[test]
    fn a_pair_that_did_not_occur_is_a_fault() {
        let pairs: usize = GIVEN_BY.iter().map(|(_, calls, _)| calls.len()).sum();
        assert_eq!(Coverage::default().faults().len(), pairs);
        let one = Coverage::of(Program::Levels, b"", b"refusal=13 place=0\n");
        assert_eq!(one.faults().len(), pairs - 1);
        let one = Coverage::of(Program::PlanBase, b"", b"error=2\n");
        assert_eq!(one.faults().len(), pairs - 1);
    }

    #[test]
    fn a_pair_that_cannot_occur_is_a_fault() {
        let one = Coverage::of(Program::Zones, b"sweep\n", b"answer=10 place=0 second=0 state=2 0 0\n");
        assert!(one.faults().iter().any(|fault| fault.starts_with("sweep gave 10, but: ")));
        let one = Coverage::of(Program::Zones, b"flat 1 1 1\n", b"answer=5 place=0 second=0 state=0 0 0\n");
        assert!(one.faults().iter().any(|fault| fault.starts_with("flat gave 5, but: ")));
        let one = Coverage::of(Program::Zones, b"successor 2 0 0\n", b"answer=9 place=0 second=0 dart=0 passed=0\n");
        assert!(one.faults().iter().any(|fault| fault.starts_with("successor gave 9, but: ")));
    }

    #[test]
    fn answer_3_needs_both_kinds_of_culprit() {
        let never = ["start never gave 3:lower", "start never gave 3:D"];
        let misses = |coverage: &Coverage| never.map(|fault| coverage.faults().iter().any(|said| said == fault));
        let mut both = start("answer=3 place=1 second=0 state=0 0 0");
        assert_eq!(misses(&both), [false, true]);
        let out_of_range = start("answer=3 place=1 second=2 state=0 0 0");
        assert_eq!(misses(&out_of_range), [true, false]);
        both.add(&out_of_range);
        assert_eq!(misses(&both), [false, false]);
        assert_eq!(misses(&start("answer=2 place=0 second=2 state=0 0 0")), [true, true]);
    }
}
