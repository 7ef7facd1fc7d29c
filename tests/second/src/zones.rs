//! The program `zones`: "runs a script of the library's calls from standard input and prints one line for each call".

use crate::answer::Answer;
use crate::calls;
use crate::costs;
use crate::counts::Counts;
use crate::ends::Built;
use crate::kept::Kept;
use crate::lent::Lent;
use crate::lookup::Found;
use crate::rooms::{checksum, Room, Rooms};
use crate::script::{Command, Commands};
use crate::sheets::LentSheets;
use crate::state::{State, MOST_LEVELS};
use crate::yarn;

/// "A script has at most 3,000,000 bytes."
const MOST_BYTES: usize = 3_000_000;

/// What a script prints.
pub fn run(script: &[u8]) -> Vec<u8> {
    Zones::after(script).printed
}

/// "The program holds a state and" the rooms, "all zero at the start". Beside them it keeps the levels.
#[derive(Default)]
pub struct Zones {
    state: State,
    rooms: Rooms,
    kept: Kept,
    built: Built,
    /// The length of the last accepted write.
    written: usize,
    printed: Vec<u8>,
}

impl Zones {
    /// The program at the end of a script. "A line that is none of these, or that puts a number outside a room, prints
    /// `error=` and its number, from 1, and ends the program."
    pub fn after(script: &[u8]) -> Zones {
        let mut zones = Zones::default();
        // A longer one "prints `error=0` and nothing else."
        if script.len() > MOST_BYTES {
            zones.print("error=0\n");
            return zones;
        }
        // "Lines are counted as commands"
        for (line, command) in Commands::new(script).enumerate() {
            if command.and_then(|command| zones.obey(command)).is_none() {
                zones.print(&format!("error={}\n", line + 1));
                break;
            }
        }
        zones
    }

    /// The levels that are kept.
    pub fn kept(&self) -> &Kept {
        &self.kept
    }

    /// Does what a line asks for; None stands for an error line.
    fn obey(&mut self, command: Command) -> Option<()> {
        match command {
            Command::Lend { table, history, work } => self.rooms.set_lent(table, history, work)?,
            Command::Put { room, from, numbers } => self.put(room, from, &numbers)?,
            Command::PutPlan { from, codes } => self.rooms.put_plan(from, &codes)?,
            Command::PutRecords { room, from, records } => self.rooms.put_records(room, from, &records)?,
            Command::Sheets { sheet, kept } => self.rooms.set_lent_sheets(sheet, kept)?,
            Command::Fill(value) => self.rooms.fill(value),
            Command::State(state) => self.set_state(*state),
            Command::Stored { vertices, faces } => self.set_state(State { vertices, faces, ..self.state }),
            Command::Start(darts) => self.call(|_, lent, kept| calls::start(darts, lent, kept)),
            Command::Flat { grid, length } => {
                self.on_plan(length, |codes, lent, kept| calls::flat(grid, codes, lent, kept))?;
            }
            Command::FlatAreas { grid, length } => {
                self.on_plan(length, |codes, lent, kept| calls::flat_areas(grid, codes, lent, kept))?;
            }
            Command::Reduce(kind, edges) => {
                self.call(|state, lent, kept| calls::reduce(state, kind, &edges, lent, kept));
            }
            Command::Sweep => self.call(calls::sweep),
            Command::Undo => self.call(calls::undo),
            Command::Unfold(k) => self.call(|state, lent, kept| calls::unfold(state, k, lent, kept)),
            Command::Counts => self.counts(),
            Command::Successor { darts, k, dart } => self.successor(darts, k, dart),
            Command::YarnStart(darts) => {
                self.call_with_sheets(|_, lent, sheets, kept| yarn::start(darts, lent, sheets, kept));
            }
            Command::YarnReduce(kind, edges) => {
                let reduce = |state: &State, lent: &mut Lent, sheets: &mut LentSheets, kept: &mut Kept| {
                    yarn::reduce(state, kind, &edges, lent, sheets, kept)
                };
                self.call_with_sheets(reduce);
            }
            Command::YarnSweep => self.call_with_sheets(yarn::sweep),
            Command::YarnUndo => self.call_with_sheets(yarn::undo),
            Command::YarnUnfold(k) => {
                self.call_with_sheets(|state, lent, sheets, kept| yarn::unfold(state, k, lent, sheets, kept));
            }
            Command::Costs => self.costs(),
            Command::Read(file) => self.call(|_, lent, kept| calls::read(file, lent, kept)),
            Command::Write(length) => self.write(length)?,
            Command::Show => self.show(),
            Command::Bytes => self.printed.extend_from_slice(self.rooms.output(self.written)),
        }
        Some(())
    }

    /// Numbers by hand.
    fn put(&mut self, room: Room, from: usize, numbers: &[u32]) -> Option<()> {
        self.rooms.put(room, from, numbers)?;
        self.kept.put_by_hand(room, from, numbers.len());
        Some(())
    }

    /// A state by hand.
    fn set_state(&mut self, state: State) {
        self.state = state;
        self.kept.drop_levels();
    }

    fn print(&mut self, text: &str) {
        self.printed.extend_from_slice(text.as_bytes());
    }

    /// The line of a call, but for its line feed: "answer=A place=P second=S state=D N L V F ends=C table=C history=C work=C
    /// output=C". From request Three on "every call's line has ` second=S` after its place", and from request Six on "each
    /// `state=D N L` is `state=D N L V F`".
    fn print_answer(&mut self, answer: Answer, output: usize) {
        let Answer { number, place, second } = answer;
        let (ends, rooms) = (checksum(&self.state.ends), self.rooms.checksums(output));
        let state = spaced(&before_the_ends(&self.state));
        self.print(&format!("answer={number} place={place} second={second} state={state} ends={ends} {rooms}"));
    }

    /// "The state is the one handed back, which the script then holds." "A call other than `write` is lent no output".
    fn handed(&mut self, answer: Answer, state: State) {
        self.state = state;
        self.print_answer(answer, 0);
        self.print("\n");
    }

    /// A call that hands back a state.
    fn call(&mut self, call: impl FnOnce(&State, &mut Lent, &mut Kept) -> (Answer, State)) {
        let (answer, state) = call(&self.state, &mut self.rooms.lend(), &mut self.kept);
        self.handed(answer, state);
    }

    /// A call with sheets: "Their line ends with ` sheet=C kept=C`".
    fn call_with_sheets(
        &mut self,
        call: impl FnOnce(&State, &mut Lent, &mut LentSheets, &mut Kept) -> (Answer, State),
    ) {
        let (mut lent, mut sheets) = self.rooms.lend_sheets();
        let (answer, state) = call(&self.state, &mut lent, &mut sheets, &mut self.kept);
        self.state = state;
        self.print_answer(answer, 0);
        let sheets = self.rooms.checksums_of_sheets();
        self.print(&format!(" {sheets}\n"));
    }

    /// A call on a plan. "The plan that is lent is the room's first N bytes, N at most 16,384."
    fn on_plan(
        &mut self,
        length: usize,
        call: impl FnOnce(&[u8], &mut Lent, &mut Kept) -> (Answer, State),
    ) -> Option<()> {
        let (mut lent, codes) = self.rooms.lend_plan(length)?;
        let (answer, state) = call(codes, &mut lent, &mut self.kept);
        self.handed(answer, state);
        Some(())
    }

    /// "`counts` puts ` darts=X vertices=X faces=X euler=X` at the end of it."
    fn counts(&mut self) {
        let (answer, counts) = calls::counts(&self.state, &mut self.rooms.lend(), &mut self.kept);
        let Counts { darts, vertices, faces, euler } = counts;
        self.print_answer(answer, 0);
        self.print(&format!(" darts={darts} vertices={vertices} faces={faces} euler={euler}\n"));
    }

    /// "prints `answer=A place=P second=S dart=X passed=X table=C ends=C work=C`". "The script's state stays".
    fn successor(&mut self, darts: u32, k: u32, dart: u32) {
        let (answer, found) = calls::successor(darts, k, dart, &mut self.rooms.lend_ends(), &mut self.built);
        let Answer { number, place, second } = answer;
        let Found { dart, passed } = found;
        let rooms = self.rooms.checksums_with_ends();
        self.print(&format!("answer={number} place={place} second={second} dart={dart} passed={passed} {rooms}\n"));
    }

    /// "`costs` prints, for each zone of the present level": "nothing is judged and nothing changes"
    fn costs(&mut self) {
        let (lent, sheets) = self.rooms.lend_sheets();
        let lines = costs::lines(&self.state, &lent, &sheets);
        self.print(&lines);
    }

    /// "write a file into N bytes of output"
    fn write(&mut self, length: usize) -> Option<()> {
        let (mut lent, output) = self.rooms.lend_output(length)?;
        let answer = calls::write(&self.state, &mut lent, output, &mut self.kept);
        if answer.number == 0 {
            self.written = answer.place;
        }
        self.print_answer(answer, length);
        self.print("\n");
        Some(())
    }

    /// "`state=D N L V F E .. E` with the first L ends (64 at most), `table=` with the first D numbers of the table (T at
    /// most) and `history=` with the first N (H at most), numbers separated by one space."
    fn show(&mut self) {
        let State { darts, operations, levels, ends, .. } = self.state;
        let mut state = before_the_ends(&self.state);
        state.extend(&ends[..MOST_LEVELS.min(levels as usize)]);
        let lines = format!(
            "state={}\ntable={}\nhistory={}\n",
            spaced(&state),
            spaced(self.rooms.table(darts)),
            spaced(self.rooms.history(operations)),
        );
        self.print(&lines);
    }
}

/// "`state=D N L V F` .., in calls' lines and in `show` (there the level ends follow F)"
fn before_the_ends(state: &State) -> Vec<u32> {
    vec![state.darts, state.operations, state.levels, state.vertices, state.faces]
}

/// "numbers separated by one space"; "an empty list in `show` leaves nothing"
fn spaced(numbers: &[u32]) -> String {
    numbers.iter().map(u32::to_string).collect::<Vec<_>>().join(" ")
}
