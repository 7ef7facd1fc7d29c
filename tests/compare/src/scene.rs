//! Scene == a script under way, and the pyramid that the program holds at this point
//!
//! The pyramid is the second program's own: it tells which edges are worth proposing next. A scene with sheets makes the calls
//! that have such a form with them.

use crate::chance::Chance;
use crate::files;
use crate::kernels;
use crate::script::{word_of, Script};
use crate::sheets::{needed_sheets, Sheets};
use second::answer::Refusal;
use second::file_write::bytes_of;
use second::operation::Kind;
use second::pyramid::Pyramid;
use second::state::MOST_DARTS;

pub struct Scene<'a> {
    pub script: &'a mut Script,
    pub pyramid: Pyramid,
    /// What is lent to the calls: at least what D asks for.
    lent: [u32; 3],
    pub sheets: Option<Sheets>,
}

impl<'a> Scene<'a> {
    /// Puts a base into the table, lends what it needs and now and then some more, and starts.
    pub fn start(script: &'a mut Script, chance: &mut Chance, base: &[u32]) -> Scene<'a> {
        let pyramid = Pyramid::start(base).expect("a base is a permutation");
        let darts = base.len() as u32;
        let lent = enough(chance, darts);
        script.lend(lent);
        script.put("table", 0, base);
        script.numbers("start", &[darts]);
        Scene { script, pyramid, lent, sheets: None }
    }

    /// The same with sheets, which a start accepts.
    pub fn start_with(script: &'a mut Script, chance: &mut Chance, base: &[u32], sheets: Sheets) -> Scene<'a> {
        let pyramid = Pyramid::start(base).expect("a base is a permutation");
        let lent = enough(chance, base.len() as u32);
        script.lend(lent);
        script.numbers("sheets", &sheets.lent);
        script.put("table", 0, base);
        script.records("sheet", 0, &sheets.sheet);
        script.numbers("yarnstart", &[base.len() as u32]);
        Scene { script, pyramid, lent, sheets: Some(sheets) }
    }

    /// A scene that a call on a plan has begun.
    pub fn held(script: &'a mut Script, pyramid: Pyramid, lent: [u32; 3]) -> Scene<'a> {
        Scene { script, pyramid, lent, sheets: None }
    }

    /// The line of a call that has a form with sheets.
    fn line(&mut self, word: &str, numbers: &[u32]) {
        let form = if self.sheets.is_some() { "yarn" } else { "" };
        self.script.numbers(&format!("{form}{word}"), numbers);
    }

    /// Moves pyramid and sheets along. With sheets that nothing gives a call is refused, whatever it is.
    fn change(&mut self, act: impl FnOnce(&mut Pyramid) -> Result<(), Refusal>) {
        let Some(sheets) = &mut self.sheets else {
            act(&mut self.pyramid).ok();
            return;
        };
        let Some(first) = sheets.first(&self.pyramid) else { return };
        if act(&mut self.pyramid).is_ok() {
            sheets.store(&first, &self.pyramid);
        }
    }

    /// Are the sheets, where there are any, such that an accepted start and the operations give them?
    pub fn given(&mut self) -> bool {
        self.sheets.as_mut().is_none_or(|sheets| sheets.first(&self.pyramid).is_some())
    }

    /// Starts from the table as it stands; where that is refused, the state is put back.
    pub fn start_again(&mut self) {
        self.line("start", &[self.darts()]);
        match Pyramid::start(self.pyramid.map().table()) {
            Ok(pyramid) if self.sheets.as_mut().is_none_or(|sheets| sheets.fit(pyramid.map())) => {
                self.pyramid = pyramid
            }
            _ => self.state_again(),
        }
    }

    /// A start that is refused, or one of another number of darts: what it hands back is not followed.
    pub fn start_refused(&mut self, darts: u32) {
        self.line("start", &[darts]);
    }

    /// An undo that is refused.
    pub fn undo_refused(&mut self) {
        self.line("undo", &[]);
    }

    pub fn darts(&self) -> u32 {
        self.pyramid.map().table().len() as u32
    }

    pub fn top(&self) -> u32 {
        self.pyramid.top() as u32
    }

    /// A kernel, accepted or not.
    pub fn reduce(&mut self, kind: Kind, edges: &[u32]) {
        self.line(word_of(kind), edges);
        self.change(|pyramid| pyramid.reduce(kind, edges));
    }

    pub fn sweep(&mut self) {
        self.line("sweep", &[]);
        self.change(Pyramid::sweep);
    }

    pub fn undo(&mut self) {
        self.line("undo", &[]);
        self.change(Pyramid::undo);
    }

    pub fn unfold(&mut self, k: u32) {
        self.line("unfold", &[k]);
        self.change(|pyramid| pyramid.unfold(k as usize));
    }

    /// A file. What it holds goes on under the file's numbers; where it is refused, or holds another number of darts
    /// than are lent, all is put back.
    pub fn read(&mut self, file: &[u8]) {
        self.script.read(file);
        match files::held(file, self.darts()) {
            Some(pyramid) if pyramid.map().table().len() as u32 == self.darts() => self.pyramid = pyramid,
            _ => self.all_again(),
        }
    }

    /// Writes into exactly the bytes needed, and shows them.
    pub fn write_exactly(&mut self) {
        self.script.numbers("write", &[bytes_of(&self.pyramid).len() as u32]);
        self.script.word("bytes");
    }

    /// Lends one number too few of one of the slices, or one record too few, until `lend_again`.
    pub fn lend_one_short(&mut self, chance: &mut Chance) {
        if self.sheets.is_some() && chance.one_in(2) {
            let mut lent = needed_sheets(self.darts());
            lent[chance.place(2)] -= 1;
            self.script.numbers("sheets", &lent);
            return;
        }
        let mut lent = needed(self.darts());
        lent[chance.place(3)] -= 1;
        self.script.lend(lent);
    }

    pub fn lend_again(&mut self) {
        self.script.lend(self.lent);
        if let Some(sheets) = &self.sheets {
            self.script.numbers("sheets", &sheets.lent);
        }
    }

    /// Puts the state back, after a call that handed back zeros.
    pub fn state_again(&mut self) {
        self.script.state(&self.pyramid.state());
    }

    /// Puts state, table and history back, after the script changed them, and the sheets, which a call may have changed since.
    pub fn all_again(&mut self) {
        self.state_again();
        self.script.put("table", 0, self.pyramid.map().table());
        self.script.put("history", 0, self.pyramid.history());
        if let Some(sheets) = &self.sheets {
            sheets.put(self.script);
        }
    }

    /// Numbers where no call may look: the work area, the table past D, the history past the count.
    pub fn rubbish(&mut self, chance: &mut Chance) {
        let (room, from, most) = match chance.below(4) {
            0 => ("table", self.darts(), 4),
            1 => ("history", self.pyramid.history().len() as u32, self.darts() / 2),
            _ => ("work", chance.below(4 * self.darts()), 12),
        };
        let length = chance.between(1, most);
        self.script.put(room, from, &chance.rubbish(length));
    }

    /// One of the calls on a state with any numbers, whatever it may answer. The script may hold a damaged state: the
    /// pyramid is not moved along.
    pub fn any_call(&mut self, chance: &mut Chance) {
        match chance.below(7) {
            0 | 1 => {
                let length = chance.below(4);
                let edges = kernels::anything(chance, self.pyramid.map(), length);
                self.line(word_of(chance.kind()), &edges);
            }
            2 => self.line("sweep", &[]),
            3 => self.line("undo", &[]),
            4 => self.line("unfold", &[chance.below(self.top() + 2)]),
            5 => self.script.word("counts"),
            _ => self.script.numbers("write", &[chance.pick(&[0, 40, 2_000])]),
        }
    }
}

/// "the table with at least D numbers, the history with D/2 and the work area with 4D"
pub fn needed(darts: u32) -> [u32; 3] {
    [darts, darts / 2, 4 * darts]
}

/// What is needed, and now and then up to four more of each, of which the rooms have none for the largest maps.
pub fn enough(chance: &mut Chance, darts: u32) -> [u32; 3] {
    let more = if darts + 8 <= MOST_DARTS { [0, 0, 1, 4] } else { [0; 4] };
    needed(darts).map(|length| length + chance.pick(&more))
}
