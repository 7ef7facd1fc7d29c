//! Script == commands for the program `zones`, one after another

use second::operation::Kind;
use second::record::{Record, Yarn};
use second::state::State;

#[derive(Default)]
pub struct Script {
    commands: Vec<Vec<u8>>,
    length: usize,
}

impl Script {
    /// Its length in bytes.
    pub fn length(&self) -> usize {
        self.length
    }

    /// The commands, each with its line feed, and a `read` with its file.
    pub fn into_commands(self) -> Vec<Vec<u8>> {
        self.commands
    }

    fn push(&mut self, command: Vec<u8>) {
        self.length += command.len();
        self.commands.push(command);
    }

    /// A command that is a word alone.
    pub fn word(&mut self, word: &str) {
        self.numbers(word, &[]);
    }

    /// A command of a word and numbers.
    pub fn numbers(&mut self, word: &str, numbers: &[u32]) {
        let mut line = word.to_string();
        for number in numbers {
            line.push(' ');
            line.push_str(&number.to_string());
        }
        line.push('\n');
        self.push(line.into_bytes());
    }

    /// `table I V V ...`, or the same for another room.
    pub fn put(&mut self, room: &str, from: u32, numbers: &[u32]) {
        self.numbers(room, &[&[from], numbers].concat());
    }

    /// `sheet I R R ..`, or the same for the kept records. "A record is `S:M`", or `S:-`.
    pub fn records(&mut self, room: &str, from: u32, records: &[Record]) {
        let mut line = format!("{room} {from}");
        for Record { stitches, yarn } in records {
            line.push_str(&match yarn {
                Yarn::Metres(metres) => format!(" {stitches}:{}", metres.to_bits()),
                Yarn::NotMeasured => format!(" {stitches}:-"),
            });
        }
        line.push('\n');
        self.push(line.into_bytes());
    }

    pub fn lend(&mut self, [table, history, work]: [u32; 3]) {
        self.numbers("lend", &[table, history, work]);
    }

    /// The state with its ends as far as they are not zero, and the numbers that it stores: "`state` sets them to 0".
    pub fn state(&mut self, state: &State) {
        let used = state.ends.iter().rposition(|&end| end != 0).map_or(0, |last| last + 1);
        self.numbers("state", &[&[state.darts, state.operations, state.levels], &state.ends[..used]].concat());
        if (state.vertices, state.faces) != (0, 0) {
            self.stored(state.vertices, state.faces);
        }
    }

    /// `stored V F`
    pub fn stored(&mut self, vertices: u32, faces: u32) {
        self.numbers("stored", &[vertices, faces]);
    }

    pub fn reduce(&mut self, kind: Kind, edges: &[u32]) {
        self.numbers(word_of(kind), edges);
    }

    pub fn read(&mut self, file: &[u8]) {
        self.push([format!("read {}\n", file.len()).as_bytes(), file, b"\n"].concat());
    }
}

/// The word of a kernel's line.
pub fn word_of(kind: Kind) -> &'static str {
    match kind {
        Kind::Contract => "contract",
        Kind::Remove => "remove",
    }
}
