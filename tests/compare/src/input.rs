//! Program == one of the programs that are compared
//! Input   == what a program reads on standard input, in pieces that can be left out one by one

use crate::script::Script;
use second::{drawing, levels, zones};

#[derive(Clone, Copy, PartialEq, Eq)]
pub enum Program {
    Zones,
    Levels,
    Plan,
    PlanBase,
}

impl Program {
    pub const ALL: [Program; 4] = [Program::Zones, Program::Levels, Program::Plan, Program::PlanBase];

    pub fn name(self) -> &'static str {
        match self {
            Program::Zones => "zones",
            Program::Levels => "levels",
            Program::Plan => "plan",
            Program::PlanBase => "plan base",
        }
    }

    /// What the second program prints.
    pub fn second(self, bytes: &[u8]) -> Vec<u8> {
        match self {
            Program::Zones => zones::run(bytes),
            Program::Levels => levels::report(bytes).into_bytes(),
            Program::Plan => drawing::areas(bytes),
            Program::PlanBase => drawing::base(bytes),
        }
    }
}

#[derive(Clone)]
pub struct Input {
    pub program: Program,
    /// The commands of a script, or the lines of a file or a drawing.
    pub pieces: Vec<Vec<u8>>,
    /// Whether it is a script without an error line.
    pub sound: bool,
}

impl Input {
    pub fn script(script: Script) -> Input {
        Input { program: Program::Zones, pieces: script.into_commands(), sound: true }
    }

    /// A script given by its bytes, which need not be commands, or a file, or a drawing.
    pub fn text(program: Program, bytes: &[u8]) -> Input {
        let lines = bytes.split_inclusive(|&byte| byte == b'\n');
        Input { program, pieces: lines.map(<[u8]>::to_vec).collect(), sound: false }
    }

    pub fn bytes(&self) -> Vec<u8> {
        self.pieces.concat()
    }
}
