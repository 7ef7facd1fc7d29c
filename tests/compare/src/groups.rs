//! Group == inputs of one sort, each made from its number

use crate::input::Input;
use crate::{deep, drawings, large, lines, lookups, plans, reads, reports, small, starts, worked, yarn};

pub struct Group {
    pub name: &'static str,
    /// What its inputs are.
    pub about: &'static str,
    /// How many there are in a usual run, and in a long one, which has those of a usual one and more.
    usual: usize,
    long: usize,
    pub input: fn(usize) -> Input,
}

impl Group {
    const fn new(
        name: &'static str,
        about: &'static str,
        usual: usize,
        long: usize,
        input: fn(usize) -> Input,
    ) -> Group {
        Group { name, about, usual, long, input }
    }

    pub fn inputs(&self, long: bool) -> usize {
        if long {
            self.long
        } else {
            self.usual
        }
    }
}

pub const GROUPS: [Group; 12] = [
    Group::new(
        "worked",
        "document 01's examples, what one test of a pyramid alone refuses, both culprits, small plans and lookups",
        worked::SCRIPTS,
        worked::SCRIPTS,
        worked::input,
    ),
    Group::new("lines", "the script language's own rules", lines::SCRIPTS, lines::SCRIPTS, lines::input),
    Group::new("starts", "tables that are no permutation", 12, 120, starts::input),
    Group::new("small", "maps of 2 to 40 darts", 12, 240, small::input),
    Group::new("deep", "63, 64 and 65 levels", 6, 60, deep::input),
    Group::new("reads", "files for the call read", 12, 120, reads::input),
    Group::new("reports", "files for the program levels", 1_000, 6_000, reports::input),
    Group::new("plans", "the calls on a plan", 30, 300, plans::input),
    Group::new("drawings", "drawn plans for the program plan", 1_000, 6_000, drawings::input),
    Group::new("lookups", "a dart's successor at each level", 16, 160, lookups::input),
    Group::new("yarn", "the calls with sheets", 18, 180, yarn::input),
    Group::new("large", "maps of 4,096 to 65,536 darts", 30, 200, large::input),
];
