//! Group `lines`: the script language's own rules: error lines, the limits of the rooms, the longest script
//!
//! An error line ends the program, so each is a script of its own.

use crate::input::{Input, Program};

/// "A script has at most 3,000,000 bytes."
const MOST_BYTES: usize = 3_000_000;

/// What stands before the line in question, so that an error is not in line 1 and there is something to show.
const BEFORE: &str = "lend 2 1 8\ntable 0 1 0\nstart 2\n";

/// What stands after it, and is done only where that line was none in error.
const AFTER: &str = "counts\nsuccessor 2 0 0\nshow\n";

pub const SCRIPTS: usize = LINES.len() + COSTS.len() + BARE.len() + LONG;

pub fn input(script: usize) -> Input {
    let lines = LINES.iter().chain(&COSTS);
    let bytes = if let Some(line) = lines.clone().nth(script) {
        format!("{BEFORE}{line}{AFTER}").into_bytes()
    } else if let Some(text) = BARE.get(script - lines.count()) {
        text.as_bytes().to_vec()
    } else {
        long(script - LINES.len() - COSTS.len() - BARE.len())
    };
    Input::text(Program::Zones, &bytes)
}

const LINES: [&str; 211] = [
    // Words.
    "\n", " \n", "nothing\n", "Counts\n", "count\n", "countss\n", " counts\n", "counts \n", "counts\r\n", "counts\t\n",
    "counts 0\n", "sweep 1\n", "undo 1\n", "show 1\n", "bytes 1\n", "counts\0\n", "counts\u{e9}\n",
    // How many numbers a word takes.
    "lend 2 1\n", "lend 2 1 8 0\n", "table\n", "history\n", "work\n", "fill\n", "fill 1 2\n", "state\n", "state 2 0\n",
    "start\n", "start 2 2\n", "unfold\n", "unfold 0 0\n", "read\n", "write\n", "write 9 9\n",
    // The form of a number.
    "start  2\n", "start 2 \n", "start +2\n", "start -2\n", "start 2x\n", "start 0x2\n", "start 0000000000000000002\n",
    "start 4294967295\n", "start 4294967296\n", "start 42949672950\n", "start 18446744073709551618\n",
    // The limits of the rooms.
    "lend 65536 32768 262156\n", "lend 65537 1 8\n", "lend 2 32769 8\n", "lend 2 1 262157\n", "lend 4294967295 1 8\n",
    "table 65539 7\n", "table 65540 7\n", "table 65538 7 7 7\n", "table 65540\n", "table 4294967295\n",
    "table 4294967295 1\n", "history 32771 7\n", "history 32772 7\n", "work 262159 7\n", "work 262160 7\n",
    "write 599996\nbytes\n", "write 599997\n", "write 4294967295\n",
    // A file's bytes and the line feed after them.
    "read 0\n\n", "read 3\nabc\n", "read 3\nabcd\n", "read 4\nabc\n", "read 1000\nabc\n", "read 4294967295\nabc\n",
    // The plan's room and its bytes.
    "plan\n", "plan 0\n", "plan x\n", "plan 4294967295\n", "plan 4294967296\n", "plan 0 255 0\n", "plan 0 256\n",
    "plan 0 0255\n", "plan 0 1 4294967295\n", "plan 0 1 4294967552\n", "plan 0 -1\n", "plan 0 1 \n", "plan 16387 7\n",
    "plan 16388 7\n", "plan 16387 7 7\n", "plan 4294967295 1\n", "flat\n", "flat 2 1\n", "flat 2 1 2 2\n",
    "flat 2 1 16384\n", "flat 2 1 16385\n", "flat 0 0 16385\n", "flat 4294967295 4294967295 0\n",
    "flat 2 1 4294967298\n", "flatareas\n", "flatareas 2 1 16385\n", "flatarea 2 1 2\n", "flatareass 2 1 2\n",
    "flat  2 1 2\n", // The room of edges' ends, and the lookup's numbers.
    "ends\n", "ends 0\n", "ends x\n", "ends 4294967295\n", "ends 4294967296\n", "ends 0 0 4294967295\n",
    "ends 0 4294967296\n", "ends 0 -1\n", "ends 0 1 \n", "ends  0 1\n", "ends 32771 7\n", "ends 32772 7\n",
    "ends 32771 7 7\n", "ends 4294967295 1\n", "end 0 1\n", "Ends 0 1\n", "endss 0 1\n", "successor\n",
    "successor 2\n", "successor 2 0\n", "successor 2 0 1\n", "successor 2 0 1 0\n", "successor 02 00 01\n",
    "successor 2  0 1\n", "successor 2 0 1 \n", "successor 2 0 x\n", "successor 2 -1 0\n",
    "successor 4294967295 0 0\n", "successor 2 4294967295 0\n", "successor 2 0 4294967295\n",
    "successor 4294967296 0 0\n", "successor 2 4294967296 0\n", "successor 2 0 4294967296\n", "successors 2 0 1\n",
    "Successor 2 0 1\n", // The rooms of the sheets, the form of a record, and the calls with sheets.
    "sheet\n", "sheet 0\n", "sheet x\n", "sheet 4294967295\n", "sheet 4294967296\n", "sheet 0 7:0 65535:-\n",
    "sheet 0 0007:00 007:-\n", "sheet 0 1:18446744073709551615\n", "sheet 0 4294967295:0\n", "sheet 0 4294967296:0\n",
    "sheet 0 0:18446744073709551616\n", "sheet 0 0:184467440737095516150\n", "sheet 0 7\n", "sheet 0 7:\n",
    "sheet 0 :7\n", "sheet 0 :-\n", "sheet 0 -\n", "sheet 0 -:7\n", "sheet 0 7:--\n", "sheet 0 7:-0\n",
    "sheet 0 7:0:0\n", "sheet 0 7:+1\n", "sheet 0 7:0.5\n", "sheet 0 7 :0\n", "sheet 0 7: 0\n", "sheet 0 7:0 \n",
    "sheet  0 7:0\n", "sheet 0 7:0 7\n", "sheet 0 7;0\n", "sheet 0 7:x\n", "sheet 65539 7:0\n", "sheet 65540 7:0\n",
    "sheet 65539 7:0 7:0\n", "sheet 4294967295 7:0\n", "kept\n", "kept 0 1:-\n", "kept 0 1\n", "kept 32771 7:0\n",
    "kept 32772 7:0\n", "kept 4294967295\n", "sheets\n", "sheets 2\n", "sheets 2 1\nyarnundo\n", "sheets 2 1 0\n",
    "sheets 65536 32768\nyarnundo\n", "sheets 65537 0\n", "sheets 0 32769\n", "sheets 0 4294967297\n", "sheets x 0\n",
    "yarnstart\n", "yarnstart 2\n", "yarnstart 2 2\n", "sheets 2 1\nyarnstart 02\n", "yarncontract\n",
    "yarncontract \n", "yarnremove 4294967296\n", "yarnsweep 1\n", "yarnundo 1\n", "yarnunfold\n", "yarnunfold 0 0\n",
    "yarncounts\n", // The numbers that the state stores.
    "stored\n", "stored 1\n", "stored 1 2\n", "stored 1 2 3\n", "stored 001 02\n", "stored 2 1\n",
    "stored 4294967295 0\n", "stored 1 4294967296\n", "stored 4294967296 2\n", "stored 1 x\n", "stored -1 2\n",
    "stored 1 2 \n", "stored  1 2\n", "stored 1  2\n", "store 1 2\n", "Stored 1 2\n", "storeds 1 2\n",
    "stored 1 2\nstate 2 0 0\n",
];

/// The zones' costs: how much is lent, numbers that are no dart, an odd number of darts, and metres at their limits.
const COSTS: [&str; 22] = [
    "costs\n",
    "costs 1\n",
    "costs \n",
    "cost\n",
    "costss\n",
    "Costs\n",
    "sheets 2 0\ncosts\n",
    "sheets 1 1\ncosts\n",
    "sheets 2 0\nlend 1 1 8\ncosts\n",
    "sheets 2 0\nlend 2 0 0\ncosts\n",
    "sheets 2 0\nstate 2 1 1 1\ncosts\n",
    "sheets 2 0\nstate 2 2 1 1\ncosts\n",
    "sheets 2 0\nlend 2 0 0\nstate 2 1 1 1\ncosts\n",
    "sheets 65536 0\nstate 4294967295 0 0\ncosts\n",
    "sheets 65536 0\nlend 65536 0 0\nstate 65536 0 0\ncosts\n",
    "sheets 3 0\nlend 3 0 0\ntable 0 2 1 2\nstate 3 0 0\ncosts\n",
    "sheets 2 0\ntable 0 2 4294967295\ncosts\n",
    "sheets 3 0\nlend 3 1 0\ntable 0 0 1 2\nhistory 0 5\nstate 3 1 0\ncosts\n",
    "sheets 3 0\nlend 3 1 0\ntable 0 0 1 2\nhistory 0 3\nstate 3 1 0\ncosts\n",
    "sheets 3 0\nlend 3 1 0\ntable 0 0 1 2\nhistory 0 2\nstate 3 1 0\ncosts\n",
    "sheets 3 0\nlend 3 1 0\ntable 0 0 1 2\nhistory 0 4294967295\nstate 3 1 0\ncosts\n",
    METRES,
];

/// 0.0, -0.0, the smallest, 2^-10 and the number below, 0.001 and below, 0.1234567, 0.9999999, 12, 10^12, below and above,
/// infinity, a NaN, -5e-324
const METRES: &str = "sheets 16 0\nlend 16 0 0\nstate 16 0 0\ntable 0 0 1 2 3 4 5 6 7 8 9 10 11 12 13 14 15\n\
    sheet 0 1:0 2:9223372036854775808 3:1 4:4562146422526312448 5:4562146422526312447 6:4562254508917369340 7:4562254508917369339\n\
    sheet 7 8:4593560413433027186 9:4607182417899297483 10:4622945017495814144 11:4786511204640096256 12:4786511204640096255\n\
    sheet 12 13:4786511204640096257 14:9218868437227405312 15:9221120237041090560 4294967295:9223372036854775809\ncosts\n";

/// Scripts that are in error at their end, or that hold nothing to print.
const BARE: [&str; 8] = [
    "", "\n", "counts", "bytes\n", "show\nbytes\ncounts\n", "counts\nlend 1 2 3", "state 65 7 70 1 2 3\nshow\n",
    "read 3\nabc",
];

/// Scripts that are too long to write down.
const LONG: usize = 16;

fn long(script: usize) -> Vec<u8> {
    let line = match script {
        // "A kernel has at most 32,772 edges; a longer one is an error line."
        0 => format!("contract{}\n", " 0".repeat(32_772)),
        1 => format!("contract{}\n", " 0".repeat(32_773)),
        // A longer one "prints `error=0` and nothing else."
        2 => line_for(MOST_BYTES),
        3 => line_for(MOST_BYTES + 1),
        4 => line_for(2 * MOST_BYTES),
        // "more than 64 ends"
        5 => format!("state 2 0 0{}\n", " 0".repeat(64)),
        6 => format!("state 2 0 0{}\n", " 0".repeat(65)),
        // "the plan's room, of 16,388 bytes"
        7 => format!("plan 0{}\n", " 255".repeat(16_388)),
        8 => format!("plan 0{}\n", " 255".repeat(16_389)),
        // "the room of edges' ends, of 32,772 numbers"
        9 => format!("ends 0{}\n", " 3".repeat(32_772)),
        10 => format!("ends 0{}\n", " 3".repeat(32_773)),
        // "the sheet's room (65,540)", "that of the kept records (32,772)"
        11 => format!("sheet 0{}\n", " 7:-".repeat(65_540)),
        12 => format!("sheet 0{}\n", " 7:-".repeat(65_541)),
        13 => format!("kept 0{}\n", " 7:-".repeat(32_773)),
        14 => format!("yarncontract{}\n", " 0".repeat(32_772)),
        _ => format!("yarnremove{}\n", " 0".repeat(32_773)),
    };
    format!("{BEFORE}{line}{AFTER}").into_bytes()
}

/// A line that makes the script so many bytes long: "leading zeros are allowed".
fn line_for(length: usize) -> String {
    let zeros = length - BEFORE.len() - "start 2\n".len() - AFTER.len();
    format!("start {}2\n", "0".repeat(zeros))
}
