//! Parting == where two outputs part
//! Others  == the programs that are compared with the second program

use crate::input::{Input, Program};
use std::ffi::OsString;
use std::io::{self, Write};
use std::panic::{catch_unwind, UnwindSafe};
use std::process::{Command, ExitStatus, Stdio};
use std::thread;

/// The first line that is not the same, from 1, and the two lines.
pub struct Parting {
    pub line: usize,
    pub theirs: String,
    pub ours: String,
}

/// The programs to compare: `COMMAND NAME` runs the program NAME, and `COMMAND plan base` runs `plan` with that word.
pub struct Others {
    pub command: OsString,
}

impl Others {
    /// Runs a program on an input. A program may end before it has read all: the output tells.
    fn run(&self, program: Program, bytes: &[u8]) -> io::Result<(Vec<u8>, ExitStatus)> {
        let mut child = Command::new(&self.command)
            .args(program.name().split(' '))
            .stdin(Stdio::piped())
            .stdout(Stdio::piped())
            .stderr(Stdio::inherit())
            .spawn()?;
        let stdin = child.stdin.take();
        let output = thread::scope(|scope| {
            scope.spawn(move || stdin.map(|mut stdin| stdin.write_all(bytes)));
            child.wait_with_output()
        })?;
        Ok((output.stdout, output.status))
    }

    /// Runs each program once on nothing, so that what has to be built is built by one run alone.
    pub fn ready(&self) -> io::Result<()> {
        for program in Program::ALL {
            let status = self.run(program, b"")?.1;
            if !status.success() {
                return Err(io::Error::other(format!("{} cannot be run: {status}", program.name())));
            }
        }
        Ok(())
    }

    /// Compares every byte, and the exit status, which the second program has as 0. Gives what the second program
    /// printed, and where the other one parts from it.
    pub fn compare(&self, input: &Input) -> io::Result<(Vec<u8>, Option<Parting>)> {
        let bytes = input.bytes();
        let ours = printed_or_said(|| input.program.second(&bytes));
        let (mut theirs, status) = self.run(input.program, &bytes)?;
        if !status.success() {
            theirs.extend(format!("({status})\n").bytes());
        }
        let parting = parting(&theirs, &ours);
        Ok((ours, parting))
    }
}

/// What the second program prints, or says where it stops: the levels that it kept and the numbers differ then, and that
/// is a difference like any other.
fn printed_or_said(second: impl FnOnce() -> Vec<u8> + UnwindSafe) -> Vec<u8> {
    catch_unwind(second).unwrap_or_else(|said| {
        let text = said.downcast_ref::<String>().map(String::as_str).or(said.downcast_ref::<&str>().copied());
        format!("(stopped: {})\n", text.unwrap_or("no word")).into_bytes()
    })
}

fn parting(theirs: &[u8], ours: &[u8]) -> Option<Parting> {
    if theirs == ours {
        return None;
    }
    let same = theirs.iter().zip(ours).take_while(|(a, b)| a == b).count();
    let line = 1 + ours[..same].iter().filter(|&&byte| byte == b'\n').count();
    Some(Parting { line, theirs: around(theirs, same), ours: around(ours, same) })
}

/// The line in which this byte stands, its line feed included, as far as it is near the byte.
fn around(printed: &[u8], byte: usize) -> String {
    const NEAR: usize = 200;
    let start = printed[..byte].iter().rposition(|&b| b == b'\n').map_or(0, |feed| feed + 1);
    let end = printed[byte..].iter().position(|&b| b == b'\n').map_or(printed.len(), |feed| byte + feed + 1);
    let (from, to) = (start.max(byte.saturating_sub(NEAR)), end.min(byte + NEAR));
    let (before, after) = (if from > start { ".. " } else { "" }, if to < end { " .." } else { "" });
    match printed[from..to].escape_ascii().to_string() {
        line if line.is_empty() => "(nothing)".to_string(),
        line => format!("{before}{line}{after}"),
    }
}

#[cfg(test)]
mod tests {
    use super::*;

    #[test]
    fn a_second_program_that_stops_is_a_difference() {
        assert_eq!(printed_or_said(|| b"answer".to_vec()), b"answer");
        assert_eq!(printed_or_said(|| panic!("after undo")), b"(stopped: after undo)\n");
        assert_eq!(printed_or_said(|| std::panic::panic_any("undo".to_string())), b"(stopped: undo)\n");
        assert_eq!(printed_or_said(|| std::panic::panic_any(0)), b"(stopped: no word)\n");
    }
}
