//! Runs the proved programs `zones`, `levels` and `plan` and the second program on the same inputs and compares every byte.
//!
//! - [`chance`]   numbers from a fixed seed
//! - [`bases`]    maps to start from
//! - [`codes`]    plans: grids and their codes
//! - [`kernels`]  kernels proposed for a map
//! - [`script`]   a script for `zones`
//! - [`scene`]    a script under way, with the pyramid it has come to
//! - [`steps`]    what can happen next in a scene
//! - [`damage`]   states that are no pyramid any more
//! - [`twice`]    histories with an edge twice, which look right everywhere else
//! - [`ended`]    edges' ends, and tables and ends that come from no pyramid
//! - [`records`]  records of a sheet: fit, unfit, and others
//! - [`sheets`]   both sheets as a script has them, and damage to them
//! - [`files`]    good files
//! - [`spoil`]    files with something wrong
//! - [`input`]    what one run of a program reads
//! - [`worked`], [`lines`], [`starts`], [`small`], [`deep`], [`reads`], [`reports`], [`plans`], [`drawings`], [`lookups`],
//!   [`yarn`], [`large`]  the inputs, group by group
//! - [`worked_stored`], [`worked_yarn`] the worked scripts of the stored numbers and of the calls with sheets
//! - [`groups`]   the list of these
//! - [`compare`]  both programs on one input
//! - [`round`]    both programs on a group's inputs
//! - [`shrink`]   the smallest input that shows a difference
//! - [`coverage`] which call gave which answer, and which can

mod bases;
mod chance;
mod codes;
mod compare;
mod coverage;
mod damage;
mod deep;
mod drawings;
mod ended;
mod files;
mod groups;
mod input;
mod kernels;
mod large;
mod lines;
mod lookups;
mod plans;
mod reads;
mod records;
mod reports;
mod round;
mod scene;
mod script;
mod sheets;
mod shrink;
mod small;
mod spoil;
mod starts;
mod steps;
mod twice;
mod worked;
mod worked_stored;
mod worked_yarn;
mod yarn;

use compare::Others;
use coverage::Coverage;
use groups::{Group, GROUPS};
use input::Input;
use round::round;
use std::ffi::OsString;
use std::io::{self, Write};
use std::process::ExitCode;

const HELP: &str = "\
usage: compare --through COMMAND [--long] [--only GROUP]
       tests/compare/run [--long] [--only GROUP]             the same through tools/run

Runs `COMMAND zones`, `COMMAND levels`, `COMMAND plan` and `COMMAND plan base` and the second program on the same inputs
and compares every byte.
A difference is printed with the smallest input found that shows it.

  --long         many more inputs
  --only GROUP   the inputs of one group; answers that do not occur are then no fault
  --help         print this text

Exit status 0: no difference, and every answer that can occur did; 1: not so; 2: it could not be told.
The groups are:
";

/// What the command line asks for.
struct Asked {
    others: Others,
    long: bool,
    groups: Vec<&'static Group>,
}

fn main() -> ExitCode {
    let words: Vec<OsString> = std::env::args_os().skip(1).collect();
    if words.iter().any(|word| word == "--help") {
        print!("{}", help());
        return ExitCode::SUCCESS;
    }
    let Some(asked) = asked(words.into_iter()) else {
        eprint!("{}", help());
        return ExitCode::from(2);
    };
    match compare(&asked) {
        Ok(true) => ExitCode::SUCCESS,
        Ok(false) => ExitCode::from(1),
        Err(error) => {
            eprintln!("compare: {error}");
            ExitCode::from(2)
        }
    }
}

fn help() -> String {
    GROUPS.iter().fold(HELP.to_string(), |text, group| format!("{text}  {:8} {}\n", group.name, group.about))
}

/// The command line understood; a word that comes again replaces what it said before.
fn asked(mut words: impl Iterator<Item = OsString>) -> Option<Asked> {
    let (mut command, mut long, mut groups) = (None, false, GROUPS.iter().collect());
    while let Some(word) = words.next() {
        match word.to_str()? {
            "--through" => command = Some(words.next()?),
            "--long" => long = true,
            "--only" => groups = vec![group(&words.next()?)?],
            _ => return None,
        }
    }
    Some(Asked { others: Others { command: command? }, long, groups })
}

fn group(name: &OsString) -> Option<&'static Group> {
    GROUPS.iter().find(|group| name == group.name)
}

/// Compares on all inputs asked for, and says whether all is well.
fn compare(asked: &Asked) -> io::Result<bool> {
    asked.others.ready()?;
    let mut coverage = Coverage::default();
    for group in &asked.groups {
        let round = round(&asked.others, group, group.inputs(asked.long))?;
        if let Some((number, input)) = round.difference {
            println!("{:8} input {number} shows a difference; looking for a smaller one", group.name);
            print_difference(&asked.others, &input)?;
            return Ok(false);
        }
        println!("{:8} {}: no difference", group.name, round.coverage);
        coverage.add(&round.coverage);
    }
    println!("\n{}\n", coverage.table());
    let faults = if asked.groups.len() == GROUPS.len() { coverage.faults() } else { Vec::new() };
    for fault in &faults {
        println!("compare: {fault}");
    }
    println!("compare: {coverage}: no difference{}", if faults.is_empty() { "" } else { ", but see above" });
    Ok(faults.is_empty())
}

fn print_difference(others: &Others, input: &Input) -> io::Result<()> {
    let smallest = shrink::shrunk(others, input)?;
    let parting = others.compare(&smallest)?.1;
    println!("\nThe smallest input found, {} bytes:\n", smallest.bytes().len());
    io::stdout().write_all(&smallest.bytes())?;
    println!();
    match parting {
        Some(parting) => {
            println!("Line {} of what the programs print:", parting.line);
            println!("  {:9} {}", input.program.name(), parting.theirs);
            println!("  {:9} {}", "second", parting.ours);
        }
        None => println!("It shows the difference no longer: the program does not print the same each time."),
    }
    println!("compare: {} and the second program differ", input.program.name());
    Ok(())
}
