//! The commands: `second zones` runs a script, `second levels` reports on a file, `second plan` makes the file of a drawn
//! plan.

use std::io::{self, Read, Write};
use std::process::ExitCode;

use second::{drawing, levels, zones};

const HELP: &str = "\
usage: second zones     < script    run a script of calls and print one line for each
       second levels    < file      print one line for each level of a file
       second plan      < drawing   print the file of a drawn plan, contracted to its areas of one code
       second plan base < drawing   print the file of a drawn plan, stitch by stitch
       second --help                print this text
";

fn main() -> io::Result<ExitCode> {
    let words: Vec<String> = std::env::args_os().skip(1).map(|word| word.to_string_lossy().into_owned()).collect();
    let words: Vec<&str> = words.iter().map(String::as_str).collect();
    match words.as_slice() {
        ["zones"] => print(&zones::run(&standard_input()?)),
        ["levels"] => print(levels::report(&standard_input()?).as_bytes()),
        ["plan"] => print(&drawing::areas(&standard_input()?)),
        ["plan", "base"] => print(&drawing::base(&standard_input()?)),
        ["--help"] => print(HELP.as_bytes()),
        _ => {
            io::stderr().write_all(HELP.as_bytes())?;
            Ok(ExitCode::from(2))
        }
    }
}

fn standard_input() -> io::Result<Vec<u8>> {
    let mut bytes = Vec::new();
    io::stdin().lock().read_to_end(&mut bytes)?;
    Ok(bytes)
}

fn print(bytes: &[u8]) -> io::Result<ExitCode> {
    let mut output = io::stdout().lock();
    output.write_all(bytes)?;
    output.flush()?;
    Ok(ExitCode::SUCCESS)
}
