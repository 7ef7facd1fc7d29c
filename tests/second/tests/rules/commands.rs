//! The program as it is started: words, standard input and output, exit status.

use std::io::Write;
use std::process::{Command, Output, Stdio};

use crate::worked::{K12, K12_FROM_ONE, K12_LEVELS};

fn started(words: &[&str], input: &str) -> Output {
    let mut program = Command::new(env!("CARGO_BIN_EXE_second"))
        .args(words)
        .stdin(Stdio::piped())
        .stdout(Stdio::piped())
        .stderr(Stdio::piped())
        .spawn()
        .expect("the program starts");
    // A program that prints its help does not read, so that this may fail.
    let _ = program.stdin.take().expect("a pipe").write_all(input.as_bytes());
    program.wait_with_output().expect("the program ends")
}

fn prints(words: &[&str], input: &str, expected: &str) {
    let output = started(words, input);
    assert_eq!(output.status.code(), Some(0));
    assert_eq!(String::from_utf8_lossy(&output.stdout), expected);
    assert!(output.stderr.is_empty());
}

#[test]
fn levels_reads_standard_input() {
    prints(&["levels"], K12, K12_LEVELS);
    prints(&["levels"], K12_FROM_ONE, K12_LEVELS);
    prints(&["levels"], "numbers=2\n", "refusal=14 place=8\n");
    prints(&["levels"], "", "refusal=13 place=0\n");
}

#[test]
fn zones_reads_standard_input() {
    prints(&["zones"], "", "");
    prints(&["zones"], "state 4 3 2 1\nstored 6 5\nshow\n\n", "state=4 3 2 6 5 1 0\ntable=\nhistory=\nerror=4\n");
}

#[test]
fn plan_reads_standard_input() {
    let base = "numbers=0\ndarts=4\nlevels=0\npair=0 2\npair=1 3\n";
    prints(&["plan", "base"], "A\nA\nA\n", base);
    prints(&["plan"], "A\nA\nA\n", "numbers=0\ndarts=4\nlevels=1\nkernel=contract 1\npair=2 1\npair=2 3\n");
    prints(&["plan"], "", "refusal=15 place=0\n");
    prints(&["plan"], "AB\nBA\n", "refusal=5 place=0\n");
    prints(&["plan", "base"], "AB\nA\n", "error=2\n");
}

#[test]
fn help_is_printed_when_asked_for() {
    let output = started(&["--help"], "");
    assert_eq!(output.status.code(), Some(0));
    assert!(output.stdout.starts_with(b"usage: second zones"));
    assert!(output.stderr.is_empty());
}

#[test]
fn an_unknown_word_gets_help_on_standard_error() {
    let starts: [&[&str]; 10] = [
        &[],
        &["zone"],
        &["levels", "x"],
        &["zones", "levels"],
        &["plan", "areas"],
        &["plan", ""],
        &["plan", "base", "base"],
        &["base"],
        &["--help", "x"],
        &[""],
    ];
    for words in starts {
        let output = started(words, "");
        assert_eq!(output.status.code(), Some(2));
        assert!(output.stdout.is_empty());
        assert!(output.stderr.starts_with(b"usage: second zones"));
    }
}
