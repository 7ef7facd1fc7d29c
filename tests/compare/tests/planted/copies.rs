//! Copies of the second program with faults planted in them, and what the comparison says of them.

use std::fs;
use std::path::{Path, PathBuf};
use std::process::{Command, Output};

/// A file of the second program, a text that stands in it exactly once, and what is to stand there instead.
pub type Edit = (&'static str, &'static str, &'static str);

/// Builds a copy of the second program with these edits.
pub fn second_with(name: &str, edits: &[Edit]) -> PathBuf {
    let second = Path::new(env!("CARGO_MANIFEST_DIR")).join("../second");
    let copy = Path::new(env!("CARGO_TARGET_TMPDIR")).join(name);
    fs::create_dir_all(copy.join("src")).expect("a folder for the copy");
    for file in ["Cargo.toml", "Cargo.lock"] {
        fs::copy(second.join(file), copy.join(file)).expect("a file of the second program");
    }
    for file in fs::read_dir(second.join("src")).expect("the second program's sources") {
        let file = file.expect("a source file");
        let mut text = fs::read_to_string(file.path()).expect("a text");
        for (_, old, new) in edits.iter().filter(|(edited, ..)| file.file_name() == *edited) {
            assert_eq!(text.matches(old).count(), 1, "{name}: the text to edit stands there exactly once");
            text = text.replace(old, new);
        }
        fs::write(copy.join("src").join(file.file_name()), text).expect("a source file of the copy");
    }
    let built = Command::new(env!("CARGO"))
        .args(["build", "--release", "--quiet", "--offline", "--target-dir", "target"])
        .current_dir(&copy)
        .status();
    assert!(built.expect("cargo runs").success(), "{name} is built");
    copy.join("target/release/second")
}

pub fn compare(through: &Path, words: &[&str]) -> Output {
    let mut command = Command::new(env!("CARGO_BIN_EXE_compare"));
    command.arg("--through").arg(through).args(words).output().expect("compare runs")
}

/// The group's inputs must show a difference in this program, with a word after its name or without, and the smallest must
/// be no longer than this. Gives what is printed.
pub fn found(copy: &Path, group: &str, program: &str, most_bytes: usize) -> String {
    let output = compare(copy, &["--only", group]);
    let text = String::from_utf8_lossy(&output.stdout);
    println!("{text}");
    assert_eq!(output.status.code(), Some(1), "exit status");
    let last = text.lines().last().expect("a last line");
    let differ = last.starts_with(&format!("compare: {program}")) && last.ends_with(" and the second program differ");
    assert!(differ, "last line");
    let (_, after) = text.split_once("The smallest input found, ").expect("the smallest input");
    let (bytes, _) = after.split_once(" bytes:").expect("its length");
    assert!(bytes.parse::<usize>().expect("a number") <= most_bytes, "the smallest input is small");
    text.into_owned()
}

/// The copy must stop on this script and say this.
pub fn stops(copy: &Path, script: &str, said: &str) {
    let file = copy.with_file_name("script");
    fs::write(&file, script).expect("a script");
    let script = fs::File::open(file).expect("the script");
    let output = Command::new(copy).arg("zones").stdin(script).output().expect("the copy runs");
    let errors = String::from_utf8_lossy(&output.stderr);
    assert_eq!(output.status.code(), Some(101), "exit status");
    assert!(errors.contains(said), "{errors}");
}
