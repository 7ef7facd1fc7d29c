//! The samples are what samples/README.md says of them.

use second::{drawing, levels, zones};
use std::collections::BTreeSet;
use std::fs;
use std::path::{Path, PathBuf};

fn samples() -> PathBuf {
    Path::new(env!("CARGO_MANIFEST_DIR")).join("../../samples")
}

/// The rows of its tables: a file's name and the line that goes with it.
fn rows() -> Vec<(String, String)> {
    let text = fs::read_to_string(samples().join("README.md")).expect("a text");
    let code = |cell: &str| cell.trim().strip_prefix('`')?.strip_suffix('`').map(str::to_string);
    let row = |line: &str| {
        let cells: Vec<&str> = line.split('|').collect();
        Some((code(cells.get(1)?)?, code(cells.get(3)?)?))
    };
    text.lines().filter_map(row).collect()
}

#[test]
fn every_line_is_the_one_that_is_printed() {
    for (name, line) in rows() {
        let mut sample = fs::read(samples().join(&name)).expect("a sample");
        if name.ends_with(".plan") {
            sample = drawing::areas(&sample);
        }
        if !line.starts_with("level=") {
            let printed = if name.ends_with(".plan") { sample } else { levels::report(&sample).into_bytes() };
            assert_eq!(String::from_utf8_lossy(&printed), format!("{line}\n"), "{name}");
            continue;
        }
        let report = levels::report(&sample);
        assert!(report.ends_with(&format!("{line}\nend=ok\n")), "{name}: {report}");
    }
}

#[test]
fn every_file_has_its_line() {
    let told: BTreeSet<String> = rows().into_iter().map(|(name, _)| name).collect();
    let files = fs::read_dir(samples()).expect("a folder").map(|file| file.expect("a file").file_name());
    let files: BTreeSet<String> = files.filter_map(|name| name.into_string().ok()).collect();
    let has_line = |name: &String| name.ends_with(".txt") || name.ends_with(".plan");
    let files: BTreeSet<String> = files.into_iter().filter(has_line).collect();
    assert_eq!(told, files);
}

#[test]
fn the_script_of_the_brief_writes_its_file() {
    let printed = zones::run(&fs::read(samples().join("brief.script")).expect("a script"));
    let file = fs::read(samples().join("brief.txt")).expect("a file");
    assert!(printed.ends_with(&file));
}

#[test]
fn the_drawing_of_the_brief_is_its_plan() {
    let drawing = fs::read(samples().join("brief.plan")).expect("a drawing");
    assert_eq!(drawing::base(&drawing), fs::read(samples().join("brief-plan.txt")).expect("a file"));
}

#[test]
fn the_scripts_print_what_is_told() {
    let text = fs::read_to_string(samples().join("README.md")).expect("a text");
    let names =
        ["plan", "no-permutation", "successor", "stored", "worked-yarn", "yarn"].map(|name| format!("{name}.script"));
    for name in names {
        let printed = zones::run(&fs::read(samples().join(&name)).expect("a script"));
        let told: String = String::from_utf8_lossy(&printed).lines().map(|line| format!("    {line}\n")).collect();
        assert!(format!("{text}\n").contains(&format!("\n\n{told}\n")), "{name}: {told}");
    }
}
