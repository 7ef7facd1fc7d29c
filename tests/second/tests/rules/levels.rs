//! The program `levels`. (What it prints for K12 is in `worked`.)

use crate::worked::K12;
use second::levels::report;

/// A base where every dart is alone at its vertex: each edge is a piece of its own.
fn loose_edges(darts: u32) -> String {
    let pairs: String = (0..darts / 2).map(|e| format!("pair={} {}\n", 2 * e, 2 * e + 1)).collect();
    format!("numbers=0\ndarts={darts}\nlevels=0\n{pairs}")
}

#[test]
fn tables_for_4096_darts() {
    let expected = "level=0 darts=4096 vertices=4096 faces=2048 euler=4096\nend=ok\n";
    assert_eq!(report(loose_edges(4_096).as_bytes()), expected);
    for darts in [4_098, 65_536] {
        assert_eq!(report(loose_edges(darts).as_bytes()), "refusal=2 place=0\n");
    }
    assert_eq!(report(b"numbers=0\ndarts=4097\n"), "refusal=1 place=0\n");
    assert_eq!(report(b"numbers=0\ndarts=65538\n"), "refusal=1 place=0\n");
}

#[test]
fn a_refused_file_gets_one_line() {
    let rows = [
        (String::new(), "refusal=13 place=0\n"),
        (K12.replacen("numbers=0", "numbers=3", 1), "refusal=14 place=8\n"),
        (K12.replacen("levels=2", "levels=65", 1), "refusal=6 place=0\n"),
        (K12.replacen("remove 1", "remove 0", 1), "refusal=5 place=0\n"),
        (K12.replacen("pair=4 2", "pair=4 3", 1), "refusal=4 place=0\n"),
    ];
    for (file, line) in rows {
        assert_eq!(report(file.as_bytes()), line);
    }
}

#[test]
fn input_of_any_length_is_read() {
    let file = format!("{K12}{}", "pair=6 7\n".repeat(400_000));
    assert_eq!(report(file.as_bytes()), format!("refusal=13 place={}\n", K12.len()));
}
