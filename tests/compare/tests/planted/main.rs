//! The comparison itself: a copy of the second program with a fault planted in it must be found, and one without must
//! not be. Each module has the faults of one part of the program, and then what must find them.

mod calls;
mod copies;
mod drawings;
mod levels;
mod lookups;
mod plans;
mod stored;
mod sweeps;
mod yarn;

use copies::{compare, second_with};

#[test]
fn no_difference_from_the_second_program_itself() {
    let copy = second_with("no-fault", &[]);
    let output = compare(&copy, &[]);
    let text = String::from_utf8_lossy(&output.stdout);
    println!("{text}");
    assert_eq!(output.status.code(), Some(0), "exit status");
    let last = text.lines().last().expect("a last line");
    assert!(last.starts_with("compare: ") && last.ends_with(" drawings: no difference"), "last line");
    let numbers: Vec<u64> = last.split(' ').filter_map(|word| word.parse().ok()).collect();
    let [_scripts, calls, files, drawings] = *numbers else { panic!("four numbers in the last line") };
    assert!(calls >= 250_000 && files >= 20_300 && drawings >= 1_000, "as many as promised");
}
