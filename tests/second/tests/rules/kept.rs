//! The levels that the program `zones` keeps from call to call.

use crate::support::maps::T;
use crate::worked::K12;
use second::zones::Zones;

/// T lent in full and started; then K7's two levels.
const BASE: &str = "lend 8 4 32\ntable 0 5 2 1 4 6 0 3 7\nstart 8\n";
const K7: &str = "lend 8 4 32\ntable 0 5 2 1 4 6 0 3 7\nstart 8\ncontract 0 1\nremove 2\n";

/// The tables of K7's levels.
const ONE: [u32; 8] = [5, 2, 5, 4, 6, 4, 5, 7];
const TWO: [u32; 8] = [5, 2, 5, 4, 6, 4, 6, 7];

/// What is kept at the end of a script: the tables of the levels, base first, their ends, and the history.
type Levels = (Vec<Vec<u32>>, Vec<usize>, Vec<u32>);

fn kept(script: &str) -> Option<Levels> {
    let zones = Zones::after(script.as_bytes());
    let pyramid = zones.kept().pyramid()?;
    let tables = pyramid.levels().iter().map(|level| level.map.table().to_vec()).collect();
    let ends = pyramid.levels().iter().map(|level| level.operations).collect();
    Some((tables, ends, pyramid.history().to_vec()))
}

/// After the script these levels are kept.
fn keeps(script: &str, tables: &[[u32; 8]], ends: &[usize], history: &[u32]) {
    let tables = tables.iter().map(|table| table.to_vec()).collect();
    assert_eq!(kept(script), Some((tables, ends.to_vec(), history.to_vec())), "{script}");
}

/// After these lines K7's levels are still kept.
fn keeps_k7(lines: &str) {
    keeps(&format!("{K7}{lines}"), &[T, ONE, TWO], &[0, 2, 3], &[1, 5, 10]);
}

/// After these lines on K7's pyramid nothing is kept.
fn drops(lines: &str) {
    assert_eq!(kept(&format!("{K7}{lines}")), None, "{lines}");
}

#[test]
fn nothing_is_kept_at_first() {
    assert_eq!(kept(""), None);
    assert_eq!(kept("lend 8 4 32\ntable 0 5 2 1 4 6 0 3 7\nstate 8 0 0\nstored 4 2\n"), None);
}

#[test]
fn start_keeps_the_base() {
    keeps(BASE, &[T], &[0], &[]);
    keeps(&format!("{K7}table 0 5 2 1 4 6 0 3 7\nstart 8\n"), &[T], &[0], &[]);
}

#[test]
fn flat_keeps_the_base_and_flatareas_a_level_over_it() {
    let plan = "lend 8 4 32\nplan 0 65 65 65 65\n";
    let (base, top) = ([4, 6, 5, 7, 0, 2, 1, 3], [4, 6, 5, 7, 6, 7, 7, 6]);
    keeps(&format!("{plan}flat 2 2 4\n"), &[base], &[0], &[]);
    keeps(&format!("{K7}{plan}flat 2 2 4\n"), &[base], &[0], &[]);
    keeps(&format!("{plan}flatareas 2 2 4\n"), &[base, top], &[0, 3], &[1, 5, 9]);
    keeps(&format!("{plan}flatareas 2 2 4\nplan 0 66\nundo\n"), &[base], &[0], &[]);
}

#[test]
fn reduce_and_sweep_put_a_level_on() {
    keeps(&format!("{BASE}contract 0 1\n"), &[T, ONE], &[0, 2], &[1, 5]);
    keeps_k7("");
    keeps(&format!("{BASE}contract 0 1\nsweep\n"), &[T, ONE, TWO], &[0, 2, 3], &[1, 5, 10]);
}

#[test]
fn undo_and_unfold_take_levels_off() {
    keeps(&format!("{K7}undo\n"), &[T, ONE], &[0, 2], &[1, 5]);
    keeps(&format!("{K7}undo\nundo\n"), &[T], &[0], &[]);
    keeps(&format!("{K7}unfold 1\n"), &[T, ONE], &[0, 2], &[1, 5]);
    keeps(&format!("{K7}unfold 0\n"), &[T], &[0], &[]);
    keeps_k7("unfold 2\n");
}

#[test]
fn read_keeps_the_levels_of_its_file() {
    let (read, ends, history) = kept(&format!("{BASE}read {}\n{K12}\n", K12.len())).expect("an accepted read");
    assert_eq!((ends, history), (vec![0, 2, 3], vec![1, 5, 8]));
    // The file's darts 4 and 5 are K7's 5 and 4: the last operation had p = 5.
    let names = [0, 1, 2, 3, 5, 4, 6, 7];
    let renamed = |table: [u32; 8]| names.map(|d| names[table[d as usize] as usize]).to_vec();
    assert_eq!(read, [renamed(T), renamed(ONE), renamed(TWO)]);
}

#[test]
fn counts_and_write_change_nothing_that_is_kept() {
    keeps_k7("counts\nwrite 97\nbytes\nshow\n");
}

#[test]
fn a_lookup_changes_nothing_that_is_kept() {
    keeps_k7("successor 8 0 0\nends 0 3 3 4 0\nsuccessor 8 0 0\nsuccessor 7 0 0\n");
    keeps(&format!("{BASE}ends 0 3 3 4 0\nsuccessor 8 2 6\nsuccessor 8 2 0\n"), &[T], &[0], &[]);
}

#[test]
fn a_refused_call_keeps_them() {
    let refused = [
        "contract\n", "contract 4\n", "contract 3 0\n", "remove 2\n", "remove 3\n", "contract 3\n", "sweep\n",
        "unfold 3\n", "write 96\n",
    ];
    for line in refused {
        keeps_k7(line);
    }
    keeps(&format!("{BASE}undo\n"), &[T], &[0], &[]);
    for lend in ["lend 7 4 32\n", "lend 8 3 32\n", "lend 8 4 31\n"] {
        for call in ["contract 3\n", "sweep\n", "undo\n", "unfold 0\n", "counts\n", "write 97\n"] {
            keeps_k7(&format!("{lend}{call}"));
        }
    }
}

#[test]
fn a_refused_start_read_or_plan_hands_back_zeros_and_drops_them() {
    for lines in ["start 8\n", "start 7\n", "read 0\n\n", "lend 7 4 32\nstart 8\n"] {
        drops(lines);
    }
    for lines in ["flat 1 1 4\n", "flatareas 129 2 4\n", "flat 2 2 3\n", "plan 0 1 2\nflatareas 2 1 2\n"] {
        drops(lines);
    }
    drops(&format!("lend 7 4 32\nread {}\n{K12}\n", K12.len()));
}

#[test]
fn numbers_put_in_by_hand_drop_them() {
    for lines in
        ["table 0 5\n", "table 7 7\n", "table 7 0 0 0\n", "history 0 1\n", "history 2 0\n", "history 1 5 10 0\n"]
    {
        drops(lines);
    }
    for state in ["state 8 3 2 2 3\n", "state 8 2 1 2\n", "state 0 0 0\n", "stored 2 1\n", "stored 1 2\n"] {
        drops(state);
    }
}

#[test]
fn numbers_that_no_call_looks_at_keep_them() {
    for lines in ["table 8 1 2 3\n", "history 3 9 9\n", "work 0 1 2 3\n", "fill 9\n", "lend 20 20 80\n", "lend 0 0 0\n"]
    {
        keeps_k7(lines);
    }
    keeps_k7("table 0\nhistory 0\nwork 0\ntable 4294967295\n");
    keeps_k7("plan 0 1 2 3\n");
    keeps_k7("ends 0 3 3 4 0\n");
    // Past the count, though a level that is undone had it.
    keeps(&format!("{K7}undo\nhistory 2 9\n"), &[T, ONE], &[0, 2], &[1, 5]);
    keeps(&format!("{BASE}history 0 9\n"), &[T], &[0], &[]);
}

#[test]
fn the_next_call_derives_them_from_the_numbers() {
    let by_hand = "state 8 3 2 2 3\nstored 2 1\ntable 0 5 2 5 4 6 4 6 7\nhistory 0 1 5 10\n";
    assert_eq!(kept(&format!("lend 8 4 32\n{by_hand}")), None);
    for call in ["counts\n", "write 97\n", "write 0\n", "contract\n", "unfold 9\n"] {
        keeps(&format!("lend 8 4 32\n{by_hand}{call}"), &[T, ONE, TWO], &[0, 2, 3], &[1, 5, 10]);
    }
    keeps(&format!("lend 8 4 32\n{by_hand}undo\n"), &[T, ONE], &[0, 2], &[1, 5]);
    // Cut into other levels the same numbers are another pyramid.
    let three_levels = "state 8 3 3 1 2 3\nstored 2 1\n";
    keeps(&format!("{K7}{three_levels}unfold 2\n"), &[T, [5, 2, 5, 4, 6, 2, 3, 7], ONE], &[0, 1, 2], &[1, 5]);
    // Numbers that were stored wrong and then right.
    keeps_k7("stored 1 2\ncounts\nstored 2 1\ncounts\n");
}

#[test]
fn numbers_that_are_no_pyramid_are_not_kept() {
    for lines in ["state 8 3 2 2 3\ncounts\n", "stored 3 1\nundo\n", "stored 2 0\nwrite 97\n", "stored 1 2\nsweep\n"] {
        drops(lines);
    }
    for lines in
        ["table 0 4\ncounts\n", "history 2 11\nundo\n", "state 8 3 1 2\nstored 2 1\nunfold 0\n", "state 7 0 0\nundo\n"]
    {
        drops(lines);
    }
}
