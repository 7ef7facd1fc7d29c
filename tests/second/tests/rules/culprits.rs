//! "When a table is no permutation": answer 3 from the start, with the later dart and the second culprit; answer 4 from
//! every other call, with neither.

use crate::every_small::lists;
use crate::support::lot::{state, Call, Lot, ON_A_STATE};
use crate::support::maps::{k7, star, triangle};
use second::levels::report;
use second::operation::Kind::{Contract, Remove};
use second::zones::run;

/// A table, "lowest dart whose successor is D or more, or repeats a lower dart's", and the second place.
type Row = (&'static [u32], usize, usize);

const ROWS: [Row; 16] = [
    // "which lower dart already has that successor"
    (&[1, 1], 1, 0),
    (&[0, 0], 1, 0),
    (&[0, 1, 2, 0], 3, 0),
    (&[0, 1, 2, 2], 3, 2),
    // "D where the value was out of range"
    (&[0, 2], 1, 2),
    (&[2, 0], 0, 2),
    (&[3, 2, 1, 4], 3, 4),
    (&[3, 2, 1, 5], 3, 4),
    (&[3, 2, 1, u32::MAX], 3, 4),
    (&[9, 9], 0, 2),
    // Both faults: the lowest dart decides.
    (&[2, 0, 0, 9], 2, 1),
    (&[2, 9, 2, 0], 1, 4),
    (&[0, 0, 4, 4], 1, 0),
    (&[3, 2, 4, 3], 2, 4),
    // Three darts with one successor, of which the two lowest are told.
    (&[3, 1, 3, 3], 2, 0),
    (&[0, 3, 3, 3], 2, 1),
];

/// Every list of so many numbers below the bound that is no permutation.
fn no_permutations(darts: usize, bound: u32) -> impl Iterator<Item = Vec<u32>> {
    let sorted = |table: &Vec<u32>| {
        let mut table = table.clone();
        table.sort_unstable();
        table
    };
    lists(darts, bound).into_iter().filter(move |table| sorted(table) != (0..darts as u32).collect::<Vec<_>>())
}

/// A base's file, pair by pair, whatever the table holds.
fn file_of(table: &[u32]) -> String {
    let pairs: String = table.chunks(2).map(|pair| format!("pair={} {}\n", pair[0], pair[1])).collect();
    format!("numbers=0\ndarts={}\nlevels=0\n{pairs}", table.len())
}

#[test]
fn answer_3_has_both_culprits() {
    for (table, place, second) in ROWS {
        Lot::new(k7().state, table, &[]).refuse_start(table.len() as u32, place, second);
    }
}

/// The words of documents 01 and 02, dart by dart and lower dart by lower dart.
fn told(table: &[u32]) -> (usize, usize) {
    for dart in 0..table.len() {
        if table[dart] as usize >= table.len() {
            return (dart, table.len());
        }
        for lower in 0..dart {
            if table[lower] == table[dart] {
                return (dart, lower);
            }
        }
    }
    unreachable!("the table is no permutation")
}

#[test]
fn every_small_table() {
    for (darts, bound) in [(2, 5), (4, 7), (6, 7)] {
        for table in no_permutations(darts, bound) {
            let (place, second) = told(&table);
            Lot::new(k7().state, &table, &[]).refuse_start(darts as u32, place, second);
        }
    }
}

#[test]
fn the_largest_table() {
    let darts = 65_536;
    let mut lot = Lot::new(k7().state, &(0..darts).collect::<Vec<_>>(), &[]);
    for (dart, successor, second) in
        [(1, 0, 0), (65_535, 0, 0), (65_535, 65_534, 65_534), (40_000, 123, 123), (0, 65_536, 65_536)]
    {
        lot.table[dart] = successor;
        lot.refuse_start(darts, dart, second);
        lot.table[dart] = dart as u32;
    }
    for successor in [65_536, 65_537, 131_072, 1 << 31, u32::MAX] {
        lot.table[65_535] = successor;
        lot.refuse_start(darts, 65_535, 65_536);
    }
}

#[test]
fn numbers_past_d_are_not_looked_at() {
    // T's first darts: the successor of dart 0 is 5, of dart 4 it is 6.
    triangle().refuse_start(4, 0, 4);
    triangle().refuse_start(6, 4, 6);
    // The table is longer than D; its number past D repeats one.
    Lot::new(k7().state, &[1, 0, 3, 3], &[]).accept(&Call::Start(2));
}

#[test]
fn a_table_with_gone_darts_has_its_culprits() {
    // "5 2 5 4 6 4 6 7": gone darts keep old entries, and a start takes them for successors.
    k7().refuse_start(8, 2, 0);
    Lot::built(&star(4), &[(Contract, &[3])]).refuse_start(8, 6, 4);
}

#[test]
fn a_state_with_such_a_table_is_4_and_has_no_second_place() {
    for (table, ..) in ROWS {
        let lot = Lot::new(state(table.len() as u32, 0, &[]), table, &[]);
        for call in ON_A_STATE.into_iter().chain([Call::Reduce(Contract, &[]), Call::Reduce(Remove, &[9])]) {
            lot.refuse_as_no_pyramid(&call);
        }
    }
}

#[test]
fn a_file_with_such_a_table_is_4_and_has_no_second_place() {
    for (table, ..) in ROWS.into_iter().filter(|(table, ..)| table.iter().all(|&entry| entry < 100_000)) {
        let file = file_of(table);
        Lot::new(k7().state, table, &[]).refuse(&Call::Read(file.as_bytes()), 4, 0, 4 * table.len());
        assert_eq!(report(file.as_bytes()), "refusal=4 place=0\n");
    }
}

#[test]
fn no_other_answer_of_a_start_has_a_second_place() {
    let lot = Lot::new(k7().state, &[1, 1], &[]);
    lot.refuse(&Call::Start(3), 1, 0, 0);
    lot.refuse(&Call::Start(4), 2, 0, 0);
    Lot::new(k7().state, &[1, 0], &[]).accept(&Call::Start(2));
}

#[test]
fn zones_prints_the_second_place_after_the_place() {
    let file = file_of(&[1, 1]);
    let script = format!(
        "lend 4 2 16\ntable 0 1 1\nstart 2\ntable 0 0 2\nstart 2\ntable 0 2 0 0 9\nstart 4\ntable 0 2 9 2 0\nstart 4\n\
         table 0 3 1 3 3\nstart 4\nstate 4 0 0\ncounts\nwrite 9\nundo\nread {}\n{file}\ntable 0 1 0 3 2\nstart 4\nundo\n",
        file.len()
    );
    let printed = String::from_utf8(run(script.as_bytes())).expect("plain letters");
    let heads: Vec<&str> = printed.lines().filter_map(|line| Some(line.split_once(" state=")?.0)).collect();
    let expected = [
        "answer=3 place=1 second=0", "answer=3 place=1 second=2", "answer=3 place=2 second=1",
        "answer=3 place=1 second=4", "answer=3 place=2 second=0", "answer=4 place=0 second=0",
        "answer=4 place=0 second=0", "answer=4 place=0 second=0", "answer=4 place=0 second=0",
        "answer=0 place=0 second=0", "answer=12 place=0 second=0",
    ];
    assert_eq!(heads, expected);
}
