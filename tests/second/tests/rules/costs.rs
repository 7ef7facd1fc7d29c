//! The line `costs`: a zone's place, stitches and metres, whatever the script holds; and that it changes nothing.

use crate::support::chance::{on_random_pyramids, Chance};
use second::costs::lines;
use second::lent::Lent;
use second::merges::present;
use second::record::Record;
use second::sheets::LentSheets;
use second::state::State;
use second::zones::run;
use std::fmt::Write;

fn printed(script: &str) -> String {
    String::from_utf8(run(script.as_bytes())).expect("plain letters")
}

/// What stands in the lines of `costs` after this key.
fn told<'a>(printed: &'a str, key: &str) -> Vec<&'a str> {
    let after = |line: &'a str| line.split(' ').find_map(|field| field.strip_prefix(key));
    printed.lines().filter(|line| line.starts_with("zone=")).filter_map(after).collect()
}

/// Numbers as the words of a line.
fn words(numbers: &[u32]) -> String {
    numbers.iter().fold(String::new(), |mut line, number| {
        write!(line, " {number}").expect("a text");
        line
    })
}

const T_COSTED: &str =
    "lend 8 4 32\nsheets 8 4\ntable 0 5 2 1 4 6 0 3 7\nsheet 0 1:4602678819172646912 2:4602678819172646912\n\
    sheet 3 3:-\nsheet 7 4:4602678819172646912\nyarnstart 8\n";

#[test]
fn t_s_zones_merge_and_come_back() {
    let base = "zone=0 stitches=1 metres=0.500\nzone=1 stitches=2 metres=0.500\nzone=3 stitches=3 metres=-\nzone=7 stitches=4 metres=0.500\n";
    let first = "zone=0 stitches=3 metres=1.000\nzone=3 stitches=3 metres=-\nzone=7 stitches=4 metres=0.500\n";
    let second = "zone=0 stitches=6 metres=-\nzone=7 stitches=4 metres=0.500\n";
    let script = format!(
        "{T_COSTED}costs\nyarncontract 0\ncosts\nyarncontract 1\ncosts\nyarnremove 2\ncosts\nyarnunfold 0\ncosts\n"
    );
    let lines: String =
        printed(&script).lines().filter(|line| line.starts_with("zone=")).map(|line| format!("{line}\n")).collect();
    assert_eq!(lines, [base, first, second, second, base].concat());
}

#[test]
fn nothing_changes() {
    for calls in ["", "yarncontract 0 1\n", "yarncontract 0 1\nyarnremove 2\nfill 7\n"] {
        let script = format!("{T_COSTED}{calls}");
        let without = printed(&format!("{script}show\nyarnundo\n"));
        let with = printed(&format!("{script}costs\nshow\nyarnundo\n"));
        let rest: String =
            with.lines().filter(|line| !line.starts_with("zone=")).map(|line| format!("{line}\n")).collect();
        assert_eq!(rest, without);
    }
}

#[test]
fn nothing_is_printed_where_too_little_is_lent() {
    let contracted = format!("{T_COSTED}yarncontract 0 1\n");
    let before = printed(&contracted);
    for lent in ["lend 7 4 32\n", "lend 8 1 32\n", "sheets 7 4\n"] {
        assert_eq!(printed(&format!("{contracted}{lent}costs\n")), before, "{lent}");
    }
    for lent in ["lend 8 2 0\n", "sheets 8 0\n"] {
        assert_eq!(told(&printed(&format!("{contracted}{lent}costs\n")), "zone="), ["0", "7"], "{lent}");
    }
    assert_eq!(printed("costs\n"), "");
}

/// A float's decimal in full, cut off after three places. Rust prints every digit that is asked for, and 1,100 are enough.
fn cut_off(metres: f64) -> String {
    let full = format!("{:.1100}", metres.abs());
    let point = full.find('.').expect("a point");
    full[..point + 4].to_string()
}

/// Each record alone in its zone: a dart whose entry is itself.
fn metres_of(all: &[f64]) -> Vec<String> {
    let darts = all.len() as u32;
    let own: Vec<u32> = (0..darts).collect();
    let records: String = all.iter().map(|metres| format!(" 7:{}", metres.to_bits())).collect();
    let script = format!(
        "lend {darts} 0 0\nsheets {darts} 0\nstate {darts} 0 0\ntable 0{}\nsheet 0{records}\ncosts\n",
        words(&own)
    );
    told(&printed(&script), "metres=").into_iter().map(str::to_string).collect()
}

#[test]
fn metres_are_cut_off() {
    let all = [0.123_456_7, 12.0, 0.0, -0.0, 0.000_999_999, 0.001, 0.999_999_999, 1e12, 5e-324, 999_999_999_999.999_9];
    let told = ["0.123", "12.000", "0.000", "0.000", "0.000", "0.001", "0.999", "1000000000000.000", "0.000"];
    assert_eq!(metres_of(&all)[..told.len()], told);
    assert_eq!(metres_of(&all), all.map(cut_off));
    let above = f64::from_bits(1e12_f64.to_bits() + 1);
    let none = [above, f64::MAX, f64::INFINITY, f64::NEG_INFINITY, f64::NAN, -f64::NAN, -5e-324, -1.0];
    assert!(metres_of(&none).iter().all(|metres| metres == "?"));
}

#[test]
fn any_metres_are_cut_off() {
    let mut chance = Chance::new(7);
    for _ in 0..40 {
        let any = |_| f64::from_bits(chance.next());
        let near = |metres: f64| match metres.abs() {
            huge if huge > 1e12 => huge % 1e12,
            small => small,
        };
        let all: Vec<f64> = (0..200).map(any).filter(|metres| metres.is_finite()).map(near).collect();
        let thousandths: Vec<f64> = all.iter().map(|metres| (metres % 1e7).round() / 1e3).collect();
        for all in [all, thousandths] {
            assert_eq!(metres_of(&all), all.iter().map(|&metres| cut_off(metres)).collect::<Vec<_>>());
        }
    }
}

/// The places that `costs` prints of a state, its table and its history.
fn places_of(state: &State, table: &[u32], history: &[u32]) -> Vec<usize> {
    let (mut table, mut history) = (table.to_vec(), history.to_vec());
    let lent = Lent { table: &mut table, history: &mut history, work: &mut [] };
    let mut sheet = vec![Record::default(); state.darts as usize];
    let lines = lines(state, &lent, &LentSheets { sheet: &mut sheet, kept: &mut [] });
    told(&lines, "zone=").iter().map(|place| place.parse().expect("a number")).collect()
}

#[test]
fn zones_of_random_pyramids_are_those_of_their_levels() {
    on_random_pyramids(|pyramid, _| {
        let places = places_of(&pyramid.state(), pyramid.map().table(), pyramid.history());
        assert_eq!(places, present(pyramid).into_iter().collect::<Vec<_>>());
        assert_eq!(places.len(), pyramid.state().vertices as usize);
    });
}

/// Any numbers, with an odd D, no darts in the table and no edges in the history: labels go down until none does.
#[test]
fn rubbish_has_zones_too() {
    for seed in 0..5_000 {
        let mut chance = Chance::new(seed);
        let darts = chance.below(12);
        let mut any = |usual: u32| if chance.below(8) == 0 { chance.next() as u32 } else { chance.below(usual) };
        let table: Vec<u32> = (0..darts).map(|_| any(darts + 2)).collect();
        let history: Vec<u32> = (0..any(5) % 5).map(|_| any(4 * darts + 4)).collect();
        let mut label: Vec<usize> = (0..table.len()).collect();
        let entries = table.iter().enumerate().map(|(dart, &entry)| (dart, entry as usize));
        let ends = history.iter().filter(|&number| number % 2 == 1).map(|&number| {
            let edge = number as usize / 4;
            (2 * edge, 2 * edge + 1)
        });
        let pairs: Vec<_> = entries.chain(ends).filter(|pair| pair.0.max(pair.1) < table.len()).collect();
        for _ in 0..table.len() {
            for &(one, other) in &pairs {
                let low = label[one].min(label[other]);
                (label[one], label[other]) = (low, low);
            }
        }
        let places: Vec<usize> = (0..table.len()).filter(|&dart| label[dart] == dart).collect();
        let state = State { darts, operations: history.len() as u32, levels: any(3), ..State::ZERO };
        assert_eq!(places_of(&state, &table, &history), places, "{table:?} {history:?}");
    }
}
