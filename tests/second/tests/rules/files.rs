//! Random pyramids: what is written is read back.

use crate::support::chance::on_random_pyramids;
use crate::support::lot::{Call, Lot, MARK};
use second::decide::pyramid_of;
use second::file_write::{file_names, file_order};
use second::map::Dart;
use second::operation::kind_of;

#[test]
fn write_then_read_gives_the_same_pyramid_renumbered_at_each_level() {
    on_random_pyramids(|pyramid, _| {
        let mut written = Lot::of(pyramid);
        let length = written.accept(&Call::Write).answer.place;
        let mut read = Lot::of(pyramid);
        read.accept(&Call::Read(&written.output[..length]));
        assert_eq!(read.state, pyramid.state());
        let read = pyramid_of(&read.state, read.entries(), read.numbers()).expect("an accepted read");
        let names = file_names(&file_order(pyramid));
        let renamed = |d: Dart| names[d as usize];
        for (own, file) in pyramid.levels().iter().zip(read.levels()) {
            assert_eq!(own.operations, file.operations);
            for d in 0..names.len() as Dart {
                assert_eq!(file.map.successor(renamed(d)), renamed(own.map.successor(d)));
                assert_eq!(file.map.survives(renamed(d)), own.map.survives(d));
            }
        }
        assert!(read.history().iter().zip(pyramid.history()).all(|(&a, &b)| kind_of(a) == kind_of(b)));
    });
}

#[test]
fn read_then_write_gives_the_same_bytes() {
    on_random_pyramids(|pyramid, _| {
        let mut lot = Lot::of(pyramid);
        let length = lot.accept(&Call::Write).answer.place;
        let file = lot.output[..length].to_vec();
        lot.output.fill(MARK as u8);
        lot.accept(&Call::Read(&file));
        assert_eq!(lot.accept(&Call::Write).answer.place, length);
        assert_eq!(lot.output[..length], file);
    });
}

/// The same file with darts from one.
fn from_one(file: &str) -> String {
    let one_more = |word: &str| (word.parse::<u32>().expect("a number") + 1).to_string();
    let line = |line: &str| match line.strip_prefix("pair=") {
        Some(pair) => format!("pair={}\n", pair.split(' ').map(one_more).collect::<Vec<_>>().join(" ")),
        None => format!("{}\n", line.replace("numbers=0", "numbers=1")),
    };
    file.lines().map(line).collect()
}

#[test]
fn a_file_with_darts_from_one_means_the_same() {
    on_random_pyramids(|pyramid, _| {
        let mut zero = Lot::of(pyramid);
        let length = zero.accept(&Call::Write).answer.place;
        let file = String::from_utf8(zero.output[..length].to_vec()).expect("plain letters");
        let mut one = zero.clone();
        zero.accept(&Call::Read(file.as_bytes()));
        one.accept(&Call::Read(from_one(&file).as_bytes()));
        assert_eq!(zero, one);
    });
}
