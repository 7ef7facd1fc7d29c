//! Files for the reader
//!
//! good     == the file of a pyramid
//! from_one == the same file with darts counted from one
//! held     == the pyramid that a file holds, if it holds one

use crate::bases;
use crate::chance::Chance;
use crate::kernels;
use second::calls::read_pyramid;
use second::file_write::bytes_of;
use second::lent::Lent;
use second::pyramid::Pyramid;
use second::state::MOST_LEVELS;

/// A pyramid over a base: so many kernels are tried, each of at most so many edges.
pub fn pyramid(chance: &mut Chance, base: &[u32], kernels: u32, most: u32) -> Pyramid {
    let mut pyramid = Pyramid::start(base).expect("a base is a permutation");
    for _ in 0..kernels {
        let kind = chance.kind();
        let kernel = kernels::fine(chance, pyramid.map(), kind, most as usize);
        if !kernel.is_empty() && pyramid.top() < MOST_LEVELS {
            pyramid.reduce(kind, &kernel).expect("each edge was judged");
        }
    }
    pyramid
}

/// A good file of 2 to 40 darts, under one flag or the other.
pub fn good(chance: &mut Chance) -> Vec<u8> {
    let base = bases::small(chance);
    let (kernels, most) = (chance.below(8), chance.between(1, 4));
    let file = bytes_of(&pyramid(chance, &base, kernels, most));
    under_any_flag(chance, file)
}

/// A file of the writer, half the time with darts counted from one.
pub fn under_any_flag(chance: &mut Chance, file: Vec<u8>) -> Vec<u8> {
    if chance.one_in(2) {
        from_one(&file)
    } else {
        file
    }
}

/// "F applies to A and B only."
pub fn from_one(file: &[u8]) -> Vec<u8> {
    let text = String::from_utf8_lossy(file).replacen("numbers=0", "numbers=1", 1);
    let one_more = |number: &str| (number.parse::<u32>().expect("a number of the writer") + 1).to_string();
    let line = |line: &str| match line.strip_prefix("pair=") {
        Some(pair) => format!("pair={}\n", pair.split(' ').map(one_more).collect::<Vec<_>>().join(" ")),
        None => format!("{line}\n"),
    };
    text.lines().map(line).collect::<String>().into_bytes()
}

/// The pyramid that a file holds, read with tables for so many darts.
pub fn held(file: &[u8], darts: u32) -> Option<Pyramid> {
    let darts = darts as usize;
    let (mut table, mut history, mut work) = (vec![0; darts], vec![0; darts / 2], vec![0; 4 * darts]);
    let mut lent = Lent { table: &mut table, history: &mut history, work: &mut work };
    read_pyramid(file, &mut lent).ok()
}
