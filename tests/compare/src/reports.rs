//! Group `reports`: files for the program `levels`, each a run of its own

use crate::bases::{self, Added};
use crate::chance::Chance;
use crate::files;
use crate::input::{Input, Program};
use crate::spoil::spoiled;
use second::file_write::bytes_of;

/// The group's seeds start here.
const SEEDS: u64 = 4 << 32;

pub fn input(file: usize) -> Input {
    let mut chance = Chance::new(SEEDS + file as u64);
    // The large ones come last, so that a fault that shows on any file is found on a small one.
    let mut bytes = match file % 1_000 {
        900.. => large(&mut chance),
        _ => files::good(&mut chance),
    };
    if !chance.one_in(3) {
        bytes = spoiled(&mut chance, bytes);
    }
    // "Input of any length is read; what follows the last line is 13."
    if chance.one_in(100) {
        bytes.resize(bytes.len() + 300_000, b'\n');
    }
    Input::text(Program::Levels, &bytes)
}

/// Up to 4,096 darts, "with tables for 4,096 darts", and now and then a few more.
fn large(chance: &mut Chance) -> Vec<u8> {
    let darts = match chance.below(4) {
        0 => chance.pick(&[4_096, 4_098]),
        _ => 2 * chance.between(20, 2_048),
    };
    let ways = [(3, Added::Pending), (1, Added::EmptyLoop), (3, Added::AcrossFace), (1, Added::NewPiece)];
    let base = bases::grown(chance, darts, &ways);
    let (kernels, most) = (chance.below(70), chance.between(1, darts / 20));
    let file = bytes_of(&files::pyramid(chance, &base, kernels, most));
    files::under_any_flag(chance, file)
}
