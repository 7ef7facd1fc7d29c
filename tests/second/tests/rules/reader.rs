//! The file's form: K12 damaged in each way of document 01, with answer and place.

use crate::support::lot::{Call, Lot};
use crate::support::maps::k7;
use crate::worked::{K12, K12_FROM_ONE};

/// The end of K12's line `darts=8`: from here on D is known and the work area is cleared.
const D_KNOWN: usize = 18;

/// Read into room enough for 12 darts, which holds another pyramid.
fn refused(file: &[u8], number: u32, place: usize, zeroed: usize) {
    let mut lot = Lot::new(k7().state, &[1; 12], &[2; 6]);
    lot.output.clear();
    lot.refuse(&Call::Read(file), number, place, zeroed);
}

/// K12 with the first `old` replaced.
fn damaged(old: &str, new: &str) -> String {
    assert!(K12.contains(old));
    K12.replacen(old, new, 1)
}

#[test]
fn a_file_that_ends_early_is_13_at_its_length() {
    for length in 0..K12.len() {
        let zeroed = if length < D_KNOWN { 0 } else { 32 };
        refused(&K12.as_bytes()[..length], 13, length, zeroed);
    }
}

#[test]
fn a_wrong_byte_is_13_at_its_place() {
    for wrong in [b'#', b'\r', b'\t', 0, 255] {
        for place in (0..K12.len()).filter(|&place| place != 8) {
            let mut file = K12.as_bytes().to_vec();
            file[place] = wrong;
            refused(&file, 13, place, if place < D_KNOWN { 0 } else { 32 });
        }
    }
}

#[test]
fn byte_nine_is_14() {
    for wrong in [b'2', b'9', b'#', b'\n', b' ', b'-', 0, 255] {
        let mut file = K12.as_bytes().to_vec();
        file[8] = wrong;
        refused(&file, 14, 8, 0);
        refused(&file[..9], 14, 8, 0);
    }
}

/// The damage, the answer, its place, and how much of the work area is zeroed.
type Row = (&'static str, &'static str, u32, usize, usize);

#[test]
fn numbers_out_of_form() {
    let rows: [Row; 17] = [
        ("numbers=0", "numbers=00", 13, 9, 0),
        ("numbers=0", "numbers=10", 13, 9, 0),
        ("darts=8", "darts=08", 13, 17, 0),
        ("darts=8", "darts=", 13, 16, 0),
        ("darts=8", "darts= 8", 13, 16, 0),
        ("darts=8", "darts=+8", 13, 16, 0),
        ("darts=8", "darts=-8", 13, 16, 0),
        ("darts=8", "darts=8 ", 13, 17, 0),
        ("darts=8", "darts=8\r", 13, 17, 0),
        ("darts=8", "darts=100000", 13, 21, 0),
        ("levels=2", "levels=02", 13, 26, 32),
        ("levels=2", "levels=123456", 13, 30, 32),
        ("contract 2", "contract 02", 13, 44, 32),
        ("contract 2", "contract  2", 13, 43, 32),
        ("pair=4 2", "pair=04 2", 13, 67, 32),
        ("pair=4 2", "pair=4 00", 13, 69, 32),
        ("pair=4 2", "pair=4 123456", 13, 73, 32),
    ];
    for (old, new, number, place, zeroed) in rows {
        refused(damaged(old, new).as_bytes(), number, place, zeroed);
    }
}

#[test]
fn lines_out_of_form() {
    let rows: [Row; 12] = [
        ("numbers=0\n", "", 13, 0, 0),
        ("numbers=0\n", "\nnumbers=0\n", 13, 0, 0),
        ("darts=8\n", "", 13, 10, 0),
        ("darts=8\n", "darts=8\n\n", 13, 18, 32),
        ("levels=2\n", "", 13, 18, 32),
        ("kernel=contract 2\n", "", 13, 43, 32),
        ("levels=2\n", "levels=1\n", 13, 45, 32),
        ("levels=2\n", "levels=3\n", 13, 61, 32),
        ("kernel=contract", "kernel=merge", 13, 34, 32),
        ("kernel=contract", "kernel=cut", 13, 35, 32),
        ("kernel=remove", "kernel=reduce", 13, 54, 32),
        ("pair=4 5\n", "", 13, 88, 32),
    ];
    for (old, new, number, place, zeroed) in rows {
        refused(damaged(old, new).as_bytes(), number, place, zeroed);
    }
}

#[test]
fn nothing_follows_the_last_line() {
    for more in ["\n", " ", "0", "pair=0 1\n", "x"] {
        refused(format!("{K12}{more}").as_bytes(), 13, K12.len(), 32);
    }
    // Also where it would be no pyramid: "the first fault decides".
    refused(format!("{}\n", damaged("pair=4 2", "pair=0 0")).as_bytes(), 13, K12.len(), 32);
}

#[test]
fn values_are_judged_when_their_line_has_ended() {
    let rows: [Row; 14] = [
        ("darts=8", "darts=0", 1, 0, 0),
        ("darts=8", "darts=7", 1, 0, 0),
        ("darts=8", "darts=65538", 1, 0, 0),
        ("darts=8\nlevels", "darts=99999\n#", 1, 0, 0),
        ("darts=8", "darts=14", 2, 0, 0),
        ("darts=8\nlevels", "darts=65536\n#", 2, 0, 0),
        ("levels=2", "levels=65", 6, 0, 32),
        ("levels=2\nkernel", "levels=99999\n#", 6, 0, 32),
        ("contract 2", "contract 0", 5, 0, 32),
        ("contract 2\nkernel", "contract 0\n#", 5, 0, 32),
        ("remove 1", "remove 0", 5, 0, 32),
        ("contract 2\nkernel=remove 1", "contract 2#\nkernel=remove 0", 13, 44, 32),
        ("contract 2\nkernel", "contract 00\nkernel", 13, 44, 32),
        ("levels=2", "levels=65#", 13, 27, 32),
    ];
    for (old, new, number, place, zeroed) in rows {
        refused(damaged(old, new).as_bytes(), number, place, zeroed);
    }
}

#[test]
fn sixty_four_levels_may_be_stated() {
    // One operation each is too many for 8 darts, which shows after the last byte only.
    let kernels = "kernel=contract 1\n".repeat(64);
    let file = format!("numbers=0\ndarts=8\nlevels=64\n{kernels}pair=0 1\npair=2 3\npair=4 5\npair=6 7\n");
    refused(file.as_bytes(), 4, 0, 32);
}

#[test]
fn what_a_file_holds_may_be_no_pyramid() {
    let rows: [Row; 11] = [
        ("pair=4 2", "pair=8 2", 4, 0, 32),
        ("pair=4 2", "pair=99999 2", 4, 0, 32),
        ("pair=6 7", "pair=6 8", 4, 0, 32),
        ("pair=6 7", "pair=6 6", 4, 0, 32),
        ("pair=6 7", "pair=5 7", 4, 0, 32),
        ("pair=4 2", "pair=1 2", 4, 0, 32),
        ("contract 2", "contract 3", 4, 0, 32),
        ("contract 2", "contract 99999", 4, 0, 32),
        ("contract 2", "remove 2", 4, 0, 32),
        ("remove 1", "remove 2", 4, 0, 32),
        ("remove 1", "contract 1", 4, 0, 32),
    ];
    for (old, new, number, place, zeroed) in rows {
        refused(damaged(old, new).as_bytes(), number, place, zeroed);
    }
}

#[test]
fn the_flag_applies_to_the_pairs_only() {
    for (old, new) in [("pair=5 3", "pair=0 3"), ("pair=7 8", "pair=7 9")] {
        refused(K12_FROM_ONE.replacen(old, new, 1).as_bytes(), 4, 0, 32);
    }
    refused(K12_FROM_ONE.replacen("darts=8", "darts=9", 1).as_bytes(), 1, 0, 0);
    refused(K12_FROM_ONE.replacen("contract 2", "contract 0", 1).as_bytes(), 5, 0, 32);
}

#[test]
fn an_empty_file_is_13_at_0() {
    refused(b"", 13, 0, 0);
}
