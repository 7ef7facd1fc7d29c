//! Group `small`: maps of 2 to 40 darts, every call, accepted and refused, on pyramids of several levels
//!
//! A script holds many cases one after another; what a case leaves in the rooms is there when the next one begins.

use crate::bases;
use crate::chance::Chance;
use crate::damage::damaged;
use crate::input::Input;
use crate::scene::{needed, Scene};
use crate::script::Script;
use crate::steps::*;
use crate::twice::twice;
use second::state::MOST_DARTS;

/// The group's seeds start here.
const SEEDS: u64 = 1 << 32;

/// No case begins after this: none is longer than what is left then.
const LENGTH: usize = 1_800_000;

pub fn input(script: usize) -> Input {
    let mut chance = Chance::new(SEEDS + script as u64);
    let mut script = Script::default();
    while script.length() < LENGTH {
        case(&mut script, &mut chance);
    }
    Input::script(script)
}

/// What a map's life has, and how often.
pub const STEPS: [(u32, Step); 17] = [
    (500, fine_kernel),
    (250, failing_kernel),
    (60, any_kernel),
    (20, empty_kernel),
    (10, every_edge),
    (1, very_long_kernel),
    (30, start_again),
    (100, sweep),
    (100, undo),
    (80, unfold),
    (80, counts),
    (80, write),
    (60, one_short),
    (150, damaged),
    (100, rubbish),
    (4, rubbish_everywhere),
    (40, read_back),
];

/// One map's life.
fn case(script: &mut Script, chance: &mut Chance) {
    let base = bases::small(chance);
    if chance.one_in(20) {
        twice(script, chance, &base);
    }
    if chance.one_in(4) {
        refused_start(script, chance, &base);
    }
    let mut scene = Scene::start(script, chance, &base);
    // More for a map on which more can happen.
    for _ in 0..chance.between(4, 6 + scene.darts()) {
        let step = chance.weighed(&STEPS);
        step(&mut scene, chance);
        if chance.one_in(10) {
            scene.script.word("show");
        }
    }
}

/// A start that is most often refused, and a call on what it hands back.
fn refused_start(script: &mut Script, chance: &mut Chance, base: &[u32]) {
    let darts = base.len() as u32;
    let mut table = base.to_vec();
    table[chance.place(base.len())] = chance.pick(&[0, 1, darts - 1, darts, u32::MAX]);
    script.lend(needed(darts));
    script.put("table", 0, &table);
    let stated = chance.pick(&[darts, darts, darts, darts + 1, darts + 2, 0, MOST_DARTS + 2, u32::MAX]);
    script.numbers("start", &[stated]);
    let call = chance.pick(&["contract 0", "remove", "sweep", "undo", "unfold 0", "counts", "write 9"]);
    script.word(call);
}
