//! Group `deep`: maps with edges enough for 63, 64 and 65 levels

use crate::bases::{self, Added};
use crate::chance::Chance;
use crate::damage::damaged;
use crate::input::Input;
use crate::scene::Scene;
use crate::script::Script;
use crate::steps::*;
use second::state::MOST_LEVELS;

/// The group's seeds start here.
const SEEDS: u64 = 2 << 32;

const CASES: usize = 12;

pub fn input(script: usize) -> Input {
    let mut chance = Chance::new(SEEDS + script as u64);
    let mut script = Script::default();
    for _ in 0..CASES {
        case(&mut script, &mut chance);
    }
    Input::script(script)
}

/// Plane maps in one piece: on these there is an edge to take until one is left.
const WAYS: [(u32, Added); 3] = [(2, Added::Pending), (1, Added::EmptyLoop), (4, Added::AcrossFace)];

const STEPS: [(u32, Step); 13] = [
    (40, one_edge),
    (10, failing_kernel),
    (4, empty_kernel),
    (8, sweep),
    (12, undo),
    (6, unfold_a_little),
    (4, counts),
    (4, write),
    (4, read_back),
    (4, read_a_level_more),
    (4, one_short),
    (4, rubbish),
    (8, damaged),
];

/// A map with edges enough for all levels.
pub fn base(chance: &mut Chance) -> Vec<u32> {
    let darts = 2 * chance.between(70, 90);
    bases::grown(chance, darts, &WAYS)
}

/// Straight up to the last level but two, then a while about the limit.
fn case(script: &mut Script, chance: &mut Chance) {
    let base = base(chance);
    let mut scene = Scene::start(script, chance, &base);
    while scene.pyramid.top() < MOST_LEVELS - 2 {
        one_edge(&mut scene, chance);
    }
    for _ in 0..60 {
        let step = chance.weighed(&STEPS);
        step(&mut scene, chance);
        if chance.one_in(20) {
            scene.script.word("show");
        }
    }
}
