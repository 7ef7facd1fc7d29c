//! Group `plans`: the calls on a plan, and every other call on what they hand back

use crate::chance::Chance;
use crate::codes::{self, Cells};
use crate::input::Input;
use crate::kernels;
use crate::scene::{needed, Scene};
use crate::script::Script;
use crate::small;
use second::plan::Grid;

/// The group's seeds start here.
const SEEDS: u64 = 6 << 32;

/// Plans in a script of small ones.
const CASES: usize = 400;

/// One script in three has a plan as large as they come.
pub fn input(script: usize) -> Input {
    let mut chance = Chance::new(SEEDS + script as u64);
    let large = script % 3 == 2;
    let mut script = Script::default();
    if large {
        large_plan(&mut script, &mut chance);
    } else {
        for _ in 0..CASES {
            small_plan(&mut script, &mut chance);
        }
    }
    Input::script(script)
}

/// The word of a call on a plan: the base, or the base with its first kernel.
fn word(areas: bool) -> &'static str {
    if areas {
        "flatareas"
    } else {
        "flat"
    }
}

/// Calls that are refused, then one that most often is not, and a life of the map that it builds.
fn small_plan(script: &mut Script, chance: &mut Chance) {
    let plan = codes::small(chance);
    put(script, chance, &plan);
    if chance.one_in(3) {
        refused(script, chance, &plan);
    }
    if chance.one_in(10) {
        script.numbers("fill", &[chance.below(9)]);
    }
    let Some(mut scene) = built(script, chance, &plan) else { return };
    for _ in 0..chance.below(12) {
        let step = chance.weighed(&small::STEPS);
        step(&mut scene, chance);
    }
    if chance.one_in(3) {
        scene.script.word("show");
    }
}

/// The codes, in one line or in two; now and then others after them, which no call may look at.
fn put(script: &mut Script, chance: &mut Chance, plan: &Cells) {
    let mut codes: Vec<u32> = plan.codes.iter().map(|&code| u32::from(code)).collect();
    if chance.one_in(4) {
        codes.extend([1, 2, 3]);
    }
    let cut = chance.place(codes.len());
    match chance.below(3) {
        0 => {
            script.put("plan", cut as u32, &codes[cut..]);
            script.put("plan", 0, &codes[..cut]);
        }
        _ => script.put("plan", 0, &codes),
    }
}

/// How much of the plan's room is lent: what the plan has, or more.
fn length(chance: &mut Chance, plan: &Cells) -> u32 {
    let cells = plan.codes.len() as u32;
    match chance.below(8) {
        0 => 16_384,
        1 => (cells + chance.below(4)).min(16_384),
        _ => cells,
    }
}

/// Builds the plan by one of the two calls; where the first kernel takes no edge, most often by the other one then.
fn built<'a>(script: &'a mut Script, chance: &mut Chance, plan: &Cells) -> Option<Scene<'a>> {
    let areas = !chance.one_in(3);
    let length = length(chance, plan);
    let Grid { wales, courses } = plan.grid;
    let darts = plan.grid.darts();
    let lent = needed(darts).map(|length| length + chance.pick(&[0, 0, 1, 4]));
    script.lend(lent);
    script.numbers(word(areas), &[wales, courses, length]);
    let pyramid = match plan.pyramid(areas) {
        Some(pyramid) => pyramid,
        None => {
            // A call on the state of zeros.
            if chance.one_in(4) {
                script.word("counts");
            }
            script.numbers("flat", &[wales, courses, length]);
            plan.pyramid(false)?
        }
    };
    Some(Scene::held(script, pyramid, lent))
}

/// A size outside the limits, something lent one too short, or both; where the plan has no two equal neighbours, 5 might
/// be the answer, but comes last.
fn refused(script: &mut Script, chance: &mut Chance, plan: &Cells) {
    let mut lent = needed(plan.grid.darts());
    let (mut grid, mut length) = (plan.grid, plan.codes.len() as u32);
    if !chance.one_in(3) {
        grid = codes::bad_size(chance, plan.grid);
    }
    if !chance.one_in(3) {
        match chance.place(4) {
            3 => length = chance.pick(&[0, length - 1]),
            slice => lent[slice] -= 1,
        }
    }
    script.lend(lent);
    script.put("work", 0, &chance.rubbish(8));
    script.numbers(word(chance.one_in(2)), &[grid.wales, grid.courses, length]);
    let after = chance.pick(&["counts", "undo", "sweep", "write 9", "show", "contract 0"]);
    script.word(after);
}

/// A plan with thousands of cells: built both ways, and each call on what they leave.
fn large_plan(script: &mut Script, chance: &mut Chance) {
    let plan = codes::large(chance);
    put(script, chance, &plan);
    script.numbers("fill", &[chance.below(9)]);
    refused(script, chance, &plan);
    let Some(mut scene) = built(script, chance, &plan) else { return };
    scene.script.word("counts");
    scene.sweep();
    scene.script.word("counts");
    scene.undo();
    scene.write_exactly();
    scene.script.word("show");
    let kind = chance.kind();
    let kernel = kernels::fine(chance, scene.pyramid.map(), kind, 2_000);
    scene.reduce(kind, &kernel);
    scene.script.word("counts");
    scene.unfold(0);
    scene.script.word("show");
}
