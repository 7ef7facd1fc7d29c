//! Group `yarn`: the calls with sheets: lives of small, of deep and of large maps, starts with records at their limits and
//! past them, plain calls in between, sheets that no start and no operations give, sheets lent too short

use crate::bases;
use crate::chance::Chance;
use crate::damage::damaged;
use crate::deep;
use crate::input::Input;
use crate::large;
use crate::records;
use crate::scene::{enough, needed, Scene};
use crate::script::Script;
use crate::sheets::{looked_at, needed_sheets, sheets_of, Sheets};
use crate::steps::*;
use second::map::Map;
use second::record::Record;
use second::state::{MOST_DARTS, MOST_LEVELS};

/// The group's seeds start here.
const SEEDS: u64 = 10 << 32;

/// No case of a script with many begins after this.
const LENGTH: usize = 500_000;

/// What a script holds.
type Sort = fn(&mut Script, &mut Chance);

const SORTS: [Sort; 6] = [lives, starts, lives, sixty_four_levels, middling, largest];

pub fn input(script: usize) -> Input {
    let mut chance = Chance::new(SEEDS + script as u64);
    let sort = SORTS[script % SORTS.len()];
    let mut script = Script::default();
    sort(&mut script, &mut chance);
    Input::script(script)
}

/// What a map's life has, and how often.
const STEPS: [(u32, Step); 21] = [
    (500, fine_kernel),
    (200, failing_kernel),
    (60, any_kernel),
    (20, empty_kernel),
    (10, every_edge),
    (30, start_again),
    (100, sweep),
    (150, undo),
    (100, unfold),
    (20, counts),
    (150, costs),
    (20, write),
    (80, one_short),
    (50, damaged),
    (60, rubbish),
    (40, rubbish_on_the_sheets),
    (4, rubbish_everywhere),
    (20, another_start),
    (200, damaged_sheets),
    (60, another_base_s_sheets),
    (60, plain_calls),
];

/// The calls with sheets that are made on what stands there, damaged or not.
const CALLS: [(u32, Step); 8] = [
    (3, fine_kernel),
    (2, failing_kernel),
    (1, empty_kernel),
    (1, sweep),
    (2, undo),
    (2, unfold),
    (1, start_again),
    (2, costs),
];

fn some_calls(scene: &mut Scene, chance: &mut Chance) {
    for _ in 0..chance.between(1, 3) {
        let step = chance.weighed(&CALLS);
        step(scene, chance);
    }
}

/// New sheets for the operations that are done, where nothing gives those that stand there.
fn sheets_again(scene: &mut Scene, chance: &mut Chance) {
    if scene.given() {
        return;
    }
    let first: Vec<Record> = (0..scene.darts()).map(|_| records::fit(chance)).collect();
    if let Some(sheets) = &mut scene.sheets {
        sheets.store(&first, &scene.pyramid);
        sheets.put(scene.script);
    }
}

/// Damaged once, or twice, with some calls; then as they were, where the damage is such that it makes a call 4.
fn damaged_sheets(scene: &mut Scene, chance: &mut Chance) {
    let before = scene.sheets.clone();
    let times = if chance.one_in(4) { 2 } else { 1 };
    for _ in 0..times {
        if let Some(sheets) = &mut scene.sheets {
            sheets.damage(scene.script, chance, &scene.pyramid);
        }
    }
    calls_on_wrong_sheets(scene, chance, before);
}

/// Sheets that a start with a record outside the limits would give, or that another start gives.
fn another_base_s_sheets(scene: &mut Scene, chance: &mut Chance) {
    let before = scene.sheets.clone();
    if let Some(sheets) = &mut scene.sheets {
        sheets.other_base(scene.script, chance, &scene.pyramid);
    }
    calls_on_wrong_sheets(scene, chance, before);
}

fn calls_on_wrong_sheets(scene: &mut Scene, chance: &mut Chance, before: Option<Sheets>) {
    let given = scene.given();
    some_calls(scene, chance);
    if given {
        sheets_again(scene, chance);
        return;
    }
    scene.sheets = before;
    scene.all_again();
    sheets_again(scene, chance);
}

/// Calls without sheets, which leave the sheets behind, then calls with them; then sheets that fit what was done.
fn plain_calls(scene: &mut Scene, chance: &mut Chance) {
    let sheets = scene.sheets.take();
    for _ in 0..chance.between(1, 2) {
        let step = chance.weighed(&[(4, fine_kernel as Step), (1, sweep), (2, undo), (1, unfold), (1, read_back)]);
        step(scene, chance);
    }
    scene.sheets = sheets;
    some_calls(scene, chance);
    sheets_again(scene, chance);
}

/// Any records where no call may look: at places that are no base vertex's, at a removal's, past the count and past D.
fn rubbish_on_the_sheets(scene: &mut Scene, chance: &mut Chance) {
    let (_, others) = looked_at(&scene.pyramid.levels()[0].map);
    let (darts, operations) = (scene.darts() as usize, scene.pyramid.history().len());
    let Some(sheets) = &mut scene.sheets else { return };
    let record = records::other(chance, Record::default());
    match chance.below(3) {
        0 if !others.is_empty() => sheets.set(scene.script, chance.pick(&others), record),
        1 if operations < darts / 2 => {
            let place = darts + operations + chance.place(darts / 2 - operations);
            sheets.set(scene.script, place, record);
        }
        _ => {
            scene.script.records("sheet", darts as u32, &[record; 4]);
            scene.script.records("kept", darts as u32 / 2, &[record; 4]);
        }
    }
}

/// A start of another number of darts, which a refusal or another base may answer; the state is put back.
fn another_start(scene: &mut Scene, chance: &mut Chance) {
    let darts = scene.darts();
    let others = [0, 1, darts - 1, darts + 1, darts + 2, MOST_DARTS + 2, u32::MAX];
    scene.start_refused(chance.pick(&others));
    scene.state_again();
}

/// Maps of 2 to 40 darts.
fn lives(script: &mut Script, chance: &mut Chance) {
    while script.length() < LENGTH {
        let base = bases::small(chance);
        let sheets = sheets_of(chance, base.len() as u32, records::fit);
        let mut scene = Scene::start_with(script, chance, &base, sheets);
        for _ in 0..chance.between(4, 6 + scene.darts()) {
            let step = chance.weighed(&STEPS);
            step(&mut scene, chance);
            if chance.one_in(30) {
                scene.script.word("show");
            }
        }
    }
}

/// Starts from one base after another: records at the limits and past them, at the base's places and elsewhere, with a table
/// that is a permutation or not, and with sheets long enough or not.
fn starts(script: &mut Script, chance: &mut Chance) {
    while script.length() < LENGTH {
        let base = bases::small(chance);
        let darts = base.len() as u32;
        script.lend(enough(chance, darts));
        for _ in 0..8 {
            a_start(script, chance, &base);
        }
        script.lend(needed(darts));
        script.put("table", 0, &base);
        script.numbers("yarnstart", &[chance.pick(&[darts, darts, darts + 1, darts + 2, 0, u32::MAX])]);
        script.word(chance.pick(&["yarncontract 0", "yarnremove", "yarnsweep", "yarnundo", "yarnunfold 0"]));
    }
}

fn a_start(script: &mut Script, chance: &mut Chance, base: &[u32]) {
    let darts = base.len() as u32;
    let mut sheets = sheets_of(chance, darts, records::fit);
    let (places, others) = looked_at(&Map::new(base, vec![true; base.len()]));
    for _ in 0..chance.below(3) {
        sheets.sheet[chance.pick(&places)] = records::unfit(chance);
    }
    for place in others {
        sheets.sheet[place] = if chance.one_in(2) { records::unfit(chance) } else { records::fit(chance) };
    }
    let mut table = base.to_vec();
    if chance.one_in(4) {
        table[chance.place(base.len())] = chance.pick(&[0, 1, darts - 1, darts, u32::MAX]);
    }
    let mut lent = sheets.lent;
    if chance.one_in(6) {
        lent = needed_sheets(darts);
        lent[chance.place(2)] -= 1;
    }
    script.numbers("sheets", &lent);
    script.put("table", 0, &table);
    script.records("sheet", 0, &sheets.sheet);
    if chance.one_in(6) {
        script.numbers("fill", &[chance.pick(&[1, 7, u32::MAX])]);
    }
    script.numbers("yarnstart", &[darts]);
    script.word("costs");
}

/// Straight up to the last level but two, then a while about the limit.
fn sixty_four_levels(script: &mut Script, chance: &mut Chance) {
    for _ in 0..4 {
        let base = deep::base(chance);
        let sheets = sheets_of(chance, base.len() as u32, records::fit);
        let mut scene = Scene::start_with(script, chance, &base, sheets);
        while scene.pyramid.top() < MOST_LEVELS - 2 {
            one_edge(&mut scene, chance);
        }
        for _ in 0..40 {
            let near = [
                (40, one_edge as Step),
                (10, failing_kernel),
                (6, empty_kernel),
                (8, sweep),
                (8, costs),
                (12, undo),
                (6, unfold_a_little),
                (4, one_short),
                (12, damaged_sheets),
                (4, another_base_s_sheets),
                (4, rubbish_on_the_sheets),
            ];
            let step = chance.weighed(&near);
            step(&mut scene, chance);
        }
    }
}

/// Maps of 256 to 4,094 darts, or a few less.
fn middling(script: &mut Script, chance: &mut Chance) {
    for _ in 0..6 {
        let darts = 2 * chance.between(128, 2_047);
        a_large_life(script, chance, darts, records::fit);
    }
}

/// One map of all the darts there can be.
fn largest(script: &mut Script, chance: &mut Chance) {
    a_large_life(script, chance, MOST_DARTS, records::short);
}

/// Two kernels and sweeps over a base, one record changed and put back, undone, unfolded.
fn a_large_life(script: &mut Script, chance: &mut Chance, darts: u32, record: fn(&mut Chance) -> Record) {
    let (sort, proposals) = chance.pick(&large::SORTS);
    let base = sort(chance, darts);
    let sheets = sheets_of(chance, base.len() as u32, record);
    let mut scene = Scene::start_with(script, chance, &base, sheets);
    for _ in 0..2 {
        let kind = chance.kind();
        let kernel = large::fine(chance, scene.pyramid.map(), kind, proposals);
        scene.reduce(kind, &kernel);
        failing_kernel(&mut scene, chance);
        scene.sweep();
    }
    for _ in 0..3 {
        one_record_changed(&mut scene, chance);
    }
    scene.lend_one_short(chance);
    scene.undo_refused();
    scene.lend_again();
    scene.undo();
    scene.unfold(chance.below(scene.top() + 1));
    scene.script.word("counts");
    scene.script.word("costs");
}

/// One record, a call, and the record as it was.
fn one_record_changed(scene: &mut Scene, chance: &mut Chance) {
    let before = scene.sheets.clone();
    if let Some(sheets) = &mut scene.sheets {
        sheets.damage(scene.script, chance, &scene.pyramid);
    }
    let top = scene.top();
    scene.unfold(top);
    if let (Some(sheets), Some(before)) = (&mut scene.sheets, before) {
        sheets.put_back(scene.script, &before);
    }
}
