//! Group `lookups`: the successor of every dart at every level of small and of deep pyramids, and of some darts of larger
//! ones; tables and ends that come from no pyramid; every refusal
//!
//! What the comparison prints for a dart was taken from the second program's stored level, so that the lookup is compared
//! with unfolding.

use crate::bases;
use crate::chance::Chance;
use crate::deep;
use crate::ended::{ends_of, Wrong, WRONG_ENDS, WRONG_TABLES};
use crate::input::Input;
use crate::kernels;
use crate::large;
use crate::scene::{enough, needed, Scene};
use crate::script::Script;
use crate::small;
use second::operation::Kind;
use second::pyramid::Pyramid;
use second::state::{MOST_DARTS, MOST_LEVELS};

/// The group's seeds start here.
const SEEDS: u64 = 9 << 32;

/// No case of a script with many begins after this.
const LENGTH: usize = 300_000;

/// What a script holds.
type Sort = fn(&mut Script, &mut Chance);

const SORTS: [Sort; 8] = [every_dart, every_dart, every_dart, lives, sixty_four_levels, middling, largest, few_left];

pub fn input(script: usize) -> Input {
    let mut chance = Chance::new(SEEDS + script as u64);
    let sort = SORTS[script % SORTS.len()];
    let mut script = Script::default();
    sort(&mut script, &mut chance);
    Input::script(script)
}

/// A pyramid whose base and ends stand in the rooms, and what is lent of these.
struct Asked<'a> {
    script: &'a mut Script,
    pyramid: Pyramid,
    ends: Vec<u32>,
    lent: [u32; 3],
}

impl<'a> Asked<'a> {
    /// Puts base and ends into the rooms, lends what is needed and now and then some more, and leaves rubbish where no lookup
    /// may look.
    fn put(script: &'a mut Script, chance: &mut Chance, pyramid: Pyramid) -> Asked<'a> {
        let darts = 2 * pyramid.map().edges();
        let ends = ends_of(chance, &pyramid);
        let lent = enough(chance, darts);
        script.lend(lent);
        script.put("table", 0, pyramid.levels()[0].map.table());
        script.put("ends", 0, &ends);
        if chance.one_in(3) {
            script.put("table", darts, &chance.rubbish(4));
            script.put("ends", darts / 2, &chance.rubbish(4));
        }
        if chance.one_in(10) {
            script.numbers("fill", &[chance.pick(&[0, 1, 2, 7, u32::MAX])]);
        }
        Asked { script, pyramid, ends, lent }
    }

    fn darts(&self) -> u32 {
        2 * self.pyramid.map().edges()
    }

    fn top(&self) -> u32 {
        self.pyramid.top() as u32
    }

    fn base(&self) -> Vec<u32> {
        self.pyramid.levels()[0].map.table().to_vec()
    }

    fn ask(&mut self, darts: u32, k: u32, dart: u32) {
        self.script.numbers("successor", &[darts, k, dart]);
    }

    /// Every dart at every level, gone ones too.
    fn every_dart(&mut self) {
        for k in 0..=self.top() {
            for dart in 0..self.darts() {
                self.ask(self.darts(), k, dart);
            }
        }
    }

    /// So many darts at each level, most of them such that survive.
    fn some_darts(&mut self, chance: &mut Chance, number: usize) {
        for k in 0..=self.top() {
            let survivors: Vec<u32> = self.pyramid.levels()[k as usize].map.survivors().collect();
            for _ in 0..number {
                let dart = if chance.one_in(8) { chance.below(self.darts()) } else { chance.pick(&survivors) };
                self.ask(self.darts(), k, dart);
            }
        }
    }

    /// Any numbers: a level above the top and a dart of D or more come often, and together.
    fn any(&mut self, chance: &mut Chance) {
        let (darts, top) = (self.darts(), self.top());
        let far = [darts - 1, darts + 1, darts.saturating_sub(2), darts + 2, 0, MOST_DARTS, MOST_DARTS + 2, u32::MAX];
        let stated = if chance.one_in(10) { chance.pick(&far) } else { darts };
        let k =
            if chance.one_in(4) { chance.pick(&[top + 1, top + 2, 64, 65, u32::MAX]) } else { chance.below(top + 1) };
        let far = [darts, darts + 1, 2 * darts, MOST_DARTS, u32::MAX];
        let dart = if chance.one_in(4) { chance.pick(&far) } else { chance.below(darts) };
        self.rubbish(chance);
        self.ask(stated, k, dart);
    }

    /// Now and then numbers in the work area, or where no lookup may look.
    fn rubbish(&mut self, chance: &mut Chance) {
        if chance.one_in(4) {
            let length = chance.between(1, 12);
            self.script.put("work", chance.below(4 * self.darts()), &chance.rubbish(length));
        }
    }

    /// Something lent one too short.
    fn one_short(&mut self, chance: &mut Chance) {
        let mut lent = needed(self.darts());
        lent[chance.place(3)] -= 1;
        self.script.lend(lent);
        self.any(chance);
        self.script.lend(self.lent);
    }

    /// The ends with one thing wrong, asked about, and put back.
    fn wrong_ends(&mut self, chance: &mut Chance, times: usize) {
        let right = self.ends.clone();
        let wrong = chance.weighed(&WRONG_ENDS);
        self.wrong("ends", &right, wrong, chance, times);
    }

    /// The same with the table.
    fn wrong_table(&mut self, chance: &mut Chance, times: usize) {
        let right = self.base();
        let wrong = chance.weighed(&WRONG_TABLES);
        self.wrong("table", &right, wrong, chance, times);
    }

    fn wrong(&mut self, room: &str, right: &[u32], wrong: Wrong, chance: &mut Chance, times: usize) {
        let mut changed = right.to_vec();
        wrong(chance, &self.pyramid, &mut changed);
        put_changes(self.script, room, right, &changed);
        for _ in 0..times {
            self.any(chance);
        }
        put_changes(self.script, room, &changed, right);
    }

    /// One of the above.
    fn refused(&mut self, chance: &mut Chance, times: usize) {
        match chance.below(10) {
            0 => self.one_short(chance),
            1 => self.any(chance),
            2 | 3 => self.wrong_table(chance, times),
            _ => self.wrong_ends(chance, times),
        }
    }
}

/// Makes of the numbers that stand in a room others: number by number where few differ.
fn put_changes(script: &mut Script, room: &str, from: &[u32], to: &[u32]) {
    let differ: Vec<usize> = (0..to.len()).filter(|&place| from[place] != to[place]).collect();
    if differ.len() > 4 {
        script.put(room, 0, to);
        return;
    }
    for place in differ {
        script.put(room, place as u32, &[to[place]]);
    }
}

/// Levels over a base, as many as come about in so many tries: kernels of either kind, of few edges or of many, and sweeps.
fn climbed(chance: &mut Chance, base: &[u32], tries: u32, most: usize) -> Pyramid {
    let mut pyramid = Pyramid::start(base).expect("a base is a permutation");
    for _ in 0..tries {
        if chance.one_in(5) {
            pyramid.sweep().ok();
            continue;
        }
        let kind = chance.kind();
        let kernel = kernels::fine(chance, pyramid.map(), kind, most);
        pyramid.reduce(kind, &kernel).ok();
    }
    pyramid
}

/// Small pyramids, each asked about every dart at every level, and then about much that is refused.
fn every_dart(script: &mut Script, chance: &mut Chance) {
    while script.length() < LENGTH {
        let base = bases::small(chance);
        let (tries, most) = (chance.below(9), chance.pick(&[1, 2, 4, 40]));
        let pyramid = climbed(chance, &base, tries, most);
        let mut asked = Asked::put(script, chance, pyramid);
        asked.every_dart();
        for _ in 0..6 {
            asked.refused(chance, 2);
        }
        asked.any(chance);
    }
}

/// Maps' lives with lookups in between, for which the table is put back to the base: "The script's state stays."
fn lives(script: &mut Script, chance: &mut Chance) {
    while script.length() < LENGTH {
        let base = bases::small(chance);
        let mut scene = Scene::start(script, chance, &base);
        for _ in 0..chance.between(4, 6 + scene.darts()) {
            let step = chance.weighed(&small::STEPS);
            step(&mut scene, chance);
            if chance.one_in(4) {
                looked_up(&mut scene, chance);
            }
        }
    }
}

fn looked_up(scene: &mut Scene, chance: &mut Chance) {
    let pyramid = scene.pyramid.clone();
    let mut asked = Asked::put(scene.script, chance, pyramid);
    asked.some_darts(chance, 2);
    for _ in 0..4 {
        asked.any(chance);
    }
    scene.lend_again();
    if chance.one_in(2) {
        scene.script.word("counts");
    }
    let table = scene.pyramid.map().table();
    scene.script.put("table", 0, table);
    scene.script.word("counts");
}

/// One edge to a level up to level 64, or nearly: every dart at every level, and a level more.
fn sixty_four_levels(script: &mut Script, chance: &mut Chance) {
    let base = deep::base(chance);
    let levels = MOST_LEVELS - chance.pick(&[0, 0, 1]);
    let mut pyramid = Pyramid::start(&base).expect("a base is a permutation");
    while pyramid.top() < levels {
        let kind = chance.kind();
        let kernel = kernels::fine(chance, pyramid.map(), kind, 1);
        pyramid.reduce(kind, &kernel).ok();
    }
    let mut asked = Asked::put(script, chance, pyramid);
    asked.every_dart();
    for _ in 0..60 {
        asked.refused(chance, 2);
    }
}

/// Maps of 256 to 4,094 darts, or a few less.
fn middling(script: &mut Script, chance: &mut Chance) {
    for _ in 0..20 {
        let darts = 2 * chance.between(128, 2_047);
        let (sort, proposals) = chance.pick(&large::SORTS);
        let base = sort(chance, darts);
        let (tries, most) = (chance.below(7), chance.pick(&[3, 60, proposals]));
        let pyramid = climbed(chance, &base, tries, most);
        let mut asked = Asked::put(script, chance, pyramid);
        asked.some_darts(chance, 12);
        for _ in 0..6 {
            asked.refused(chance, 1);
        }
    }
}

/// One map of all the darts there can be.
fn largest(script: &mut Script, chance: &mut Chance) {
    let (sort, proposals) = chance.pick(&large::SORTS);
    let base = sort(chance, MOST_DARTS);
    let mut pyramid = Pyramid::start(&base).expect("a base is a permutation");
    for _ in 0..3 {
        let kind = chance.kind();
        let kernel = large::fine(chance, pyramid.map(), kind, proposals);
        pyramid.reduce(kind, &kernel).ok();
        pyramid.sweep().ok();
    }
    asked_largest(script, chance, pyramid);
}

/// The same, contracted and removed until hardly a dart is left: the longest walks.
fn few_left(script: &mut Script, chance: &mut Chance) {
    let sort = chance.pick(&[large::plan, large::long_chain, large::loops_in_loops]);
    let base = sort(chance, MOST_DARTS);
    let mut pyramid = Pyramid::start(&base).expect("a base is a permutation");
    let mut kinds = [Kind::Contract, Kind::Remove];
    chance.shuffle(&mut kinds);
    for kind in kinds {
        let kernel = kernels::fine(chance, pyramid.map(), kind, usize::MAX);
        pyramid.reduce(kind, &kernel).ok();
    }
    asked_largest(script, chance, pyramid);
}

/// Some darts at each level, and a refusal of each sort.
fn asked_largest(script: &mut Script, chance: &mut Chance, pyramid: Pyramid) {
    script.numbers("fill", &[chance.below(9)]);
    let mut asked = Asked::put(script, chance, pyramid);
    asked.some_darts(chance, 4);
    for _ in 0..3 {
        asked.any(chance);
    }
    asked.one_short(chance);
    asked.wrong_table(chance, 1);
    asked.wrong_ends(chance, 1);
    asked.wrong_ends(chance, 1);
}
