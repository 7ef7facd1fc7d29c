//! Group `starts`: tables of 2 to 65,536 darts that are no permutation
//!
//! A base is put into the table once. Each case changes some of its entries, starts, and puts the entries back: the culprits
//! are beside each other or far apart, and a successor that is out of range is just so, or far so.

use crate::bases;
use crate::chance::Chance;
use crate::input::Input;
use crate::scene::needed;
use crate::script::Script;
use second::state::MOST_DARTS;

/// The group's seeds start here.
const SEEDS: u64 = 8 << 32;

/// A sort of base, how many of them a script has, and how many cases each of these has.
type Sort = (fn(&mut Chance) -> Vec<u32>, usize, usize);

const SORTS: [Sort; 3] = [(bases::small, 600, 8), (middling, 40, 25), (large, 1, 200)];

pub fn input(script: usize) -> Input {
    let mut chance = Chance::new(SEEDS + script as u64);
    let (sort, bases, cases) = SORTS[script % SORTS.len()];
    let mut script = Script::default();
    for _ in 0..bases {
        let base = sort(&mut chance);
        // The test marks what it has seen: nothing that stands in the work area may be taken for a mark.
        script.numbers("fill", &[chance.pick(&[0, 1, 2, 7, MOST_DARTS, u32::MAX])]);
        script.lend(needed(base.len() as u32));
        script.put("table", 0, &base);
        for _ in 0..cases {
            case(&mut script, &mut chance, &base);
        }
    }
    Input::script(script)
}

fn middling(chance: &mut Chance) -> Vec<u32> {
    let darts = 2 * chance.between(21, 2_047);
    any_order(chance, darts)
}

/// One in two has all the darts there can be.
fn large(chance: &mut Chance) -> Vec<u32> {
    let darts = match chance.below(2) {
        0 => MOST_DARTS,
        _ => 2 * chance.between(2_048, MOST_DARTS / 2),
    };
    any_order(chance, darts)
}

/// Every dart its own successor, short vertices, or long ones.
fn any_order(chance: &mut Chance, darts: u32) -> Vec<u32> {
    let cut_one_in = chance.pick(&[1, 4, 1_000, u32::MAX]);
    bases::any_order(chance, darts, cut_one_in)
}

/// A start from the base with one to three successors changed, now and then of fewer darts than the base has.
fn case(script: &mut Script, chance: &mut Chance, base: &[u32]) {
    let darts = base.len() as u32;
    let times = chance.pick(&[1, 1, 2, 3]);
    let changed: Vec<(u32, u32)> = (0..times).map(|_| changed(chance, base)).collect();
    for &(dart, successor) in &changed {
        script.put("table", dart, &[successor]);
    }
    if chance.one_in(4) {
        let length = chance.between(1, 12);
        script.put("work", chance.below(4 * darts), &chance.rubbish(length));
    }
    let stated = if chance.one_in(8) { 2 * chance.between(1, darts / 2) } else { darts };
    script.numbers("start", &[stated]);
    if chance.one_in(8) {
        script.word("counts");
    }
    for &(dart, _) in &changed {
        script.put("table", dart, &[base[dart as usize]]);
    }
}

/// A dart and its new successor: one that another dart has, or one that is out of range.
fn changed(chance: &mut Chance, base: &[u32]) -> (u32, u32) {
    let darts = base.len() as u32;
    let dart = any_dart(chance, darts);
    let successor = match chance.below(3) {
        0 => out_of_range(chance, darts),
        1 => base[((dart + chance.pick(&[1, 2, darts - 1])) % darts) as usize],
        _ => base[any_dart(chance, darts) as usize],
    };
    (dart, successor)
}

/// The first darts and the last ones as often as all the others.
fn any_dart(chance: &mut Chance, darts: u32) -> u32 {
    match chance.below(4) {
        0 => chance.below(2),
        1 => darts - 1 - chance.below(2),
        _ => chance.below(darts),
    }
}

/// D, a little more, far more, or a dart with a high bit set.
fn out_of_range(chance: &mut Chance, darts: u32) -> u32 {
    match chance.below(4) {
        0 => darts,
        1 => darts + chance.between(1, 4),
        2 => chance.pick(&[2 * darts, 4 * darts, MOST_DARTS, u32::MAX - 1, u32::MAX]),
        _ => chance.below(darts) + chance.pick(&[1 << 16, 1 << 17, 1 << 30, 1 << 31]),
    }
}
