//! Group `reads`: good and spoiled files for the call `read`, and calls on what it hands back

use crate::chance::Chance;
use crate::files;
use crate::input::Input;
use crate::scene::needed;
use crate::script::Script;
use crate::spoil::spoiled;
use second::file_write::bytes_of;
use second::pyramid::Pyramid;

/// The group's seeds start here.
const SEEDS: u64 = 3 << 32;

/// Files in a script.
const FILES: usize = 2_000;

pub fn input(script: usize) -> Input {
    let mut chance = Chance::new(SEEDS + script as u64);
    let mut script = Script::default();
    for _ in 0..FILES {
        file(&mut script, &mut chance);
    }
    Input::script(script)
}

fn file(script: &mut Script, chance: &mut Chance) {
    let mut file = files::good(chance);
    if !chance.one_in(4) {
        file = spoiled(chance, file);
    }
    let held = files::held(&file, 64);
    lend(script, chance, held.as_ref());
    if chance.one_in(6) {
        script.put("work", chance.below(160), &chance.rubbish(12));
    }
    script.read(&file);
    if let Some(pyramid) = held {
        after(script, chance, &pyramid);
    }
    if chance.one_in(40) {
        script.word("show");
    }
}

/// Plenty; or exactly what the file needs, and now and then one number less of one slice.
fn lend(script: &mut Script, chance: &mut Chance, held: Option<&Pyramid>) {
    let mut lent = needed(64);
    if let Some(pyramid) = held {
        if chance.one_in(2) {
            lent = needed(pyramid.state().darts);
        }
        if chance.one_in(10) {
            lent = needed(pyramid.state().darts);
            lent[chance.place(3)] -= 1;
        }
    }
    script.lend(lent);
}

/// The state read takes part in calls like any other.
fn after(script: &mut Script, chance: &mut Chance, pyramid: &Pyramid) {
    match chance.below(12) {
        0 => script.word("counts"),
        1 => script.word("undo"),
        2 => script.numbers("unfold", &[chance.below(4)]),
        3 => script.word("sweep"),
        4 => {
            let kind = chance.kind();
            script.reduce(kind, &[chance.below(20)]);
        }
        5 | 6 => {
            script.numbers("write", &[bytes_of(pyramid).len() as u32]);
            script.word("bytes");
        }
        _ => (),
    }
}
