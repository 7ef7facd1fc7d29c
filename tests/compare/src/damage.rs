//! Held   == what a script holds: a state, its table and its history
//! Damage == one number of it changed, or two exchanged, of the table or of those that the state stores
//!
//! Most are no pyramid any more. Some still are one, and those are worth comparing too: they need numbers of vertices and
//! faces of their own.

use crate::chance::Chance;
use crate::scene::Scene;
use second::counts::counts;
use second::decide::levels_of;
use second::state::{State, MOST_DARTS};

struct Held {
    state: State,
    table: Vec<u32>,
    history: Vec<u32>,
}

impl Held {
    fn put(&mut self, scene: &mut Scene, room: &str, place: usize, value: u32) {
        match room {
            "table" => self.table[place] = value,
            _ => self.history[place] = value,
        }
        scene.script.put(room, place as u32, &[value]);
    }

    fn restate(&mut self, scene: &mut Scene, change: impl FnOnce(&mut State)) {
        change(&mut self.state);
        scene.script.state(&self.state);
    }

    /// Where there is a pyramid, whatever the state stores, its numbers are stored.
    fn store_right(&self, scene: &mut Scene) {
        let same_darts = self.state.darts as usize == self.table.len();
        let fits = self.state.operations as usize <= self.history.len();
        let found = (same_darts && fits).then(|| levels_of(&self.state, &self.table, &self.history)).flatten();
        if let Some(pyramid) = found {
            let State { vertices, faces, .. } = pyramid.state();
            scene.script.stored(vertices, faces);
        }
    }
}

/// Damages what the script holds, makes some calls on it, and puts everything back.
pub fn damaged(scene: &mut Scene, chance: &mut Chance) {
    let pyramid = &scene.pyramid;
    let (table, history) = (pyramid.map().table().to_vec(), pyramid.history().to_vec());
    let mut held = Held { state: pyramid.state(), table, history };
    if chance.one_in(4) {
        the_numbers(&held.state, scene, chance);
    } else {
        let damage = chance.weighed(&DAMAGES);
        damage(&mut held, scene, chance);
        if chance.one_in(2) {
            held.store_right(scene);
        }
    }
    for _ in 0..chance.between(1, 3) {
        scene.any_call(chance);
        if chance.one_in(8) {
            scene.script.word("show");
        }
        if scene.sheets.is_some() {
            scene.script.word("costs");
        }
    }
    scene.all_again();
}

/// The numbers that the state stores: one too many, one too few, both at once, exchanged, of the base, none, or far too large.
pub fn the_numbers(state: &State, scene: &mut Scene, chance: &mut Chance) {
    let State { vertices, faces, .. } = *state;
    let base = counts(&scene.pyramid.levels()[0].map);
    let others = [
        (vertices + 1, faces),
        (vertices - 1, faces),
        (vertices, faces + 1),
        (vertices, faces - 1),
        (vertices + 1, faces - 1),
        (vertices - 1, faces + 1),
        (faces, vertices),
        (base.vertices, base.faces),
        (0, 0),
        (u32::MAX, faces),
        (vertices, u32::MAX),
        (vertices | 1 << 31, faces),
        (vertices, faces + 65_536),
    ];
    let (vertices, faces) = chance.pick(&others);
    scene.script.stored(vertices, faces);
}

type Damage = fn(&mut Held, &mut Scene, &mut Chance);

const DAMAGES: [(u32, Damage); 7] = [
    (4, an_entry),
    (2, two_entries),
    (4, a_history_number),
    (2, an_end),
    (1, the_operations),
    (1, the_levels),
    (1, the_darts),
];

/// An entry, of a gone dart too: another dart, or a number that is none.
fn an_entry(held: &mut Held, scene: &mut Scene, chance: &mut Chance) {
    let darts = scene.darts();
    let entry = chance.below(darts);
    let value = match chance.below(6) {
        0 => chance.pick(&[darts, darts + 1, u32::MAX]),
        _ => chance.below(darts),
    };
    held.put(scene, "table", entry as usize, value);
}

/// Two entries exchanged: no fault of one entry shows, but the history hardly ever fits the table any more.
fn two_entries(held: &mut Held, scene: &mut Scene, chance: &mut Chance) {
    let (a, b) = (chance.place(held.table.len()), chance.place(held.table.len()));
    let (of_a, of_b) = (held.table[a], held.table[b]);
    held.put(scene, "table", a, of_b);
    held.put(scene, "table", b, of_a);
}

/// A history number: another kind, the edge turned round, another dart, or a number that is none.
fn a_history_number(held: &mut Held, scene: &mut Scene, chance: &mut Chance) {
    let darts = scene.darts();
    if held.history.is_empty() {
        return;
    }
    let place = chance.place(held.history.len());
    let value = match chance.below(4) {
        0 => held.history[place] ^ 1,
        1 => held.history[place] ^ 2,
        2 => chance.below(2 * darts),
        _ => chance.pick(&[2 * darts, 2 * darts + 1, u32::MAX]),
    };
    held.put(scene, "history", place, value);
}

/// A number a little off, or far off.
fn off(chance: &mut Chance, value: u32) -> u32 {
    match chance.below(5) {
        0 | 1 => value + 1,
        2 | 3 => value.saturating_sub(1),
        _ => chance.pick(&[0, 64, 65, u32::MAX]),
    }
}

/// A level's end, or one past the last level.
fn an_end(held: &mut Held, scene: &mut Scene, chance: &mut Chance) {
    let place = match chance.below(5) {
        0 => chance.place(64),
        _ => chance.below(scene.top() + 1).min(63) as usize,
    };
    let end = off(chance, held.state.ends[place]);
    held.restate(scene, |state| state.ends[place] = end);
}

fn the_operations(held: &mut Held, scene: &mut Scene, chance: &mut Chance) {
    let operations = off(chance, held.state.operations);
    held.restate(scene, |state| state.operations = operations);
}

fn the_levels(held: &mut Held, scene: &mut Scene, chance: &mut Chance) {
    let levels = off(chance, held.state.levels);
    held.restate(scene, |state| state.levels = levels);
}

fn the_darts(held: &mut Held, scene: &mut Scene, chance: &mut Chance) {
    let darts = scene.darts();
    let other = chance.pick(&[darts - 2, darts - 1, darts + 1, darts + 2, 0, MOST_DARTS, MOST_DARTS + 2, u32::MAX]);
    held.restate(scene, |state| state.darts = other);
}
