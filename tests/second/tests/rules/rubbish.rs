//! Any numbers anywhere: the calls answer, and a refusal leaves what was there.

use crate::support::chance::Chance;
use crate::support::ended::Ended;
use crate::support::lot::{Call, Lot, ON_A_STATE};
use second::answer::Answer;
use second::decide::levels_of;
use second::lookup::Found;
use second::state::State;
use second::zones::Zones;

const TRIES: u64 = 20_000;

/// Mostly a small number, at times one that is far too large.
fn any_number(chance: &mut Chance, usual: u32) -> u32 {
    match chance.below(16) {
        0 => chance.next() as u32,
        1 => u32::MAX - chance.below(3),
        _ => chance.below(usual),
    }
}

fn any_numbers(chance: &mut Chance, length: usize, usual: u32) -> Vec<u32> {
    (0..length).map(|_| any_number(chance, usual)).collect()
}

fn any_lot(chance: &mut Chance) -> Lot {
    let darts = 2 * (1 + chance.below(4));
    let mut state = State {
        darts: if chance.below(20) == 0 { any_number(chance, 12) } else { darts },
        operations: any_number(chance, darts / 2 + 1),
        levels: any_number(chance, 4),
        ..State::ZERO
    };
    for end in state.ends[..4].iter_mut() {
        *end = any_number(chance, darts / 2 + 2);
    }
    let table = any_numbers(chance, darts as usize, darts);
    let history = any_numbers(chance, darts as usize / 2, 2 * darts);
    let lot = Lot::new(state, &table, &history);
    match levels_of(&State { darts, ..state }, &table, &history) {
        Some(pyramid) if chance.coin() => lot.storing(pyramid.state().vertices, pyramid.state().faces),
        _ => lot.storing(any_number(chance, darts), any_number(chance, darts)),
    }
}

/// Makes the call; where it is refused, everything but the work area must stay.
fn answers(lot: &Lot, call: &Call) {
    let mut after = lot.clone();
    let Answer { number, second, .. } = after.call(call).answer;
    assert!(number <= 15);
    assert!(second == 0 || matches!(call, Call::Start(_)) && number == 3, "{call:?}");
    if number != 0 {
        assert_eq!((&after.table, &after.history, &after.output), (&lot.table, &lot.history, &lot.output));
    }
}

#[test]
fn rubbish_gets_an_answer() {
    for seed in 0..TRIES {
        let mut chance = Chance::new(seed);
        let lot = any_lot(&mut chance);
        let kernel = any_numbers(&mut chance, 3, 4);
        let kind = chance.kind();
        for call in ON_A_STATE.into_iter().chain([Call::Start(lot.state.darts), Call::Reduce(kind, &kernel)]) {
            answers(&lot, &call);
        }
    }
}

#[test]
fn pyramids_with_one_number_altered_get_an_answer() {
    for seed in 0..TRIES {
        let mut chance = Chance::new(seed);
        let pyramid = chance.pyramid();
        let mut lot = Lot::of(&pyramid);
        let darts = lot.state.darts;
        let place = chance.below(darts) as usize;
        match chance.below(7) {
            0 => lot.state.operations = any_number(&mut chance, darts),
            1 => lot.state.levels = any_number(&mut chance, 6),
            2 => lot.state.ends[place] = any_number(&mut chance, darts),
            3 => lot.history[place / 2] = any_number(&mut chance, 2 * darts),
            4 => lot.state.vertices = any_number(&mut chance, darts),
            5 => lot.state.faces = any_number(&mut chance, darts),
            _ => lot.table[place] = any_number(&mut chance, darts),
        }
        for call in ON_A_STATE {
            answers(&lot, &call);
        }
    }
}

#[test]
fn rubbish_for_ends_gets_an_answer() {
    let mut times = [0; 13];
    for seed in 0..TRIES {
        let mut chance = Chance::new(seed);
        let pyramid = chance.pyramid();
        let mut ended = Ended::of(&pyramid);
        let darts = 2 * pyramid.map().edges();
        for _ in 0..chance.below(3) {
            let place = chance.below(darts) as usize;
            match chance.below(3) {
                0 => ended.table[place] = any_number(&mut chance, darts),
                _ => ended.ends[place / 2] = any_number(&mut chance, 8),
            }
        }
        let (stated, k, dart) = match chance.below(20) {
            0 => (any_number(&mut chance, 12), 0, 0),
            _ => (darts, any_number(&mut chance, 4), any_number(&mut chance, darts)),
        };
        let mut after = ended.clone();
        let (answer, found) = after.call(stated, k, dart);
        assert_eq!((&after.table, &after.ends), (&ended.table, &ended.ends));
        assert!(answer.number == 0 || found == Found::default());
        assert!(answer.second == 0 && (answer.place == 0 || answer.number == 12));
        times[answer.number as usize] += 1;
    }
    let given: Vec<usize> = (0..times.len()).filter(|&number| times[number] > 0).collect();
    assert_eq!(given, [0, 1, 2, 4, 7, 8, 12]);
}

/// A line of a script for K7's map: a call, or numbers put in by hand, most often those that stand there already.
fn any_line(chance: &mut Chance) -> String {
    let calls = [
        "contract 0 1", "remove 2", "contract 3", "sweep", "undo", "unfold 1", "counts", "write 97", "successor 8 1 6",
        "yarncontract 0 1", "yarnremove 2", "yarnsweep", "yarnundo", "yarnunfold 1",
    ];
    let by_hand = [
        "table 0 5 2 1 4 6 0 3 7", "table 2 5 4 6 4 6 7", "table 7 7", "table 8 1", "history 0 1 5", "history 2 10",
        "history 3 9", "state 8 3 2 2 3\nstored 2 1", "state 8 2 1 2\nstored 2 2", "state 8 0 0\nstored 4 2",
        "state 8 0 0", "stored 2 1", "stored 2 2", "stored 1 2", "stored 4294967295 0", "lend 8 4 32", "fill 9",
        "start 8", "plan 0 1 1 1 1", "plan 1 2", "flat 2 2 4", "flatareas 2 2 4", "flatareas 1 4 4", "flat 1 1 4",
        "flat 2 3 6", "ends 0 3 3 4 0", "ends 1 2 0 9", "sheets 8 4", "sheet 0 1:0 1:- 1:0 1:-", "sheet 0 65536:0",
        "kept 0 1:0 2:-", "yarnstart 8",
    ];
    match chance.below(8) {
        0 => format!("table {} {}\n", chance.below(8), chance.below(9)),
        1 => format!("history {} {}\n", chance.below(4), chance.below(17)),
        2 | 3 => format!("{}\n", by_hand[chance.below(by_hand.len() as u32) as usize]),
        _ => format!("{}\n", calls[chance.below(calls.len() as u32) as usize]),
    }
}

#[test]
fn numbers_by_hand_between_calls_never_stop_the_program() {
    let mut left = [0; 3];
    for seed in 0..TRIES / 10 {
        let mut chance = Chance::new(seed);
        let lines: String = (0..8).map(|_| any_line(&mut chance)).collect();
        let script = format!("lend 8 4 32\ntable 0 5 2 1 4 6 0 3 7\nstart 8\ncontract 0 1\nremove 2\n{lines}");
        let levels = Zones::after(script.as_bytes()).kept().pyramid().map_or(0, |pyramid| pyramid.levels().len());
        left[levels.min(2)] += 1;
    }
    assert!(left.iter().all(|&scripts| scripts > 20), "{left:?} scripts left nothing, a base, and more levels");
}
