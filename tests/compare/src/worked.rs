//! Group `worked`: what document 01 works out by hand, the cases that only one test of a pyramid refuses, and tables that are
//! no permutation, plans, lookups, stored numbers and sheets that can be followed by eye
//!
//! These are fixed. Chance reaches them late or never.

use crate::files::from_one;
use crate::input::Input;
use crate::scene::needed;
use crate::script::Script;
use crate::worked_stored;
use crate::worked_yarn;
use second::operation::kind_of;
use second::state::State;

pub const SCRIPTS: usize = 7;

pub fn input(script: usize) -> Input {
    Input::script(match script {
        0 => worked(),
        1 => no_pyramids(),
        2 => culprits(),
        3 => plans(),
        4 => lookups(),
        5 => worked_stored::script(),
        _ => worked_yarn::script(),
    })
}

/// K1 to K11.
const WORKED: &str = "\
lend 8 4 32
table 0 5 2 1 4 6 0 3 7
start 8
counts
remove 3
contract 3
show
undo
remove 0
show
remove 1
undo
contract 0 1
show
undo
contract 1 0
show
undo
contract 0 1
contract 2
remove 2
show
counts
contract 3
remove 3
write 97
write 96
bytes
unfold 0
show
table 0 2 4 1 3 0 5
start 6
remove 0
show
table 0 2 4 0 3 1 5
start 6
contract 0
show
table 0 1 1
start 2
table 0 1 0
start 2
remove 0
contract 0
table 0 5 2 1 4 6 0 3 7
start 8
remove 0 0
show
";

/// K12.
const FILE: &str = "\
numbers=0
darts=8
levels=2
kernel=contract 2
kernel=remove 1
pair=4 2
pair=4 5
pair=5 6
pair=6 7
";

fn worked() -> Script {
    let mut script = Script::default();
    WORKED.lines().for_each(|line| script.word(line));
    for file in [FILE.as_bytes(), &from_one(FILE.as_bytes())] {
        script.read(file);
        for line in ["show", "counts", "write 97", "bytes"] {
            script.word(line);
        }
    }
    script
}

/// For each test of a pyramid a table and a history that every other test lets pass. The second row holds an edge that
/// is contracted and later removed: nothing but a look for edges that come twice refuses it.
const ROWS: [(&[u32], &[u32]); 17] = [
    (&[0, 0], &[4]),
    (&[0, 1, 0, 1, 4, 1, 0, 6], &[11, 14, 5, 4]),
    (&[0, 2], &[]),
    (&[0, 2, 1, 0], &[4]),
    (&[1, 1, 0, 1], &[4]),
    (&[0, 0], &[2]),
    (&[2, 3, 2, 3], &[2]),
    (&[0, 1, 2, 1], &[4]),
    (&[0, 1, 0, 2], &[4]),
    (&[2, 2, 2, 3], &[0]),
    (&[0, 1], &[1]),
    (&[2, 3, 3, 2], &[3]),
    (&[0, 1, 2, 0], &[5]),
    (&[2, 0, 2, 3], &[1]),
    (&[2, 2, 2, 3], &[1]),
    (&[2, 3, 2, 3], &[1]),
    (&[2, 3, 3, 2], &[0]),
];

const CALLS: [&str; 7] = ["counts", "contract 0", "remove 0", "sweep", "undo", "unfold 0", "write 200"];

/// Every call on a state, on every row, with every number of vertices and of faces that could be stored.
fn no_pyramids() -> Script {
    let mut script = Script::default();
    for (table, history) in ROWS {
        let darts = table.len() as u32;
        script.lend(needed(darts));
        for state in with_any_numbers(&stated(darts, history)) {
            script.put("table", 0, table);
            script.put("history", 0, history);
            for call in CALLS {
                script.state(&state);
                script.word(call);
            }
        }
    }
    script
}

/// The state with each number of vertices and of faces up to D.
fn with_any_numbers(state: &State) -> Vec<State> {
    let with = |vertices| move |faces| State { vertices, faces, ..*state };
    (0..=state.darts).flat_map(|vertices| (0..=state.darts).map(with(vertices))).collect()
}

/// The state with the fewest levels that have one kind inside each.
fn stated(darts: u32, history: &[u32]) -> State {
    let mut state = State { darts, operations: history.len() as u32, ..State::ZERO };
    for (operation, &number) in history.iter().enumerate() {
        let next = history.get(operation + 1);
        if next.is_none_or(|&next| kind_of(next) != kind_of(number)) {
            state.ends[state.levels as usize] = operation as u32 + 1;
            state.levels += 1;
        }
    }
    state
}

/// Tables that are no permutation: a successor that repeats a lower dart's, one that is out of range, both in one table, and
/// three darts with one successor.
const TABLES: [&[u32]; 18] = [
    &[1, 1],
    &[0, 0],
    &[0, 1, 2, 0],
    &[0, 1, 2, 2],
    &[2, 3, 0, 3, 5, 4],
    &[0, 2],
    &[2, 0],
    &[3, 2, 1, 4],
    &[3, 2, 1, 5],
    &[3, 2, 1, 65_536],
    &[3, 2, 1, u32::MAX],
    &[9, 9],
    &[2, 0, 0, 9],
    &[2, 9, 2, 0],
    &[0, 0, 4, 4],
    &[3, 2, 4, 3],
    &[3, 1, 3, 3],
    &[5, 2, 5, 4, 6, 4, 6, 7],
];

/// A start from each, and every call on a state and a file of each, which are 4.
fn culprits() -> Script {
    let mut script = Script::default();
    for table in TABLES {
        let darts = table.len() as u32;
        script.lend(needed(darts));
        script.word("fill 7");
        script.put("table", 0, table);
        script.numbers("start", &[darts]);
        for (call, state) in CALLS.iter().cycle().zip(with_any_numbers(&stated(darts, &[]))) {
            script.state(&state);
            script.word(call);
        }
        let pairs: String = table.chunks(2).map(|pair| format!("pair={} {}\n", pair[0], pair[1])).collect();
        script.read(format!("numbers=0\ndarts={darts}\nlevels=0\n{pairs}").as_bytes());
        script.word("show");
    }
    script
}

/// Each as wales, courses and codes: two cells, rows with the one edge that stays, squares, the brief of samples/, a ring
/// round a cell, and no two equal neighbours; then sizes that are 15.
const PLANS: [(u32, u32, &[u8]); 20] = [
    (2, 1, b"AB"),
    (2, 1, b"AA"),
    (1, 2, b"AA"),
    (1, 3, b"AAA"),
    (3, 1, b"AAA"),
    (1, 3, b"AAB"),
    (1, 3, b"ABB"),
    (4, 1, b"ABBA"),
    (2, 2, b"AAAA"),
    (2, 2, b"ABBA"),
    (2, 2, b"AAAB"),
    (3, 2, b"AABACC"),
    (2, 3, b"ABABAB"),
    (3, 3, b"AAAABAAAA"),
    (5, 4, b"LLBRRLBBBRBBBBBWWWWW"),
    (1, 1, b"A"),
    (0, 0, b""),
    (129, 1, &[65; 129]),
    (1, 129, &[65; 129]),
    (0, u32::MAX, b"A"),
];

/// Each plan by both calls, with a level undone, swept, written and read back.
fn plans() -> Script {
    let mut script = Script::default();
    script.lend(needed(62));
    for (wales, courses, codes) in PLANS {
        let length = codes.len() as u32;
        script.put("plan", 0, &codes.iter().map(|&code| u32::from(code)).collect::<Vec<_>>());
        for word in ["flat", "flatareas"] {
            // What was left of the call before must not look like what this one leaves.
            script.word("fill 7");
            script.put("table", 0, &[8; 4]);
            script.numbers(word, &[wales, courses, length]);
            for line in ["show", "counts", "sweep", "write 900", "bytes", "undo", "undo", "show"] {
                script.word(line);
            }
            script.numbers(word, &[wales, courses, length.saturating_sub(1)]);
        }
    }
    script
}

/// Base tables with their edges' ends. Map T: with no level over it, K12, the same with other numbers for survivors, its
/// levels exchanged, and 64 for a level; a gap, two kinds in one level, levels over 64; the triangle's three edges
/// contracted, the last edge of a piece, a pending edge removed; K12's top in the place of its base. Then parallel edges, of
/// which one can be contracted, an edge that is a whole piece, K9's two bases, and tables that are no permutation.
const ENDS: [(&[u32], &[u32]); 42] = [
    (&T, &[0, 0, 0, 0]),
    (&T, &[1, 1, 0, 1]),
    (&T, &[3, 3, 4, 0]),
    (&T, &[3, 3, 4, 1]),
    (&T, &[5, 5, 2, 0]),
    (&T, &[3, 5, 6, 1]),
    (&T, &[7, 3, 4, 0]),
    (&T, &[0, 0, 0, 3]),
    (&T, &[2, 0, 0, 5]),
    (&T, &[3, 3, 6, 0]),
    (&T, &[5, 5, 6, 0]),
    (&T, &[0, 0, 4, 0]),
    (&T, &[3, 3, 128, 0]),
    (&T, &[3, 2, 4, 0]),
    (&T, &[2, 3, 0, 0]),
    (&T, &[3, 3, 2, 0]),
    (&T, &[3, 3, 130, 0]),
    (&T, &[3, 3, 131, 0]),
    (&T, &[3, 3, 4, 65_536]),
    (&T, &[3, 3, 4, 1 << 31]),
    (&T, &[3, 3, 4, u32::MAX]),
    (&T, &[3, 3, u32::MAX - 1, 0]),
    (&T, &[3, 3, 3, 0]),
    (&T, &[3, 3, 5, 0]),
    (&T, &[3, 3, 4, 7]),
    (&T, &[3, 3, 4, 6]),
    (&T, &[0, 0, 0, 2]),
    (&T, &[2, 2, 0, 0]),
    (&[5, 2, 5, 4, 6, 4, 6, 7], &[3, 3, 4, 0]),
    (&[2, 3, 0, 1], &[3, 0]),
    (&[2, 3, 0, 1], &[0, 2]),
    (&[2, 3, 0, 1], &[3, 3]),
    (&[2, 3, 0, 1], &[3, 5]),
    (&[0, 1], &[0]),
    (&[0, 1], &[3]),
    (&[1, 0], &[2]),
    (&[1, 0], &[3]),
    (&[2, 4, 1, 3, 0, 5], &[2, 0, 0]),
    (&[2, 4, 0, 3, 1, 5], &[3, 0, 0]),
    (&[2, 4, 1, 3, 0, 5], &[3, 0, 0]),
    (&[1, 1], &[0]),
    (&[3, 2, 1, 4], &[0, 0]),
];

/// Base T of document 01.
const T: [u32; 8] = [5, 2, 1, 4, 6, 0, 3, 7];

/// Every dart and one that is none, at the levels 0 to 4 and at 64 and 65; then with something lent one too short, and for
/// other numbers of darts.
fn lookups() -> Script {
    let mut script = Script::default();
    for (table, ends) in ENDS {
        let darts = table.len() as u32;
        script.lend(needed(darts));
        script.word("fill 7");
        script.put("table", 0, table);
        script.put("ends", 0, ends);
        for k in [0, 1, 2, 3, 4, 64, 65] {
            for dart in 0..=darts {
                script.numbers("successor", &[darts, k, dart]);
            }
        }
        script.word("fill 7");
        for short in 0..3 {
            let mut lent = needed(darts);
            lent[short] -= 1;
            script.lend(lent);
            script.numbers("successor", &[darts, 0, 0]);
        }
        script.lend(needed(8));
        for other in [0, 1, 2, darts - 1, darts + 2, 65_536, 65_538, u32::MAX] {
            script.numbers("successor", &[other, 0, 0]);
        }
    }
    script
}
