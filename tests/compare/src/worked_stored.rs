//! The script of group `worked` that stores numbers of vertices and faces on map T: K1, K5 and K7 with every number of either, and
//! with numbers that are far too large; every call on each; what refused calls leave

use crate::script::Script;

/// The lines that lead to K1, K5 and K7 from what any other left, with sheets that fit, and the state's own line.
const LEVELS: [(&[&str], &str); 3] = [
    (&["yarnstart 8"], "state 8 0 0"),
    (&["yarnstart 8", "yarncontract 0 1"], "state 8 2 1 2"),
    (&["yarnstart 8", "yarncontract 0 1", "yarnremove 2"], "state 8 3 2 2 3"),
];

/// Every call on a state. Those that are refused for another reason as well: 5, 7, 8 to 11, 12, and 2 for the output.
const CALLS: [&str; 22] = [
    "counts", "contract 3", "contract", "contract 0", "remove 2", "remove 9", "sweep", "undo", "unfold 0", "unfold 1",
    "unfold 9", "write 200", "write 5", "yarncontract 3", "yarncontract", "yarncontract 0", "yarnremove 2",
    "yarnremove 9", "yarnsweep", "yarnundo", "yarnunfold 0", "yarnunfold 9",
];

/// Numbers that no map of 8 darts has.
const LARGE: [(u32, u32); 6] =
    [(9, 9), (u32::MAX, 2), (2, u32::MAX), (65_540, 2), (2, 65_538), (2_147_483_650, 2_147_483_650)];

/// A start, a plan and a file that are refused, and what is said of the zeros that they hand back.
const REFUSED: [&str; 9] = [
    "start 7", "start 10", "flat 1 1 1", "flat 2 2 3", "flatareas 2 2 4", "yarnstart 7", "yarnstart 10", "read 3\nnot",
    "read 19\nnumbers=0\ndarts=10\n",
];

pub fn script() -> Script {
    let mut script = Script::default();
    for line in ["lend 8 4 32", "sheets 8 4", "plan 0 1 2 2 1", "sheet 0 1:0 2:0 3:0 4:0 5:0 6:0 7:0 8:0"] {
        script.word(line);
    }
    for (lines, state) in LEVELS {
        for (vertices, faces) in (0..6).flat_map(|vertices| (0..4).map(move |faces| (vertices, faces))).chain(LARGE) {
            begin(&mut script, lines);
            for call in CALLS {
                script.word(state);
                script.stored(vertices, faces);
                script.word(call);
                // A call that was accepted has moved the map.
                begin(&mut script, lines);
            }
        }
        for line in ["show", state, "show", "undo", "stored 1 2", "show", "stored 2 1"] {
            script.word(line);
        }
        for line in REFUSED {
            begin(&mut script, lines);
            for line in [line, "show", "counts", "undo", "yarnundo", "write 9"] {
                script.word(line);
            }
        }
    }
    script
}

fn begin(script: &mut Script, lines: &[&str]) {
    script.word("table 0 5 2 1 4 6 0 3 7");
    script.word("sheet 0 1:0");
    lines.iter().for_each(|line| script.word(line));
}
