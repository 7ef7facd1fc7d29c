//! The script of group `worked` that makes the calls with sheets on map T: sums, what is kept and returned, every record of both
//! sheets changed once, and every reason of 16

use crate::script::Script;

/// T's four records, at the places 0, 1, 3 and 7: of 1 to 4 stitches and half a metre each; those whose sum depends on the order;
/// one that is not measured; the limits; sums over 65,535.
const RECORDS: [[&str; 4]; 6] = [
    ["1:4602678819172646912", "2:4602678819172646912", "3:4602678819172646912", "4:4602678819172646912"],
    ["1:4591870180066957722", "1:4596373779694328218", "1:4599075939470750515", "1:0"],
    ["1:-", "2:4602678819172646912", "3:0", "4:-"],
    ["65535:4681608360884174848", "0:9223372036854775808", "65535:-", "0:1"],
    ["65535:9223372036854775808", "65535:9223372036854775808", "65535:9223372036854775808", "65535:0"],
    ["0:4681608360884174848", "1:4681608360884174848", "2:1", "3:4681608360884174847"],
];

/// Records that a start refuses: a stitch too many, most of all; above 100,000, below 0, infinite, and a NaN.
const UNFIT: [&str; 9] = [
    "65536:0", "65536:-", "4294967295:0", "0:4681608360884174849", "0:9223372036854775809", "0:13830554455654793216",
    "0:9218868437227405312", "0:18442240474082181120", "0:9221120237041090560",
];

/// K5 and K7 one way and the other, refused kernels and undos, and calls without sheets in between.
const COSTED: &str = "\
yarnstart 8
yarncontract 0 1
yarnremove 2
yarncontract 3
yarnremove 9
yarncontract
yarnunfold 3
yarnundo
yarnundo
yarnundo
yarncontract 1 0
yarnsweep
yarnsweep
yarnunfold 0
yarncontract 1
yarncontract 3
yarncontract 0
yarnundo
yarnunfold 1
yarncontract 3 0 9
undo
yarnundo
contract 3
yarnundo
undo
";

pub fn script() -> Script {
    let mut script = Script::default();
    for line in ["lend 8 4 32", "sheets 8 4", "table 0 5 2 1 4 6 0 3 7"] {
        script.word(line);
    }
    for records in RECORDS {
        put_t(&mut script, records);
        COSTED.lines().for_each(|line| script.word(line));
        changed_in_k7(&mut script, records);
    }
    for unfit in UNFIT {
        for place in [0, 1, 2, 3, 7, 8] {
            put_t(&mut script, RECORDS[0]);
            script.word(&format!("sheet {place} {unfit}"));
            script.word("yarnstart 8");
            script.word("table 6 6");
            script.word("yarnstart 8");
        }
    }
    script
}

fn put_t(script: &mut Script, [zero, one, three, seven]: [&str; 4]) {
    script.word("table 0 5 2 1 4 6 0 3 7");
    script.word(&format!("sheet 0 {zero} {one} 9:- {three} 9:9221120237041090560 4294967295:- 9:0 {seven}"));
}

/// In K7's pyramid each record of both sheets changed once: by a stitch, to not measured, and to a NaN.
fn changed_in_k7(script: &mut Script, records: [&str; 4]) {
    for (room, places) in [("sheet", 9), ("kept", 5)] {
        for place in 0..places {
            for other in ["7:4602678819172646912", "6:-", "0:9221120237041090561"] {
                put_t(script, records);
                for line in ["yarnstart 8", "yarncontract 0 1", "yarnremove 2"] {
                    script.word(line);
                }
                script.word(&format!("{room} {place} {other}"));
                script.word("yarnunfold 2");
                script.word("yarnundo");
            }
        }
    }
}
