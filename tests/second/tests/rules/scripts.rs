//! The program `zones`: what a script prints, and its error lines.

use crate::worked::K12;
use second::zones::run;

/// T lent in full.
const T_LENT: &str = "lend 8 4 32\ntable 0 5 2 1 4 6 0 3 7\n";

fn printed(script: &str) -> String {
    String::from_utf8(run(script.as_bytes())).expect("plain letters")
}

/// The checksum of the script language, once more.
fn sum(numbers: &[u64]) -> u64 {
    let mut c = 0;
    for v in numbers {
        c = (c * 31 + v + 1) % 4_294_967_291;
    }
    c
}

/// The numbers, and zeros after them up to this length.
fn sum_to(length: usize, numbers: &[u64]) -> u64 {
    let mut all = numbers.to_vec();
    all.resize(length, 0);
    sum(&all)
}

#[test]
fn an_empty_script_prints_nothing() {
    assert_eq!(printed(""), "");
    assert_eq!(printed("lend 1 2 3\ntable 0 1\nhistory 0 1\nwork 0 1\nfill 1\nstate 1 2 3\nstored 4 5\nbytes\n"), "");
}

#[test]
fn a_call_prints_its_line() {
    let expected = format!(
        "answer=0 place=0 second=0 state=8 0 0 4 2 ends={} table={} history={} work={} output=30784\n",
        sum_to(64, &[]),
        sum_to(12, &[5, 2, 1, 4, 6, 0, 3, 7]),
        sum_to(8, &[]),
        sum_to(36, &[]),
    );
    assert_eq!(printed(&format!("{T_LENT}start 8\n")), expected);
}

#[test]
fn checksums_reach_four_past_what_is_lent() {
    let script = "lend 2 1 8\ntable 0 1 0 6 7 8 9 10\nhistory 0 1 2 3 4 5 6\nfill 3\nstart 2\n";
    let mut work = vec![0; 8];
    work.resize(12, 3);
    let expected = format!(
        "answer=0 place=0 second=0 state=2 0 0 1 2 ends={} table={} history={} work={} output=30784\n",
        sum_to(64, &[]),
        sum(&[1, 0, 6, 7, 8, 9]),
        sum(&[1, 2, 3, 4, 5]),
        sum(&work),
    );
    assert_eq!(printed(script), expected);
}

#[test]
fn large_numbers_are_summed_whole() {
    let script = "lend 1 0 0\ntable 0 4294967295\nstart 4294967295\n";
    let expected = format!(
        "answer=1 place=0 second=0 state=0 0 0 0 0 ends={} table={} history=30784 work=30784 output=30784\n",
        sum_to(64, &[]),
        sum_to(5, &[4_294_967_295]),
    );
    assert_eq!(printed(script), expected);
}

#[test]
fn counts_stand_at_the_end_and_the_state_stays() {
    let line = printed(&format!("{T_LENT}start 8\ncounts\n")).lines().nth(1).expect("a second line").to_string();
    assert!(line.starts_with("answer=0 place=0 second=0 state=8 0 0 4 2 ends="));
    assert!(line.ends_with(" output=30784 darts=8 vertices=4 faces=2 euler=2"));
    let line = printed("state 7 6 5 4\ncounts\n");
    assert!(line.starts_with(&format!("answer=1 place=0 second=0 state=7 6 5 0 0 ends={} ", sum_to(64, &[4]))));
    assert!(line.ends_with(" darts=0 vertices=0 faces=0 euler=0\n"));
}

/// What stands before the ends of each line, and lines that are no call's in full.
fn short(script: &str) -> Vec<String> {
    let cut = |line: &str| match line.split_once(" ends=") {
        Some((head, _)) => head.to_string(),
        None => line.to_string(),
    };
    printed(script).lines().map(cut).collect()
}

#[test]
fn calls_follow_one_another() {
    let script = format!(
        "{T_LENT}start 8\ncontract 0 1\nsweep\nshow\nundo\nshow\nremove\ncontract 2\nunfold 5\nunfold 0\nshow\nundo\n\
         remove 0 0\nstart 6\nundo\nshow\n"
    );
    let expected = [
        "answer=0 place=0 second=0 state=8 0 0 4 2",
        "answer=0 place=0 second=0 state=8 2 1 2 2",
        "answer=0 place=0 second=0 state=8 3 2 2 1",
        "state=8 3 2 2 1 2 3",
        "table=5 2 5 4 6 4 6 7",
        "history=1 5 10",
        "answer=0 place=0 second=0 state=8 2 1 2 2",
        "state=8 2 1 2 2 2",
        "table=5 2 5 4 6 4 5 7",
        "history=1 5",
        "answer=5 place=0 second=0 state=8 2 1 2 2",
        "answer=9 place=0 second=0 state=8 2 1 2 2",
        "answer=12 place=1 second=0 state=8 2 1 2 2",
        "answer=0 place=0 second=0 state=8 0 0 4 2",
        "state=8 0 0 4 2",
        "table=5 2 1 4 6 0 3 7",
        "history=",
        "answer=12 place=0 second=0 state=8 0 0 4 2",
        "answer=8 place=1 second=0 state=8 0 0 4 2",
        "answer=3 place=4 second=6 state=0 0 0 0 0",
        "answer=1 place=0 second=0 state=0 0 0 0 0",
        "state=0 0 0 0 0",
        "table=",
        "history=",
    ];
    assert_eq!(short(&script), expected);
}

#[test]
fn show_stops_at_what_is_lent_and_at_64_ends() {
    let script = "lend 2 1 0\ntable 0 1 2 3\nhistory 0 4 5\nstate 4294967295 4294967295 4294967295 9\nshow\n";
    let ends = "9".to_string() + &" 0".repeat(63);
    let expected = format!("state=4294967295 4294967295 4294967295 0 0 {ends}\ntable=1 2\nhistory=4\n");
    assert_eq!(printed(script), expected);
}

#[test]
fn a_file_is_written_shown_and_read() {
    let script = format!(
        "{T_LENT}start 8\ncontract 0 1\nremove 2\nwrite 96\nbytes\nwrite 97\nbytes\nwrite 5\nbytes\nread {}\n{K12}\nshow\n",
        K12.len()
    );
    let text = printed(&script);
    assert!(text.contains("answer=2 place=97 second=0 state=8 3 2 2 1 "));
    assert!(text.contains("answer=0 place=97 second=0 state=8 3 2 2 1 "));
    assert_eq!(text.matches(K12).count(), 2, "the last accepted write, also after a refused one");
    assert!(text.ends_with("state=8 3 2 2 1 2 3\ntable=4 2 4 5 5 6 6 7\nhistory=1 5 8\n"));
    let output: Vec<u64> = K12.bytes().map(u64::from).collect();
    assert!(text.contains(&format!(" output={}\n", sum_to(101, &output))), "write 97");
    assert!(text.contains(&format!(" output={}\n", sum(&output[..9]))), "write 5");
    assert!(text.contains(&format!(" output={}\n", sum(&output[..4]))), "read");
}

#[test]
fn a_plan_is_built_and_goes_on() {
    let script = "lend 8 4 32\nplan 0 1 1 2 255\nplan 2 1 1\nflat 2 2 4\nshow\nflatareas 2 2 16384\nshow\ncounts\nundo\n\
                  show\nplan 1 2\nplan 2 2\nflatareas 2 2 4\nflat 1 1 4\nflat 2 2 3\nflat 2 2 4\nlend 7 4 32\nflatareas 2 2 4\n";
    let lines = short(script);
    let expected = [
        "answer=0 place=0 second=0 state=8 0 0 4 2",
        "state=8 0 0 4 2",
        "table=4 6 5 7 0 2 1 3",
        "history=",
        "answer=0 place=0 second=0 state=8 3 1 1 2",
        "state=8 3 1 1 2 3",
        "table=4 6 5 7 6 7 7 6",
        "history=1 5 9",
        "answer=0 place=0 second=0 state=8 3 1 1 2",
        "answer=0 place=0 second=0 state=8 0 0 4 2",
        "state=8 0 0 4 2",
        "table=4 6 5 7 0 2 1 3",
        "history=",
        "answer=5 place=0 second=0 state=0 0 0 0 0",
        "answer=15 place=0 second=0 state=0 0 0 0 0",
        "answer=2 place=0 second=0 state=0 0 0 0 0",
        "answer=0 place=0 second=0 state=8 0 0 4 2",
        "answer=2 place=0 second=0 state=0 0 0 0 0",
    ];
    assert_eq!(lines, expected);
}

#[test]
fn a_call_on_a_plan_prints_the_usual_line() {
    let script = "lend 4 2 16\nfill 5\nplan 0 9 9 9\nflat 1 1 3\nflatareas 1 3 3\n";
    let fives = sum(&[5; 20]);
    let line = |answer: &str, table: &[u64], history: &[u64], ends: &[u64], work: u64| {
        let (ends, table, history) = (sum_to(64, ends), sum_to(8, table), sum_to(6, history));
        format!("{answer} ends={ends} table={table} history={history} work={work} output=30784\n")
    };
    let cleared = sum(&[[0; 16].as_slice(), &[5; 4]].concat());
    let refused = line("answer=15 place=0 second=0 state=0 0 0 0 0", &[], &[], &[], fives);
    let done = line("answer=0 place=0 second=0 state=4 1 1 2 1", &[0, 2, 2, 3], &[3], &[1], cleared);
    assert_eq!(printed(script), refused + &done);
}

#[test]
fn a_lookup_prints_its_own_line() {
    let script =
        format!("{T_LENT}ends 0 3 3 4 0 6 7 8 9 10\nhistory 0 1 2 3\nfill 5\nsuccessor 8 2 6\nsuccessor 7 2 6\n");
    let (table, ends) = (sum_to(12, &[5, 2, 1, 4, 6, 0, 3, 7]), sum(&[3, 3, 4, 0, 6, 7, 8, 9]));
    let work = sum(&[[0; 32].as_slice(), &[5; 4]].concat());
    let line = |head: &str| format!("{head} table={table} ends={ends} work={work}\n");
    let found = line("answer=0 place=0 second=0 dart=6 passed=6");
    assert_eq!(printed(&script), found + &line("answer=1 place=0 second=0 dart=0 passed=0"));
}

#[test]
fn a_lookup_leaves_the_state_and_the_history() {
    let k12 = "ends 0 3 3 4 0\n";
    let script =
        format!("{T_LENT}{k12}start 8\ncontract 0 1\nsuccessor 8 1 6\ncounts\n{T_LENT}successor 8 1 6\nshow\n");
    let lines = short(&script);
    assert!(
        lines[2].starts_with("answer=4 place=0 second=0 dart=0 passed=0 table="),
        "the table of level 1 is no base"
    );
    assert_eq!(lines[3], "answer=0 place=0 second=0 state=8 2 1 2 2", "counts");
    assert!(lines[4].starts_with("answer=0 place=0 second=0 dart=5 passed=2 table="));
    assert_eq!(lines[5..], ["state=8 2 1 2 2 2", "table=5 2 1 4 6 0 3 7", "history=1 5"]);
}

#[test]
fn a_lookup_is_lent_ends_in_the_place_of_the_history() {
    let heads = |lend: &str| {
        let text = printed(&format!("lend {lend}\ntable 0 5 2 1 4 6 0 3 7\nends 0 3 3 4 0\nsuccessor 8 1 6\n"));
        text.split_once(" table=").expect("a line").0.to_string()
    };
    assert_eq!(heads("8 4 32"), "answer=0 place=0 second=0 dart=5 passed=2");
    assert_eq!(heads("65536 32768 262156"), "answer=0 place=0 second=0 dart=5 passed=2");
    for short in ["7 4 32", "8 3 32", "8 4 31", "0 0 0"] {
        assert_eq!(heads(short), "answer=2 place=0 second=0 dart=0 passed=0");
    }
}

/// What records count as: stitches, then the yarn.
const UNTOUCHED: [u64; 4] = [0, 1, 0, 0];

#[test]
fn a_call_with_sheets_prints_their_checksums_too() {
    let records = "sheet 0 7:- 9:4602678819172646913\nkept 0 3:9221120237041090561\n";
    let script = format!("lend 2 1 8\ntable 0 0 1\nsheets 2 1\n{records}yarnstart 2\n");
    let sheet = [[7, 0, 0, 0], [9, 1, 1_071_644_672, 1], UNTOUCHED, UNTOUCHED, UNTOUCHED, UNTOUCHED].concat();
    let kept = [[3, 2, 0, 0], UNTOUCHED, UNTOUCHED, UNTOUCHED, UNTOUCHED].concat();
    let expected = format!(
        "answer=0 place=0 second=0 state=2 0 0 2 1 ends={} table={} history={} work={} output=30784 sheet={} kept={}\n",
        sum_to(64, &[]),
        sum(&[0, 1, 0, 0, 0, 0]),
        sum_to(5, &[]),
        sum_to(12, &[]),
        sum(&sheet),
        sum(&kept),
    );
    assert_eq!(printed(&script), expected);
    let nothing_lent = sum(&[UNTOUCHED; 4].concat());
    assert!(printed("yarnundo\n").ends_with(&format!(" output=30784 sheet={nothing_lent} kept={nothing_lent}\n")));
}

#[test]
fn calls_with_sheets_follow_one_another_and_plain_ones() {
    let sheet = "sheets 8 4\nsheet 0 1:- 2:0\nsheet 3 3:0\nsheet 7 4:4607182418800017408\n";
    let script = format!(
        "{T_LENT}{sheet}yarnstart 8\nyarncontract 0 1\ncounts\nsheet 2 9:-\nyarnsweep\nyarnundo\nsheet 1 9:0\n\
         yarnundo\nsheet 1 2:0\nyarnunfold 0\nyarnundo\nyarnremove 1\nundo\ncontract 1\nyarnundo\nsheets 8 3\n\
         yarnundo\nsheets 8 4\nsheet 7 4:4690000000000000000\nyarnstart 8\ntable 0 5 2 1 4 6 0 3 7\nyarnstart 8\n"
    );
    let expected = [
        "answer=0 place=0 second=0 state=8 0 0 4 2",
        "answer=0 place=0 second=0 state=8 2 1 2 2",
        "answer=0 place=0 second=0 state=8 2 1 2 2",
        "answer=0 place=0 second=0 state=8 3 2 2 1",
        "answer=0 place=0 second=0 state=8 2 1 2 2",
        "answer=4 place=0 second=0 state=8 2 1 2 2",
        "answer=0 place=0 second=0 state=8 0 0 4 2",
        "answer=12 place=0 second=0 state=8 0 0 4 2",
        "answer=0 place=0 second=0 state=8 1 1 4 1",
        "answer=0 place=0 second=0 state=8 0 0 4 2",
        "answer=0 place=0 second=0 state=8 1 1 3 2",
        "answer=4 place=0 second=0 state=8 1 1 3 2",
        "answer=2 place=0 second=0 state=8 1 1 3 2",
        "answer=3 place=3 second=1 state=0 0 0 0 0",
        "answer=16 place=7 second=0 state=0 0 0 0 0",
    ];
    assert_eq!(short(&script), expected);
}

#[test]
fn a_shorter_write_is_shown_alone() {
    let two = "lend 8 4 32\ntable 0 1 0\nstart 2\nwrite 100\nbytes\n";
    let text = printed(&format!("{T_LENT}start 8\nwrite 100\n{two}"));
    assert!(text.ends_with("\nnumbers=0\ndarts=2\nlevels=0\npair=1 0\n"));
}

#[test]
fn the_bytes_of_a_read_count_with_its_line() {
    let script = format!("lend 8 4 32\nread {}\n{K12}\nnothing\n", K12.len());
    let lines = short(&script);
    assert_eq!(lines, ["answer=0 place=0 second=0 state=8 3 2 2 1", "error=3"]);
    assert_eq!(short("read 0\n\nread 2\n\n\n\nshow 1\n")[..2], ["answer=13 place=0 second=0 state=0 0 0 0 0"; 2]);
    assert_eq!(short("read 0\n\nread 2\n\n\n\nshow 1\n")[2], "error=3");
}

#[test]
fn numbers_may_have_leading_zeros() {
    assert_eq!(printed("state 00000000000000000001 02 0\nshow\n"), "state=1 2 0 0 0\ntable=\nhistory=\n");
}

#[test]
fn the_ends_of_the_rooms_can_be_used() {
    let script = "lend 65536 32768 262156\ntable 65539 1\nhistory 32770 1 2\nwork 262159 1\ntable 4294967295\n\
                  history 4294967295\nwork 4294967295\nends 32770 1 4294967295\nends 4294967295\n\
                  plan 16387 255\nplan 4294967295\nstate 1 2 3";
    assert_eq!(printed(&format!("{script}{}\n", " 0".repeat(64))), "");
    assert_eq!(short("write 599996\n"), ["answer=1 place=0 second=0 state=0 0 0 0 0"]);
    assert_eq!(
        short("flat 4294967295 0 16384\nflatareas 1 2 0\n"),
        ["answer=15 place=0 second=0 state=0 0 0 0 0", "answer=2 place=0 second=0 state=0 0 0 0 0"]
    );
    assert_eq!(printed(&format!("plan 0{}\n", " 255".repeat(16_388))), "");
    assert_eq!(printed(&format!("ends 0{}\n", " 255".repeat(32_772))), "");
    for word in ["contract", "yarnremove"] {
        assert_eq!(short(&format!("{word}{}\n", " 1".repeat(32_772))), ["answer=1 place=0 second=0 state=0 0 0 0 0"]);
    }
    assert_eq!(printed("sheets 65536 32768\nsheet 65539 1:-\nkept 32771 1:0\nsheet 4294967295\nkept 4294967295\n"), "");
    let most = "sheet 0 4294967295:18446744073709551615 0004294967295:000018446744073709551615 00:00 00:-\n";
    assert_eq!(printed(most), "");
}

#[test]
fn error_lines() {
    let too_many_ends = format!("state 1 2 3{}\n", " 0".repeat(65));
    let too_many_edges = format!("remove{}\n", " 1".repeat(32_773));
    let too_many_for_yarn = format!("yarncontract{}\n", " 1".repeat(32_773));
    let errors = [
        "\n", " \n", " show\n", "show \n", "show\r\n", "show\t\n", "show", "Show\n", "shows\n", "show 1\n",
        "bytes 1\n", "lend\n", "lend 1 2\n", "lend 1 2 3 4\n", "lend 65537 0 0\n", "lend 0 32769 0\n",
        "lend 0 0 262157\n", "lend 4294967295 0 0\n", "table\n", "table 65540 1\n", "table 65539 1 2\n",
        "table 4294967295 1\n", "history\n", "history 32772 1\n", "work\n", "work 262160 1\n", "work 0 4294967296\n",
        "work 0 -1\n", "work 0  1\n", "work 0 1 \n", "work 0\t1\n", "fill\n", "fill 1 2\n", "state\n", "state 1 2\n",
        "stored\n", "stored 4\n", "stored 4 2 1\n", "stored 4 2 \n", "stored 4  2\n", "stored 4 x\n", "stored -4 2\n",
        "stored 4 4294967296\n", "stored 4294967296 2\n", "stored", "stored 4 2", "store 4 2\n", "Stored 4 2\n",
        "stored4 2\n", "start\n", "start 1 2\n", "start x\n", "start 8x\n", "start +8\n",
        "start 99999999999999999999\n", "start 8", "contract \n", "contract 1,2\n", "contract 4294967296\n",
        "remove x\n", "sweep 1\n", "undo 1\n", "unfold\n", "unfold 1 2\n", "counts 1\n", "read\n", "read 1\n",
        "read 1\n\n", "read 1\nab\n", "read 0\n", "read 4294967295\nabc\n", "read 3\nabc", "write\n", "write 1 2\n",
        "write 599997\n", "write 4294967295\n", "plan\n", "plan x\n", "plan 0 256\n", "plan 0 1 4294967295\n",
        "plan 16388 1\n", "plan 16387 1 2\n", "plan 4294967295 1\n", "plan 4294967296\n", "plan 0 -1\n", "plan 0 1 \n",
        "plan 0 A\n", "flat\n", "flat 2 2\n", "flat 2 2 4 4\n", "flat 2 2 16385\n", "flat 0 0 16385\n", "flatareas\n",
        "flatareas 2 2\n", "flatareas 2 2 4294967295\n", "flatareas 2 2 4 4\n", "flatarea 2 2 4\n",
        "flat areas 2 2 4\n", "tube 2 2 4\n", "ends\n", "ends x\n", "ends 32772 1\n", "ends 32771 1 2\n",
        "ends 4294967295 1\n", "ends 4294967296\n", "ends 0 4294967296\n", "ends 0 -1\n", "ends 0 1 \n", "ends 0  1\n",
        "end 0 1\n", "Ends 0 1\n", "successor\n", "successor 8\n", "successor 8 1\n", "successor 8 1 6 0\n",
        "successor 8 1 \n", "successor 8  1 6\n", "successor 8 1 x\n", "successor 8 1 4294967296\n",
        "successors 8 1 6\n", "zones\n", "sheet\n", "sheet x\n", "sheet 4294967296\n", "sheet 0 0\n", "sheet 0 0:\n",
        "sheet 0 :0\n", "sheet 0 :\n", "sheet 0 0:0:0\n", "sheet 0 0:-1\n", "sheet 0 0:--\n", "sheet 0 -:0\n",
        "sheet 0 0:0 \n", "sheet 0  0:0\n", "sheet 0 0: 0\n", "sheet 0 4294967296:0\n",
        "sheet 0 0:18446744073709551616\n", "sheet 0 0:0.5\n", "sheet 0:0\n", "sheet 65540 0:0\n",
        "sheet 65539 0:0 0:0\n", "sheet 4294967295 0:0\n", "sheet 0 0:0 1\n", "Sheet 0 0:0\n", "kept\n", "kept 0 0\n",
        "kept 32772 0:-\n", "kept 32771 0:- 0:-\n", "kept 0 x:0\n", "sheets\n", "sheets 8\n", "sheets 8 4 0\n",
        "sheets 65537 0\n", "sheets 0 32769\n", "sheets 0 4294967295\n", "sheets x 0\n", "yarn\n", "yarnstart\n",
        "yarnstart 8 8\n", "yarncontract \n", "yarncontract x\n", "yarnremove 4294967296\n", "yarnsweep 1\n",
        "yarnundo 1\n", "yarnunfold\n", "yarnunfold 1 2\n", "yarncounts\n", "yarn start 8\n", "\u{e4}\n",
        &too_many_ends, &too_many_edges, &too_many_for_yarn,
    ];
    for line in errors {
        assert_eq!(printed(line), "error=1\n", "{line:?}");
        assert_eq!(
            short(&format!("undo\n{line}")),
            ["answer=1 place=0 second=0 state=0 0 0 0 0", "error=2"],
            "{line:?}"
        );
    }
}

#[test]
fn nothing_follows_an_error_line() {
    assert_eq!(printed("fill 1\n\nshow\nundo\n"), "error=2\n");
}

#[test]
fn a_script_may_have_three_million_bytes() {
    let line = "fill 1\n";
    let script = line.repeat(3_000_000 / line.len() - 1) + "x";
    let script = format!("{}{script}", "\n".repeat(3_000_000 - script.len()));
    assert_eq!(script.len(), 3_000_000);
    assert_eq!(printed(&script), "error=1\n");
    assert_eq!(printed(&format!("{script}\n")), "error=0\n");
}
