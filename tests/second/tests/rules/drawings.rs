//! The program `plan`: drawings, what their files hold, and what is wrong with others.

use second::drawing::{areas, base};
use second::levels;

/// The brief of samples/ as one draws it.
const BRIEF: &str = "WWWWW\nBBBBB\nLBBBR\nLLBRR\n";

fn text(bytes: Vec<u8>) -> String {
    String::from_utf8(bytes).expect("plain letters")
}

/// Both forms of the program print this.
fn both_print(drawing: &[u8], line: &str) {
    let shown = drawing.escape_ascii().to_string();
    let shown = &shown[..shown.len().min(100)];
    assert_eq!(text(areas(drawing)), line, "{shown}");
    assert_eq!(text(base(drawing)), line, "{shown}");
}

#[test]
fn the_highest_course_is_drawn_first() {
    // Three wales and two courses: the lower one AAB, the upper one ACC.
    let file = "numbers=0\ndarts=14\nlevels=0\n\
                pair=8 2\npair=10 12\npair=9 11\npair=5 13\npair=0 4\npair=1 6\npair=3 7\n";
    assert_eq!(text(base(b"ACC\nAAB\n")), file);
    // The first kernel takes edges 0, 3 and 4; so darts 0, 1, 6, 7, 8, 9 come first. With the courses exchanged it would
    // be edges 1, 2 and 4.
    let lines = text(areas(b"ACC\nAAB\n"));
    assert!(lines.starts_with("numbers=0\ndarts=14\nlevels=1\nkernel=contract 3\npair="));
    assert_ne!(lines, text(areas(b"AAB\nACC\n")));
}

#[test]
fn the_brief_is_the_one_of_the_samples() {
    assert_eq!(text(base(BRIEF.as_bytes())), include_str!("../../../../samples/brief-plan.txt"));
    let report = levels::report(&areas(BRIEF.as_bytes()));
    let expected =
        "level=0 darts=62 vertices=20 faces=13 euler=2\nlevel=1 darts=30 vertices=4 faces=13 euler=2\nend=ok\n";
    assert_eq!(report, expected);
}

#[test]
fn any_byte_but_the_line_feed_is_a_code() {
    assert_eq!(areas(b"\r\r\0\n \xff\t\n"), areas(b"AAB\nCDE\n"));
    assert_eq!(text(areas(b"A\r\n\r\r\n")), text(areas(b"AB\nBB\n")));
}

#[test]
fn a_size_outside_the_limits_is_refused() {
    let course = |wales: usize| [vec![b'A'; wales], b"\n".to_vec()].concat();
    let sizes = [(0, 0), (0, 1), (0, 2), (0, 129), (1, 1), (129, 1), (1, 129), (129, 2), (128, 129), (65_535, 1)];
    for (wales, courses) in sizes {
        both_print(&course(wales).repeat(courses), "refusal=15 place=0\n");
    }
    for (wales, courses) in [(128, 1), (1, 128), (128, 128)] {
        assert!(areas(&course(wales).repeat(courses)).starts_with(b"numbers=0\n"));
    }
}

#[test]
fn a_plan_without_two_neighbours_to_join_is_refused() {
    for drawing in ["AB\n", "AA\n", "A\nA\n", "AB\nBA\n", "ABC\nCAB\n"] {
        assert_eq!(text(areas(drawing.as_bytes())), "refusal=5 place=0\n");
        assert!(base(drawing.as_bytes()).starts_with(b"numbers=0\n"));
    }
}

#[test]
fn the_first_line_out_of_form_is_told() {
    let rows: [(&str, usize); 14] = [
        ("A", 1),
        ("AB", 1),
        ("AB\nAB", 2),
        ("AB\nABC\n", 2),
        ("AB\nA\n", 2),
        ("AB\n\n", 2),
        ("AB\nABC", 2),
        ("AB\nABC\nABC\n", 2),
        ("AB\nABC\nAB", 2),
        ("AB\nAB\nA\nAB\n", 3),
        ("\nA\n", 2),
        ("\n\nA", 3),
        ("AB\r\nAB\n", 2),
        ("AB\n\nAB\n", 2),
    ];
    for (drawing, line) in rows {
        both_print(drawing.as_bytes(), &format!("error={line}\n"));
    }
}

#[test]
fn the_form_is_judged_before_the_size() {
    both_print(format!("{}A", "A\n".repeat(200)).as_bytes(), "error=201\n");
    both_print(format!("{}\nA\n", "A".repeat(500)).as_bytes(), "error=2\n");
}

#[test]
fn a_drawing_may_have_65_536_bytes() {
    let line = format!("{}\n", "A".repeat(127));
    both_print(line.repeat(512).as_bytes(), "refusal=15 place=0\n");
    both_print(format!("{}A", "A\n".repeat(32_767)).as_bytes(), "error=32768\n");
    both_print(&[b'\n'; 65_536], "refusal=15 place=0\n");
    both_print(&[b'\n'; 65_537], "error=0\n");
    both_print(line.repeat(513).as_bytes(), "error=0\n");
    both_print(&[b'A'; 70_000], "error=0\n");
}
