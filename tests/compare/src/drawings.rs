//! Group `drawings`: drawn plans for the program `plan`, with its word `base` and without, each a run of its own

use crate::chance::Chance;
use crate::codes::{self, Cells};
use crate::input::{Input, Program};
use second::drawing::MOST_BYTES;

/// The group's seeds start here.
const SEEDS: u64 = 7 << 32;

pub fn input(drawing: usize) -> Input {
    let mut chance = Chance::new(SEEDS + drawing as u64);
    let program = chance.pick(&[Program::Plan, Program::PlanBase]);
    // The large ones come last, so that a fault that shows on any drawing is found on a small one.
    let mut bytes = match drawing % 1_000 {
        960.. => drawn(&codes::large(&mut chance)),
        _ => drawn(&codes::small(&mut chance)),
    };
    if chance.one_in(2) {
        let damage = chance.weighed(&DAMAGES);
        bytes = damage(bytes, &mut chance);
    }
    Input::text(program, &bytes)
}

/// A line for each course, the highest first. A code that is a line feed is drawn as an N.
fn drawn(plan: &Cells) -> Vec<u8> {
    let mut drawing = Vec::new();
    for course in plan.codes.chunks(plan.grid.wales as usize).rev() {
        drawing.extend(course.iter().map(|&code| if code == b'\n' { b'N' } else { code }));
        drawing.push(b'\n');
    }
    drawing
}

type Damage = fn(Vec<u8>, &mut Chance) -> Vec<u8>;

const DAMAGES: [(u32, Damage); 13] = [
    (4, change_byte),
    (3, insert_byte),
    (3, drop_byte),
    (3, cut),
    (2, no_last_feed),
    (3, drop_line),
    (2, empty_line),
    (2, first_line_alone),
    (2, returns),
    (2, out_of_limits),
    (1, no_cells),
    (1, one_cell),
    (1, near_the_longest),
];

/// A code, or a line feed.
fn any_byte(chance: &mut Chance) -> u8 {
    chance.pick(b"\n\n\r AB\0\xff")
}

fn change_byte(mut drawing: Vec<u8>, chance: &mut Chance) -> Vec<u8> {
    let place = chance.place(drawing.len());
    drawing[place] = any_byte(chance);
    drawing
}

fn insert_byte(mut drawing: Vec<u8>, chance: &mut Chance) -> Vec<u8> {
    drawing.insert(chance.place(drawing.len()), any_byte(chance));
    drawing
}

fn drop_byte(mut drawing: Vec<u8>, chance: &mut Chance) -> Vec<u8> {
    drawing.remove(chance.place(drawing.len()));
    drawing
}

fn cut(mut drawing: Vec<u8>, chance: &mut Chance) -> Vec<u8> {
    drawing.truncate(chance.place(drawing.len()));
    drawing
}

fn no_last_feed(mut drawing: Vec<u8>, _: &mut Chance) -> Vec<u8> {
    drawing.pop();
    drawing
}

fn lines(drawing: &[u8]) -> Vec<Vec<u8>> {
    drawing.split_inclusive(|&byte| byte == b'\n').map(<[u8]>::to_vec).collect()
}

/// A drawing all the same, though perhaps of one cell or none.
fn drop_line(drawing: Vec<u8>, chance: &mut Chance) -> Vec<u8> {
    let mut lines = lines(&drawing);
    lines.remove(chance.place(lines.len()));
    lines.concat()
}

fn empty_line(drawing: Vec<u8>, chance: &mut Chance) -> Vec<u8> {
    let mut lines = lines(&drawing);
    lines.insert(chance.place(lines.len() + 1), b"\n".to_vec());
    lines.concat()
}

/// One course, which has no two equal neighbours more often than a whole plan.
fn first_line_alone(drawing: Vec<u8>, _: &mut Chance) -> Vec<u8> {
    lines(&drawing).swap_remove(0)
}

/// "A carriage return is a byte like any other": one at the end of each line, or of one.
fn returns(drawing: Vec<u8>, chance: &mut Chance) -> Vec<u8> {
    let mut lines = lines(&drawing);
    let only = chance.one_in(2).then(|| chance.place(lines.len()));
    for (place, line) in lines.iter_mut().enumerate() {
        if only.is_none_or(|only| only == place) {
            line.insert(line.len() - 1, b'\r');
        }
    }
    lines.concat()
}

/// A wale or a course more than there may be, or many more; now and then a line out of form at the end.
fn out_of_limits(_: Vec<u8>, chance: &mut Chance) -> Vec<u8> {
    let (wales, courses) = match chance.below(4) {
        0 => (129, chance.between(1, 3)),
        1 => (chance.between(1, 3), 129),
        2 => (chance.pick(&[200, 30_000]), chance.between(1, 2)),
        _ => (chance.between(1, 128), chance.between(129, 500)),
    };
    let line = [vec![b'A'; wales as usize], b"\n".to_vec()].concat();
    let mut drawing = line.repeat(courses as usize);
    if chance.one_in(3) {
        drawing.push(any_byte(chance));
    }
    drawing
}

/// Nothing at all, or lines without a cell.
fn no_cells(_: Vec<u8>, chance: &mut Chance) -> Vec<u8> {
    vec![b'\n'; chance.pick(&[0, 1, 2, 128, 129])]
}

fn one_cell(_: Vec<u8>, _: &mut Chance) -> Vec<u8> {
    b"A\n".to_vec()
}

/// As long as a drawing may be, a byte less, a byte more, or far more.
fn near_the_longest(_: Vec<u8>, chance: &mut Chance) -> Vec<u8> {
    let length = chance.pick(&[MOST_BYTES - 1, MOST_BYTES, MOST_BYTES + 1, 3 * MOST_BYTES]);
    let line = chance.pick(&[b"A\n".as_slice(), b"\n", b"AAAAAAA\n", b"A"]);
    line.iter().copied().cycle().take(length).collect()
}
