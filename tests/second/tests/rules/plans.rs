//! The two calls on a plan: the base that they build, the first kernel, what is left, and the answers.

use std::collections::BTreeSet;

use crate::accepted::leaves;
use crate::support::chance::Chance;
use crate::support::lot::{stored, Call, Lot};
use crate::support::maps::k7;
use second::counts::counts;
use second::decide::map_of;
use second::operation::{edge_of, Kind};
use second::plan::{Cell, Grid};

/// How many random plans each property is tried on.
const TRIES: u64 = 20_000;

/// The brief of samples/, lowest course first.
const BRIEF: &[u8] = b"LLBRRLBBBRBBBBBWWWWW";

fn grid(wales: u32, courses: u32) -> Grid {
    Grid { wales, courses }
}

/// Room for a plan of this size, with a state and numbers that have nothing to do with it.
fn room(grid: Grid) -> Lot {
    let darts = grid.darts() as usize;
    Lot::new(k7().state, &vec![9; darts], &vec![9; darts / 2])
}

/// The lot that a plan's first kernel leaves; none where it takes no edge.
fn areas(grid: Grid, codes: &[u8]) -> Option<Lot> {
    let mut lot = room(grid);
    let number = lot.call(&Call::FlatAreas(grid, codes)).answer.number;
    assert!(number == 0 || number == 5);
    (number == 0).then_some(lot)
}

/// The edges of a plan's first kernel.
fn kernel(wales: u32, courses: u32, codes: &[u8]) -> Vec<u32> {
    let numbers = areas(grid(wales, courses), codes).map_or(Vec::new(), |lot| lot.numbers().to_vec());
    numbers.into_iter().map(edge_of).collect()
}

#[test]
fn bases_worked_by_hand() {
    let rows: [(u32, u32, &[u32]); 6] = [
        (2, 1, &[0, 1]),
        (1, 2, &[0, 1]),
        (3, 1, &[0, 2, 1, 3]),
        (1, 3, &[0, 2, 1, 3]),
        (2, 2, &[4, 6, 5, 7, 0, 2, 1, 3]),
        (3, 2, &[8, 2, 10, 12, 9, 11, 5, 13, 0, 4, 1, 6, 3, 7]),
    ];
    for (wales, courses, table) in rows {
        assert_eq!(grid(wales, courses).table(), table);
    }
}

/// The darts at a cell by their numbers alone: right, up, left, down.
fn round_by_numbers(grid: Grid, (x, y): Cell) -> Vec<u32> {
    let Grid { wales, courses } = grid;
    let along = |x: u32, y: u32| y * (wales - 1) + x;
    let upright = |x: u32, y: u32| (wales - 1) * courses + y * wales + x;
    let right = (x + 1 < wales).then(|| 2 * along(x, y));
    let up = (y + 1 < courses).then(|| 2 * upright(x, y));
    let left = (x > 0).then(|| 2 * along(x - 1, y) + 1);
    let down = (y > 0).then(|| 2 * upright(x, y - 1) + 1);
    [right, up, left, down].into_iter().flatten().collect()
}

#[test]
fn bases_are_what_their_numbers_give() {
    let sizes = (1..=12).flat_map(|wales| (1..=12).map(move |courses| grid(wales, courses)));
    for grid in sizes.chain([grid(128, 128), grid(1, 128), grid(128, 1)]) {
        let table = grid.table();
        for cell in grid.cells() {
            let round = round_by_numbers(grid, cell);
            for (place, &dart) in round.iter().enumerate() {
                assert_eq!(table[dart as usize], round[(place + 1) % round.len()], "{grid:?}, dart {dart}");
            }
        }
        let Grid { wales, courses } = grid;
        assert_eq!(table.len() as u32, 2 * ((wales - 1) * courses + wales * (courses - 1)));
        assert_eq!(table.len() as u32, grid.darts());
    }
}

#[test]
fn a_base_has_a_vertex_for_each_cell_and_a_face_for_each_four() {
    for grid in [grid(2, 1), grid(1, 5), grid(4, 3), grid(128, 128)] {
        let mut lot = room(grid);
        lot.accept(&Call::Flat(grid, &[0; 16_384]));
        let counts = lot.accept(&Call::Counts).counts;
        assert_eq!(counts.vertices, grid.wales * grid.courses);
        assert_eq!(counts.faces, (grid.wales - 1) * (grid.courses - 1) + 1);
        assert_eq!(counts.euler, 2);
    }
}

#[test]
fn kernels_worked_by_hand() {
    // The last edge of a square of one code has one vertex at both ends: 9.
    assert_eq!(kernel(2, 2, b"AAAA"), [0, 1, 2]);
    // The last edge of a row of one code is a whole piece: 11.
    assert_eq!(kernel(1, 3, b"AAA"), [0]);
    assert_eq!(kernel(3, 1, b"AAA"), [0]);
    assert_eq!(kernel(4, 1, b"AAAA"), [0, 1]);
    assert_eq!(kernel(1, 3, b"AAB"), [0]);
    assert_eq!(kernel(1, 3, b"ABB"), [1]);
    // The upright edges come last, by their lower cells.
    assert_eq!(kernel(3, 2, b"AABACC"), [0, 3, 4]);
    assert_eq!(kernel(2, 3, b"ABABAB"), [3, 4, 5, 6]);
}

#[test]
fn the_brief_is_the_one_of_the_samples() {
    // samples/brief.script: its table, and its first kernel.
    let script = include_str!("../../../../samples/brief.script");
    let numbers = |line: &str| line.split(' ').skip(1).map(|word| word.parse().expect("a number")).collect();
    let table = script.lines().filter(|line| line.starts_with("table ")).flat_map(|line| {
        let numbers: Vec<u32> = numbers(line);
        numbers[1..].to_vec()
    });
    assert_eq!(grid(5, 4).table(), table.collect::<Vec<_>>());
    let contract = script.lines().find(|line| line.starts_with("contract ")).expect("a kernel");
    assert_eq!(kernel(5, 4, BRIEF), numbers(contract));
}

/// Each cell's area of one code: the number of the area's first cell.
fn flooded(grid: Grid, codes: &[u8]) -> Vec<usize> {
    let cells: Vec<Cell> = grid.cells().collect();
    let mut area: Vec<Option<usize>> = vec![None; cells.len()];
    for first in 0..cells.len() {
        let mut wet = vec![first];
        while let Some(cell) = wet.pop() {
            if area[cell].is_none() {
                area[cell] = Some(first);
                let dry = (0..cells.len()).filter(|&other| codes[other] == codes[cell]);
                wet.extend(dry.filter(|&other| area[other].is_none() && beside(cells[cell], cells[other])));
            }
        }
    }
    area.into_iter().map(|area| area.expect("each cell was the first at the latest")).collect()
}

fn beside(one: Cell, other: Cell) -> bool {
    one.0.abs_diff(other.0) + one.1.abs_diff(other.1) == 1
}

/// Random plans of up to 7 by 7 cells, often of few codes.
fn on_random_plans(property: impl Fn(Grid, &[u8])) {
    for seed in 0..TRIES {
        let mut chance = Chance::new(seed);
        let grid = grid(1 + chance.below(7), 1 + chance.below(7));
        let most = 1 + chance.below(4);
        let codes: Vec<u8> = grid.cells().map(|_| chance.below(most) as u8).collect();
        if grid.judge().is_ok() {
            property(grid, &codes);
        }
    }
}

/// The cell at which each dart stands.
fn cells_of_darts(grid: Grid) -> Vec<usize> {
    let place = |(x, y): Cell| (y * grid.wales + x) as usize;
    grid.edges().into_iter().flat_map(|(one, other)| [place(one), place(other)]).collect()
}

#[test]
fn vertices_are_exactly_the_areas_but_in_a_row_of_one_code() {
    on_random_plans(|grid, codes| {
        let flooded = flooded(grid, codes);
        let number = flooded.iter().collect::<BTreeSet<_>>().len() as u32;
        let row = grid.wales == 1 || grid.courses == 1;
        let one_edge_stays = u32::from(row && number == 1);
        let Some(lot) = areas(grid, codes) else {
            assert_eq!(number + one_edge_stays, grid.wales * grid.courses, "no two neighbours, or two alone");
            return;
        };
        let map = map_of(lot.entries(), lot.numbers()).expect("a map");
        assert_eq!(counts(&map).vertices, number + one_edge_stays);
        let cells = cells_of_darts(grid);
        let area = |dart: u32| flooded[cells[dart as usize]];
        for p in map.survivors() {
            for q in map.survivors().filter(|&q| q != p) {
                let one_area = area(p) == area(q) && one_edge_stays == 0;
                assert_eq!(map.same_vertex(p, q), one_area, "{grid:?} {codes:?}: darts {p} and {q}");
            }
        }
    });
}

#[test]
fn undone_it_is_the_base() {
    on_random_plans(|grid, codes| {
        if let Some(mut lot) = areas(grid, codes) {
            lot.accept(&Call::Undo);
            assert_eq!(lot.entries(), grid.table());
            let (cells, meshes) = (grid.wales * grid.courses, (grid.wales - 1) * (grid.courses - 1));
            assert_eq!(lot.state, stored(grid.darts(), 0, &[], (cells, meshes + 1)), "{grid:?}");
        }
    });
}

#[test]
fn the_first_kernel_is_a_contraction_kernel_on_the_base() {
    on_random_plans(|grid, codes| {
        if let Some(at_once) = areas(grid, codes) {
            let mut in_turn = room(grid);
            in_turn.accept(&Call::Flat(grid, codes));
            let edges: Vec<u32> = at_once.numbers().iter().map(|&number| edge_of(number)).collect();
            assert!(edges.is_sorted());
            in_turn.accept(&Call::Reduce(Kind::Contract, &edges));
            assert_eq!(at_once, in_turn);
        }
    });
}

#[test]
fn what_is_left() {
    let square = grid(2, 2);
    let base = [4, 6, 5, 7, 0, 2, 1, 3];
    let longer = b"AAAAB";
    leaves(&room(square), &Call::Flat(square, longer), stored(8, 0, &[], (4, 2)), &base, &[]);
    // Contract 0: before 0 is 4, before 1 is 6; 4 leads to 6 and 6 to 4. Contract 1: 5 to 7 and 7 to 5. Contract 2: before 4 is
    // 6, before 5 is 7; 6 leads to 7 and 7 to 6.
    let top = [4, 6, 5, 7, 6, 7, 7, 6];
    leaves(&room(square), &Call::FlatAreas(square, longer), stored(8, 3, &[3], (1, 2)), &top, &[1, 5, 9]);
    // More is lent than a plan of two cells asks for.
    let pair = grid(2, 1);
    leaves(&room(square), &Call::Flat(pair, b"AA"), stored(2, 0, &[], (2, 1)), &[0, 1], &[]);
    // Edge 0 is pending at its even dart: turned round, the dart before 1, which is 2, leads to 2.
    let cord = grid(1, 3);
    leaves(&room(square), &Call::FlatAreas(cord, b"AAAA"), stored(4, 1, &[1], (2, 1)), &[0, 2, 2, 3], &[3]);
}

#[test]
fn the_largest_plan() {
    let largest = grid(128, 128);
    assert_eq!(largest.darts(), 65_024);
    let codes = [7; 16_384];
    let lot = areas(largest, &codes).expect("a plan of one code");
    assert_eq!(lot.state, stored(65_024, 16_383, &[16_383], (1, 16_130)));
    room(largest).refuse(&Call::Flat(largest, &codes[1..]), 2, 0, 0);
    let chequers: Vec<u8> = largest.cells().map(|(x, y)| ((x + y) % 2) as u8).collect();
    room(largest).refuse(&Call::FlatAreas(largest, &chequers), 5, 0, 4 * 65_024);
}

const BAD_SIZES: [(u32, u32); 12] = [
    (1, 1),
    (0, 0),
    (0, 1),
    (1, 0),
    (0, 5),
    (5, 0),
    (129, 1),
    (1, 129),
    (129, 128),
    (128, u32::MAX),
    (u32::MAX, u32::MAX),
    (65_536, 65_536),
];

#[test]
fn answer_15_comes_first_and_nothing_is_written() {
    let nothing_lent = Lot { state: k7().state, table: vec![], history: vec![], work: vec![], output: vec![] };
    for (wales, courses) in BAD_SIZES {
        let grid = grid(wales, courses);
        for lot in [&nothing_lent, &k7()] {
            for codes in [b"".as_slice(), &[1; 16_384]] {
                lot.refuse(&Call::Flat(grid, codes), 15, 0, 0);
                lot.refuse(&Call::FlatAreas(grid, codes), 15, 0, 0);
            }
        }
    }
}

#[test]
fn answer_2_comes_next_and_nothing_is_written() {
    let cord = grid(1, 3);
    let mut lots = [room(cord), room(cord), room(cord)];
    lots[0].table.truncate(3);
    lots[1].history.truncate(1);
    lots[2].work.truncate(15);
    for lot in lots {
        for codes in [b"AAA", b"ABC"] {
            lot.refuse(&Call::Flat(cord, codes), 2, 0, 0);
            lot.refuse(&Call::FlatAreas(cord, codes), 2, 0, 0);
        }
    }
    for short in [b"".as_slice(), b"AA", b"AB"] {
        room(cord).refuse(&Call::Flat(cord, short), 2, 0, 0);
        room(cord).refuse(&Call::FlatAreas(cord, short), 2, 0, 0);
    }
}

#[test]
fn answer_5_where_the_first_kernel_takes_no_edge() {
    let rows: [(u32, u32, &[u8]); 7] = [
        (2, 1, b"AA"),
        (1, 2, b"AA"),
        (2, 1, b"AB"),
        (1, 3, b"ABA"),
        (3, 1, b"ABC"),
        (2, 2, b"ABBA"),
        (3, 2, b"ABCBCA"),
    ];
    for (wales, courses, codes) in rows {
        let grid = grid(wales, courses);
        room(grid).refuse(&Call::FlatAreas(grid, codes), 5, 0, 4 * grid.darts() as usize);
        room(grid).accept(&Call::Flat(grid, codes));
    }
}
