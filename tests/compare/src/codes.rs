//! Plans: a grid and a code for each of its cells
//!
//! small    == up to 9 by 9 cells, one wide and one high too, of one code or of several
//! large    == as large as a plan can be, or nearly, with areas as in a garment
//! bad_size == a size outside the limits, or one cell alone

use crate::chance::Chance;
use second::plan::{Grid, Plan};
use second::pyramid::Pyramid;

/// A size within the limits, and its codes.
#[derive(Clone)]
pub struct Cells {
    pub grid: Grid,
    pub codes: Vec<u8>,
}

impl Cells {
    /// The pyramid that a call on this plan leaves: the base, or the base with its first kernel, if that takes an edge.
    pub fn pyramid(&self, areas: bool) -> Option<Pyramid> {
        let plan = Plan::lent(self.grid, &self.codes).expect("a code for each cell");
        let pyramid = if areas { plan.areas() } else { plan.base() };
        pyramid.ok()
    }
}

/// Two cells at least.
fn sized(wales: u32, courses: u32) -> Grid {
    let courses = if (wales, courses) == (1, 1) { 2 } else { courses };
    Grid { wales, courses }
}

pub fn small(chance: &mut Chance) -> Cells {
    let most = chance.pick(&[2, 5, 9]);
    let (wales, courses) = (chance.between(1, most), chance.between(1, most));
    let grid = match chance.below(6) {
        0 => sized(1, courses),
        1 => sized(wales, 1),
        _ => sized(wales, courses),
    };
    let codes = any_codes(chance, grid);
    Cells { grid, codes }
}

/// One code, few codes, any codes, or bands that go along the courses or the wales.
fn any_codes(chance: &mut Chance, grid: Grid) -> Vec<u8> {
    let few = [chance.pick(b"AB\0"), chance.pick(b"CD\xff"), chance.pick(b"EF\n"), chance.pick(b"GH\r")];
    let number = 1 + chance.place(few.len());
    let way = chance.below(12);
    let mut code = |(x, y): (u32, u32)| match way {
        0 => few[0],
        1 => chance.below(256) as u8,
        2 => few[x as usize / 2 % number],
        3 => few[y as usize / 2 % number],
        _ => chance.pick(&few[..number]),
    };
    grid.cells().map(&mut code).collect()
}

/// 128 by 128, or one side or both a little less or far less; its darts are 4,096 at least but in a thin plan.
pub fn large(chance: &mut Chance) -> Cells {
    let least = chance.pick(&[128, 127, 60]);
    let (wales, courses) = (chance.between(least, 128), chance.between(least, 128));
    let grid = match chance.below(8) {
        0 => Grid { wales: 1, courses },
        1 => Grid { wales, courses: 1 },
        _ => Grid { wales, courses },
    };
    let codes = garment(chance, grid);
    Cells { grid, codes }
}

/// Bands, a panel, or stitches here and there: areas that go round others, and areas of one cell.
fn garment(chance: &mut Chance, grid: Grid) -> Vec<u8> {
    let (across, along) = (chance.between(1, 40), chance.between(1, 40));
    let (middle, radius) = ((chance.below(128), chance.below(128)), chance.between(5, 60));
    let way = chance.below(5);
    let one_in = chance.pick(&[2, 5, 30, 1_000]);
    let mut code = |(x, y): (u32, u32)| match way {
        0 => b'B',
        1 => b'A' + ((x / across + y / along) % 5) as u8,
        2 if x.abs_diff(middle.0).max(y.abs_diff(middle.1)) == radius => b'L',
        2 | 3 if chance.one_in(one_in) => b'S',
        4 => chance.below(256) as u8,
        _ => b'B',
    };
    grid.cells().map(&mut code).collect()
}

/// A size that is 15, near the one given or far from it.
pub fn bad_size(chance: &mut Chance, grid: Grid) -> Grid {
    let far = chance.pick(&[0, 129, 130, 255, 256, 16_384, 65_536, 1 << 31, u32::MAX]);
    match chance.below(5) {
        0 => Grid { wales: 1, courses: 1 },
        1 | 2 => Grid { wales: far, ..grid },
        3 => Grid { courses: far, ..grid },
        _ => Grid { wales: far, courses: chance.pick(&[0, 1, 129, u32::MAX]) },
    }
}
