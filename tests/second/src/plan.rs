//! Cell  == a cell's wale and course, both from 0
//! Grid  == how many wales and courses there are, and the map of their cells
//! Plan  == "a grid of stitch codes, one byte a cell, lowest course first and each from the left"
//! base  == the map of a plan's grid
//! areas == the base with the first kernel over it

use std::collections::HashMap;

use crate::answer::Refusal;
use crate::kernel::judge;
use crate::map::{Dart, Map};
use crate::operation::{operate, Kind};
use crate::pyramid::Pyramid;

/// "1 to 128 wales by 1 to 128 courses"
const MOST: u32 = 128;

pub type Cell = (u32, u32);

#[derive(Clone, Copy, Debug, PartialEq, Eq)]
pub struct Grid {
    pub wales: u32,
    pub courses: u32,
}

impl Grid {
    /// "15, plan size outside the limits, or one cell alone; judged first"
    pub fn judge(self) -> Result<(), Refusal> {
        let within = |number: u32| (1..=MOST).contains(&number);
        if !within(self.wales) || !within(self.courses) || (self.wales, self.courses) == (1, 1) {
            return Err(Refusal::PlanSize);
        }
        Ok(())
    }

    /// "lowest course first and each from the left"
    pub fn cells(self) -> impl Iterator<Item = Cell> {
        (0..self.courses).flat_map(move |course| (0..self.wales).map(move |wale| (wale, course)))
    }

    /// "an edge joins each cell to its neighbour in wale and in course, edges along the courses first, course by course,
    /// then the upright ones by their lower cells in the plan's order": the left or lower cell, then the other.
    pub fn edges(self) -> Vec<(Cell, Cell)> {
        let along = self.cells().filter(|&(x, _)| x + 1 < self.wales).map(|(x, y)| ((x, y), (x + 1, y)));
        let upright = self.cells().filter(|&(_, y)| y + 1 < self.courses).map(|(x, y)| ((x, y), (x, y + 1)));
        along.chain(upright).collect()
    }

    pub fn darts(self) -> u32 {
        2 * self.edges().len() as u32
    }

    /// The dart at one cell whose edge goes to another: "the even dart at the left or lower cell".
    fn darts_between(self) -> HashMap<(Cell, Cell), Dart> {
        let mut darts = HashMap::new();
        for ((one, other), even) in self.edges().into_iter().zip((0..).step_by(2)) {
            darts.insert((one, other), even);
            darts.insert((other, one), even + 1);
        }
        darts
    }

    /// "Round a cell the successor goes right, up, left, down, skipping what is missing."
    pub fn table(self) -> Vec<Dart> {
        let darts = self.darts_between();
        let mut table = vec![0; darts.len()];
        for cell in self.cells() {
            let to = |other: Cell| darts.get(&(cell, other)).copied();
            let round: Vec<Dart> = neighbours(cell).into_iter().flatten().filter_map(to).collect();
            for (place, &dart) in round.iter().enumerate() {
                table[dart as usize] = round[(place + 1) % round.len()];
            }
        }
        table
    }
}

/// The cells round a cell, as far as numbers go: the grid need not have them.
fn neighbours((x, y): Cell) -> [Option<Cell>; 4] {
    let right = Some((x + 1, y));
    let up = Some((x, y + 1));
    let left = x.checked_sub(1).map(|x| (x, y));
    let down = y.checked_sub(1).map(|y| (x, y));
    [right, up, left, down]
}

/// A plan of a size within the limits, with all its codes.
pub struct Plan<'a> {
    grid: Grid,
    codes: &'a [u8],
}

impl<'a> Plan<'a> {
    /// The plan that stands in what was lent. "a lent slice is too short": 2
    pub fn lent(grid: Grid, codes: &'a [u8]) -> Result<Plan<'a>, Refusal> {
        let codes = codes.get(..grid.cells().count()).ok_or(Refusal::ShortSlice)?;
        Ok(Plan { grid, codes })
    }

    fn code(&self, (x, y): Cell) -> u8 {
        self.codes[(y * self.grid.wales + x) as usize]
    }

    /// "Build it": the codes do not matter.
    pub fn base(&self) -> Result<Pyramid, Refusal> {
        Pyramid::start(&self.grid.table())
    }

    /// "builds the base and at once takes a first kernel". "The second call answers 5 .. where its kernel would take no
    /// edge."
    pub fn areas(&self) -> Result<Pyramid, Refusal> {
        let mut pyramid = self.base()?;
        let kernel = self.first_kernel(pyramid.map());
        pyramid.reduce(Kind::Contract, &kernel)?;
        Ok(pyramid)
    }

    /// "edges by rising number, contracted where both ends have the same code, unless 9 or 11 would be given at its
    /// turn"
    fn first_kernel(&self, base: &Map) -> Vec<u32> {
        let mut map = base.clone();
        let mut kernel = Vec::new();
        for ((one, other), edge) in self.grid.edges().into_iter().zip(0..) {
            let same_code = self.code(one) == self.code(other);
            if same_code && judge(&map, Kind::Contract, edge, 0).is_ok() {
                operate(&mut map, Kind::Contract, edge);
                kernel.push(edge);
            }
        }
        kernel
    }
}
