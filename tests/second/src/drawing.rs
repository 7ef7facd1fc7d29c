//! The program `plan`: the file of a drawn plan.
//!
//! A drawing has a line for each course, the highest first, as one draws it, and a byte for each cell, each line ended by
//! one line feed. Every other byte is a code, a carriage return too.

use crate::answer::Refusal;
use crate::calls::{flat_areas_pyramid, flat_pyramid};
use crate::file_write::bytes_of;
use crate::lent::Lent;
use crate::plan::Grid;
use crate::pyramid::Pyramid;

/// A drawing may be so long. One of 128 wales and 128 courses has 16,512 bytes.
pub const MOST_BYTES: usize = 65_536;

/// What a plan of 128 wales and 128 courses has.
const DARTS: usize = 65_024;

/// A call that builds a plan.
type Build = fn(Grid, &[u8], &mut Lent) -> Result<Pyramid, Refusal>;

/// What `plan` prints: the file of the base with its first kernel.
pub fn areas(drawing: &[u8]) -> Vec<u8> {
    printed(drawing, flat_areas_pyramid)
}

/// What `plan base` prints: the file of the base alone.
pub fn base(drawing: &[u8]) -> Vec<u8> {
    printed(drawing, flat_pyramid)
}

/// The form of the whole drawing is judged first, then the plan. A drawing that is too long gets `error=0`, and a
/// refused plan the line that `levels` gives.
fn printed(drawing: &[u8], build: Build) -> Vec<u8> {
    if drawing.len() > MOST_BYTES {
        return b"error=0\n".to_vec();
    }
    match courses(drawing) {
        Ok(courses) => file(&courses, build),
        Err(line) => format!("error={line}\n").into_bytes(),
    }
}

/// The lines without their line feeds, in the order drawn; or the number, from 1, of the first that has another length
/// than the first or no line feed.
fn courses(drawing: &[u8]) -> Result<Vec<&[u8]>, usize> {
    let mut courses: Vec<&[u8]> = Vec::new();
    for (line, number) in drawing.split_inclusive(|&byte| byte == b'\n').zip(1..) {
        let course = line.strip_suffix(b"\n").ok_or(number)?;
        if courses.first().is_some_and(|first| first.len() != course.len()) {
            return Err(number);
        }
        courses.push(course);
    }
    Ok(courses)
}

/// "lowest course first": the last line is the first course.
fn file(courses: &[&[u8]], build: Build) -> Vec<u8> {
    let wales = courses.first().map_or(0, |course| course.len());
    let grid = Grid { wales: wales as u32, courses: courses.len() as u32 };
    let codes: Vec<u8> = courses.iter().rev().flat_map(|course| course.iter().copied()).collect();
    let (mut table, mut history, mut work) = (vec![0; DARTS], vec![0; DARTS / 2], vec![0; 4 * DARTS]);
    let mut lent = Lent { table: &mut table, history: &mut history, work: &mut work };
    match build(grid, &codes, &mut lent) {
        Ok(pyramid) => bytes_of(&pyramid),
        Err(refusal) => refusal.line().into_bytes(),
    }
}
