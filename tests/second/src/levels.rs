//! The program `levels`: a file's levels, one line each.

use crate::calls::read_pyramid;
use crate::counts::counts;
use crate::lent::Lent;
use crate::pyramid::Pyramid;

/// "with tables for 4,096 darts"
const DARTS: usize = 4_096;

/// What `levels` prints for a file. "A refused file gets one line, `refusal=N place=P`, and no other."
pub fn report(file: &[u8]) -> String {
    let (mut table, mut history, mut work) = (vec![0; DARTS], vec![0; DARTS / 2], vec![0; 4 * DARTS]);
    let mut lent = Lent { table: &mut table, history: &mut history, work: &mut work };
    match read_pyramid(file, &mut lent) {
        Ok(pyramid) => level_lines(&pyramid),
        Err(refusal) => refusal.line(),
    }
}

/// "Each level, base first, gets a line: level number, surviving darts, vertices, faces, Euler number; then `end=ok`."
fn level_lines(pyramid: &Pyramid) -> String {
    let mut text = String::new();
    for (number, level) in pyramid.levels().iter().enumerate() {
        let c = counts(&level.map);
        text.push_str(&format!(
            "level={number} darts={} vertices={} faces={} euler={}\n",
            c.darts, c.vertices, c.faces, c.euler
        ));
    }
    text.push_str("end=ok\n");
    text
}
