//! Edges' ends, and what can be wrong with a base table and its ends
//!
//! ends_of == the ends that a pyramid's kernels give its edges
//! Wrong   == one thing changed in the ends, or in the table; most are no pyramid's any more, and some still are
//!
//! An end is "2L for an edge removed at level L, 2L + 1 for one contracted, 0 or 1 for one that survives".

use crate::chance::Chance;
use second::kernel::judge;
use second::map::{partner, Map};
use second::operation::{edge_of, kind_of, Kind};
use second::pyramid::Pyramid;
use second::state::MOST_DARTS;

/// The end of each edge; for one that survives 0, or 0 or 1 by chance.
pub fn ends_of(chance: &mut Chance, pyramid: &Pyramid) -> Vec<u32> {
    let most = chance.pick(&[1, 2]);
    let mut ends: Vec<u32> = (0..pyramid.map().edges()).map(|_| chance.below(most)).collect();
    for (level, numbers) in (1..).zip(pyramid.kernels()) {
        for &number in numbers {
            ends[edge_of(number) as usize] = end(level, kind_of(number));
        }
    }
    ends
}

fn end(level: u32, kind: Kind) -> u32 {
    match kind {
        Kind::Remove => 2 * level,
        Kind::Contract => 2 * level + 1,
    }
}

fn level(end: u32) -> u32 {
    end / 2
}

/// A level of the pyramid over the base, if there is one.
fn any_level(chance: &mut Chance, pyramid: &Pyramid) -> Option<u32> {
    let top = pyramid.top() as u32;
    (top > 0).then(|| chance.between(1, top))
}

/// The kind of a level's kernel.
fn kind_at(pyramid: &Pyramid, level: u32) -> Option<Kind> {
    let numbers = pyramid.kernels().nth(level as usize - 1)?;
    Some(kind_of(numbers[0]))
}

fn any_edge(chance: &mut Chance, ends: &[u32]) -> usize {
    chance.place(ends.len())
}

pub type Wrong = fn(&mut Chance, &Pyramid, &mut [u32]);

/// What is done to the ends, and how often.
pub const WRONG_ENDS: [(u32, Wrong); 12] = [
    (3, a_gap),
    (2, a_level_emptied),
    (4, an_end_of_the_other_kind),
    (1, a_level_of_the_other_kind),
    (3, an_end_too_high),
    (4, any_end),
    (4, one_edge_more),
    (6, one_refused_edge_more),
    (2, a_level_more),
    (3, a_piece_used_up),
    (1, two_levels_exchanged),
    (2, two_levels_in_one),
];

/// What is done to the base table.
pub const WRONG_TABLES: [(u32, Wrong); 4] =
    [(2, an_entry_out_of_range), (2, an_entry_repeated), (2, two_entries_exchanged), (1, the_top_for_the_base)];

/// "levels with a gap": a level and all above it go up by one.
fn a_gap(chance: &mut Chance, pyramid: &Pyramid, ends: &mut [u32]) {
    let Some(from) = any_level(chance, pyramid) else { return };
    ends.iter_mut().filter(|end| level(**end) >= from).for_each(|end| *end += 2);
}

/// The edges of a level survive: a gap, but at the top.
fn a_level_emptied(chance: &mut Chance, pyramid: &Pyramid, ends: &mut [u32]) {
    let Some(emptied) = any_level(chance, pyramid) else { return };
    ends.iter_mut().filter(|end| level(**end) == emptied).for_each(|end| *end = chance.below(2));
}

/// "of two kinds", where the edge is not alone in its level.
fn an_end_of_the_other_kind(chance: &mut Chance, _: &Pyramid, ends: &mut [u32]) {
    let ended: Vec<usize> = (0..ends.len()).filter(|&edge| level(ends[edge]) > 0).collect();
    if !ended.is_empty() {
        ends[chance.pick(&ended)] ^= 1;
    }
}

fn a_level_of_the_other_kind(chance: &mut Chance, pyramid: &Pyramid, ends: &mut [u32]) {
    let Some(changed) = any_level(chance, pyramid) else { return };
    ends.iter_mut().filter(|end| level(**end) == changed).for_each(|end| *end ^= 1);
}

/// A level "over 64", or one far above the top.
fn an_end_too_high(chance: &mut Chance, _: &Pyramid, ends: &mut [u32]) {
    let high = [128, 129, 130, 131, 132, 256, 1 << 16, 1 << 17, 1 << 31, (1 << 31) + 3, u32::MAX - 1, u32::MAX];
    ends[any_edge(chance, ends)] = chance.pick(&high);
}

/// Another end for an edge: of any level, or of one too high by one or two.
fn any_end(chance: &mut Chance, pyramid: &Pyramid, ends: &mut [u32]) {
    ends[any_edge(chance, ends)] = chance.below(2 * (pyramid.top() as u32 + 3));
}

/// An edge that survives goes with a level's kernel, accepted or not.
fn one_edge_more(chance: &mut Chance, pyramid: &Pyramid, ends: &mut [u32]) {
    let Some(with) = any_level(chance, pyramid) else { return };
    let edge = any_edge(chance, ends);
    if let (0, Some(kind)) = (level(ends[edge]), kind_at(pyramid, with)) {
        ends[edge] = end(with, kind);
    }
}

/// An edge that survives goes with a level's kernel, or in a level of its own, where it is refused: both parallel edges, one
/// face on both sides, a whole piece, each as often as any other that there is.
fn one_refused_edge_more(chance: &mut Chance, pyramid: &Pyramid, ends: &mut [u32]) {
    let top = pyramid.top() as u32;
    let (with, kind) = match any_level(chance, pyramid) {
        Some(level) if !chance.one_in(3) => (level, kind_at(pyramid, level)),
        _ => (top + 1, Some(chance.kind())),
    };
    let Some(kind) = kind else { return };
    let map = &pyramid.levels()[with.min(top) as usize].map;
    let refused = |edge: u32| judge(map, kind, edge, 0).err().map(|refusal| (refusal.answer().number, edge));
    let survivors = (0..map.edges()).filter(|&edge| level(ends[edge as usize]) == 0);
    let refused: Vec<(u32, u32)> = survivors.filter_map(refused).collect();
    if refused.is_empty() {
        return;
    }
    let mut numbers: Vec<u32> = refused.iter().map(|&(number, _)| number).collect();
    numbers.sort_unstable();
    numbers.dedup();
    let number = chance.pick(&numbers);
    let as_this: Vec<u32> = refused.into_iter().filter(|(other, _)| *other == number).map(|(_, edge)| edge).collect();
    ends[chance.pick(&as_this) as usize] = end(with, kind);
}

/// Some of the edges that survive go in a level of their own, which is 65 after 64.
fn a_level_more(chance: &mut Chance, pyramid: &Pyramid, ends: &mut [u32]) {
    let new = end(pyramid.top() as u32 + 1, chance.kind());
    let one_in = chance.pick(&[1, 2, 6]);
    ends.iter_mut().filter(|end| level(**end) == 0).filter(|_| chance.one_in(one_in)).for_each(|end| *end = new);
}

/// All that is left of a piece goes in a level of its own, or each edge in its own.
fn a_piece_used_up(chance: &mut Chance, pyramid: &Pyramid, ends: &mut [u32]) {
    let map = pyramid.map();
    let survivors: Vec<u32> = map.survivors().collect();
    let kind = chance.kind();
    let one_level = chance.one_in(2);
    let mut next = pyramid.top() as u32 + 1;
    for edge in piece(map, chance.pick(&survivors)) {
        ends[edge as usize] = end(next, kind);
        next += u32::from(!one_level);
    }
}

/// The edges of a dart's piece: "Two darts are in one piece when partner and successor steps join them."
fn piece(map: &Map, dart: u32) -> Vec<u32> {
    let mut reached = vec![false; map.table().len()];
    let mut left = vec![dart];
    while let Some(at) = left.pop() {
        if !std::mem::replace(&mut reached[at as usize], true) {
            left.extend([partner(at), map.successor(at)]);
        }
    }
    (0..map.edges()).filter(|&edge| reached[2 * edge as usize]).collect()
}

/// What is accepted in one order is accepted in any other: a pyramid's again.
fn two_levels_exchanged(chance: &mut Chance, pyramid: &Pyramid, ends: &mut [u32]) {
    let (Some(a), Some(b)) = (any_level(chance, pyramid), any_level(chance, pyramid)) else { return };
    for end in ends {
        let to = match level(*end) {
            at if at == a => b,
            at if at == b => a,
            at => at,
        };
        *end = 2 * to + *end % 2;
    }
}

/// A level goes in the one below it, and all above come down by one: two kinds, or one kernel for two.
fn two_levels_in_one(chance: &mut Chance, pyramid: &Pyramid, ends: &mut [u32]) {
    let Some(into) = any_level(chance, pyramid) else { return };
    ends.iter_mut().filter(|end| level(**end) > into).for_each(|end| *end -= 2);
}

fn an_entry_out_of_range(chance: &mut Chance, _: &Pyramid, table: &mut [u32]) {
    let darts = table.len() as u32;
    let far = chance.pick(&[darts, darts + 1, 2 * darts, 4 * darts, MOST_DARTS, u32::MAX]);
    table[chance.place(table.len())] = far;
}

fn an_entry_repeated(chance: &mut Chance, _: &Pyramid, table: &mut [u32]) {
    table[chance.place(table.len())] = table[chance.place(table.len())];
}

/// Another base, to which the kernels may still do.
fn two_entries_exchanged(chance: &mut Chance, _: &Pyramid, table: &mut [u32]) {
    let (a, b) = (chance.place(table.len()), chance.place(table.len()));
    table.swap(a, b);
}

/// The table that the kernels leave, "gone darts too".
fn the_top_for_the_base(_: &mut Chance, pyramid: &Pyramid, table: &mut [u32]) {
    table.copy_from_slice(pyramid.map().table());
}
