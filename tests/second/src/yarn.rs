//! The calls that are lent both sheets: start, reduce, sweep, undo and unfold (request Five of document 02).
//!
//! "Refusals: 16, by the start after 3, ..; afterwards 4 also covers sheets that no accepted start and these operations give."
//! A refusal changes neither sheet. After 4 each sheet is made from the base's once more (`sheets`): so undo returns a level's
//! figures "bit for bit".

use crate::answer::{Answer, Refusal};
use crate::calls::{answered, begin, on_pyramid, start_pyramid};
use crate::kept::Kept;
use crate::lent::Lent;
use crate::operation::Kind;
use crate::pyramid::Pyramid;
use crate::sheets::LentSheets;
use crate::state::State;
use crate::two_ways::agree;

/// Answers 1 and 2, of the slices and then of the sheets.
fn judge(darts: u32, lent: &Lent, sheets: &LentSheets) -> Result<(), Refusal> {
    lent.judge(darts)?;
    sheets.judge(darts)
}

/// A call that changes the pyramid and the sheets.
fn change(
    call: &str,
    state: &State,
    lent: &mut Lent,
    sheets: &mut LentSheets,
    kept: &mut Kept,
    act: impl FnOnce(&mut Pyramid) -> Result<(), Refusal>,
) -> (Answer, State) {
    let outcome = judge(state.darts, lent, sheets).and_then(|()| {
        on_pyramid(call, state, lent, kept, |pyramid, lent| {
            let first = sheets.base_sheet(pyramid).ok_or(Refusal::NoPyramid)?;
            act(pyramid)?;
            lent.store(pyramid);
            sheets.store(&first, pyramid);
            agree("after", call, pyramid, &pyramid.state(), lent);
            Ok(pyramid.state())
        })
    });
    answered(outcome, *state)
}

/// The base that a table is, with its sheet, which stays as it is.
fn start_costed(darts: u32, lent: &mut Lent, sheets: &LentSheets) -> Result<Pyramid, Refusal> {
    judge(darts, lent, sheets)?;
    let pyramid = start_pyramid(darts, lent)?;
    sheets.judge_records(pyramid.map())?;
    Ok(pyramid)
}

pub fn start(darts: u32, lent: &mut Lent, sheets: &mut LentSheets, kept: &mut Kept) -> (Answer, State) {
    begin(start_costed(darts, lent, sheets), kept)
}

pub fn reduce(
    state: &State,
    kind: Kind,
    kernel: &[u32],
    lent: &mut Lent,
    sheets: &mut LentSheets,
    kept: &mut Kept,
) -> (Answer, State) {
    change("yarn's reduce", state, lent, sheets, kept, |pyramid| pyramid.reduce(kind, kernel))
}

pub fn sweep(state: &State, lent: &mut Lent, sheets: &mut LentSheets, kept: &mut Kept) -> (Answer, State) {
    change("yarn's sweep", state, lent, sheets, kept, Pyramid::sweep)
}

pub fn undo(state: &State, lent: &mut Lent, sheets: &mut LentSheets, kept: &mut Kept) -> (Answer, State) {
    change("yarn's undo", state, lent, sheets, kept, Pyramid::undo)
}

pub fn unfold(state: &State, k: u32, lent: &mut Lent, sheets: &mut LentSheets, kept: &mut Kept) -> (Answer, State) {
    change("yarn's unfold", state, lent, sheets, kept, |pyramid| pyramid.unfold(k as usize))
}
