//! "Calls: start from a table; reduce by a kernel; sweep; undo one level; unfold to level k; counts of the present
//! level; read a file; write a file."
//!
//! "Order: 1, 2, then 3 or 4, then 12, 6, 5, then the kernel's first failing edge". "A refusal changes nothing but
//! the work area."
//!
//! Request One of document 02 adds two: the base from a plan, and the base from a plan with its first kernel. "15 ..
//! judged first, place 0, and nothing is written."
//!
//! Request Four adds one: "Successor at a level without unfolding." It is given no state and hands back none.
//!
//! Request Five gives five of them a second form, which is lent the two sheets (`yarn`).
//!
//! The calls on a state answer from the levels that are kept beside it (`kept`).

use crate::answer::{Answer, Refusal};
use crate::counts::{counts as counts_of, Counts};
use crate::ends::Built;
use crate::file_read::{read_body, read_head};
use crate::file_write::bytes_of;
use crate::kept::Kept;
use crate::lent::{Lent, LentEnds};
use crate::lookup::{lookup, Found};
use crate::map::Dart;
use crate::operation::Kind;
use crate::plan::{Grid, Plan};
use crate::pyramid::Pyramid;
use crate::scan::Scan;
use crate::state::State;
use crate::two_ways::agree;

/// The answer to an outcome, with what it hands back: its own value, or the one for a refusal.
pub(crate) fn answered<T>(outcome: Result<T, Refusal>, refused: T) -> (Answer, T) {
    match outcome {
        Ok(value) => (Answer::done(0), value),
        Err(refusal) => (refusal.answer(), refused),
    }
}

/// What all calls on a state have in common: 1 and 2, then 4, then what the call itself does, then the work area.
pub(crate) fn on_pyramid<T>(
    call: &str,
    state: &State,
    lent: &mut Lent,
    kept: &mut Kept,
    act: impl FnOnce(&mut Pyramid, &mut Lent) -> Result<T, Refusal>,
) -> Result<T, Refusal> {
    lent.judge(state.darts)?;
    let outcome = match kept.found(call, state, lent) {
        Some(pyramid) => act(pyramid, lent),
        None => Err(Refusal::NoPyramid),
    };
    lent.clear_work(state.darts);
    outcome
}

/// A call that changes the pyramid. "A refused call hands back the state it was given."
fn change(
    call: &str,
    state: &State,
    lent: &mut Lent,
    kept: &mut Kept,
    act: impl FnOnce(&mut Pyramid) -> Result<(), Refusal>,
) -> (Answer, State) {
    let outcome = on_pyramid(call, state, lent, kept, |pyramid, lent| {
        act(pyramid)?;
        lent.store(pyramid);
        agree("after", call, pyramid, &pyramid.state(), lent);
        Ok(pyramid.state())
    });
    answered(outcome, *state)
}

/// A call that begins a pyramid. "A refused start or read, which was given none, hands back a state of zeros."
pub(crate) fn begin(outcome: Result<Pyramid, Refusal>, kept: &mut Kept) -> (Answer, State) {
    kept.drop_levels();
    let outcome = outcome.map(|pyramid| {
        let state = pyramid.state();
        kept.keep(pyramid);
        state
    });
    answered(outcome, State::ZERO)
}

/// The base that a table is. It stays as it is; the history is not read.
pub(crate) fn start_pyramid(darts: u32, lent: &mut Lent) -> Result<Pyramid, Refusal> {
    lent.judge(darts)?;
    let outcome = Pyramid::start(lent.entries(darts));
    lent.clear_work(darts);
    let pyramid = outcome?;
    agree("after", "start", &pyramid, &pyramid.state(), lent);
    Ok(pyramid)
}

/// "start from a table"
pub fn start(darts: u32, lent: &mut Lent, kept: &mut Kept) -> (Answer, State) {
    begin(start_pyramid(darts, lent), kept)
}

/// What both calls on a plan have in common: 15, then 2 for the slices and for the plan, then what the call itself
/// builds. The work area is cleared after 5 too; table and history are written only where it is accepted.
fn of_plan(
    call: &str,
    grid: Grid,
    codes: &[u8],
    lent: &mut Lent,
    build: impl FnOnce(&Plan) -> Result<Pyramid, Refusal>,
) -> Result<Pyramid, Refusal> {
    grid.judge()?;
    lent.judge(grid.darts())?;
    let outcome = build(&Plan::lent(grid, codes)?);
    lent.clear_work(grid.darts());
    let pyramid = outcome?;
    lent.store(&pyramid);
    agree("after", call, &pyramid, &pyramid.state(), lent);
    Ok(pyramid)
}

/// The base that a plan is.
pub fn flat_pyramid(grid: Grid, codes: &[u8], lent: &mut Lent) -> Result<Pyramid, Refusal> {
    of_plan("flat", grid, codes, lent, |plan| plan.base())
}

/// The base that a plan is, with one level over it.
pub fn flat_areas_pyramid(grid: Grid, codes: &[u8], lent: &mut Lent) -> Result<Pyramid, Refusal> {
    of_plan("flatareas", grid, codes, lent, |plan| plan.areas())
}

/// "Base from a stitch plan"
pub fn flat(grid: Grid, codes: &[u8], lent: &mut Lent, kept: &mut Kept) -> (Answer, State) {
    begin(flat_pyramid(grid, codes, lent), kept)
}

/// "A second call builds the base and at once takes a first kernel"; "answers 5, as a refused start, where its kernel
/// would take no edge"
pub fn flat_areas(grid: Grid, codes: &[u8], lent: &mut Lent, kept: &mut Kept) -> (Answer, State) {
    begin(flat_areas_pyramid(grid, codes, lent), kept)
}

/// "reduce by a kernel"
pub fn reduce(state: &State, kind: Kind, kernel: &[u32], lent: &mut Lent, kept: &mut Kept) -> (Answer, State) {
    change("reduce", state, lent, kept, |pyramid| pyramid.reduce(kind, kernel))
}

/// "sweep"
pub fn sweep(state: &State, lent: &mut Lent, kept: &mut Kept) -> (Answer, State) {
    change("sweep", state, lent, kept, Pyramid::sweep)
}

/// "undo one level"
pub fn undo(state: &State, lent: &mut Lent, kept: &mut Kept) -> (Answer, State) {
    change("undo", state, lent, kept, Pyramid::undo)
}

/// "unfold to level k"
pub fn unfold(state: &State, k: u32, lent: &mut Lent, kept: &mut Kept) -> (Answer, State) {
    change("unfold", state, lent, kept, |pyramid| pyramid.unfold(k as usize))
}

/// "counts of the present level". "Refused counts are four zeros."
pub fn counts(state: &State, lent: &mut Lent, kept: &mut Kept) -> (Answer, Counts) {
    let outcome = on_pyramid("counts", state, lent, kept, |pyramid, _| Ok(counts_of(pyramid.map())));
    answered(outcome, Counts::default())
}

/// "The reader, which learns D late, follows the same sentence for its D and writes nothing if it stops before D is
/// known. The reader writes table and history only when it accepts".
pub fn read_pyramid(bytes: &[u8], lent: &mut Lent) -> Result<Pyramid, Refusal> {
    let mut scan = Scan::new(bytes);
    let head = read_head(&mut scan)?;
    lent.judge(head.darts)?;
    let outcome = read_body(&mut scan, &head);
    lent.clear_work(head.darts);
    let pyramid = outcome?;
    lent.store(&pyramid);
    agree("after", "read", &pyramid, &pyramid.state(), lent);
    Ok(pyramid)
}

/// "read a file"
pub fn read(bytes: &[u8], lent: &mut Lent, kept: &mut Kept) -> (Answer, State) {
    begin(read_pyramid(bytes, lent), kept)
}

/// "write a file". "The writer judges its output's length after 4." "an accepted write alters only its own bytes of
/// the output"
pub fn write(state: &State, lent: &mut Lent, output: &mut [u8], kept: &mut Kept) -> Answer {
    let outcome = on_pyramid("write", state, lent, kept, |pyramid, _| {
        let bytes = bytes_of(pyramid);
        let room = output.get_mut(..bytes.len()).ok_or(Refusal::ShortOutput { needed: bytes.len() })?;
        room.copy_from_slice(&bytes);
        Ok(bytes.len())
    });
    match outcome {
        Ok(written) => Answer::done(written),
        Err(refusal) => refusal.answer(),
    }
}

/// The order: "after 1 and 2, 4 if the table and ends come from no pyramid, then 12 for k, then 7 .., then 8".
fn looked_up(darts: u32, k: u32, dart: Dart, lent: &mut LentEnds, built: &mut Built) -> Result<Found, Refusal> {
    lent.judge(darts)?;
    let ends = lent.ends(darts);
    let outcome = match built.pyramid(lent.entries(darts), ends) {
        Some(pyramid) => lookup(pyramid, ends, k, dart),
        None => Err(Refusal::NoPyramid),
    };
    lent.clear_work(darts);
    outcome
}

/// "find a surviving dart's successor at level k"; "a refusal gives dart 0 and count 0"
pub fn successor(darts: u32, k: u32, dart: Dart, lent: &mut LentEnds, built: &mut Built) -> (Answer, Found) {
    answered(looked_up(darts, k, dart, lent, built), Found::default())
}
