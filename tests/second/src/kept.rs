//! Kept == the levels from call to call: "a second program that stores every level in full"
//!
//! - What is kept is a pyramid as this program's own data: the base's map, each level's map and end, and the history.
//! - An accepted start or read begins it anew, an accepted reduce or sweep puts a level on, undo and unfold take levels
//!   off. Calls on a state answer from it: what undo hands back is the table that was stored when that level was made.
//! - A refused call leaves it. But a refused start or read hands back "a state of zeros", to which no levels belong.
//! - A script that puts numbers by hand into the state, those that it stores of vertices and faces too, the first D of
//!   the table or the history up to the count drops it. The next call derives the levels from the numbers as they stand
//!   (`decide`); where they are a pyramid, that one is kept.
//! - What is kept is derived all the same, before each call on a state from what it is given and after each accepted
//!   change from what it leaves, and the two are compared (`two_ways`). A call answered 1 or 2 looks at no numbers.

use crate::decide::pyramid_of;
use crate::lent::Lent;
use crate::pyramid::Pyramid;
use crate::rooms::Room;
use crate::state::State;
use crate::two_ways::agree;

/// Nothing at first.
#[derive(Clone, Debug, Default)]
pub struct Kept {
    pyramid: Option<Pyramid>,
}

impl Kept {
    /// The levels, where any are kept.
    pub fn pyramid(&self) -> Option<&Pyramid> {
        self.pyramid.as_ref()
    }

    pub fn keep(&mut self, pyramid: Pyramid) {
        self.pyramid = Some(pyramid);
    }

    pub fn drop_levels(&mut self) {
        self.pyramid = None;
    }

    /// So many numbers were put into a room by hand, from this place on. A call looks at the first D numbers of the
    /// table and at the history up to the count: what stands elsewhere has nothing to do with the levels.
    pub fn put_by_hand(&mut self, room: Room, from: usize, count: usize) {
        let Some(pyramid) = &self.pyramid else { return };
        let looked_at = match room {
            Room::Table => pyramid.map().table().len(),
            Room::History => pyramid.history().len(),
            Room::Work | Room::Ends => 0,
        };
        if count > 0 && from < looked_at {
            self.drop_levels();
        }
    }

    /// The levels that a call on a state works on: those that were kept, or else those that the numbers give, if they
    /// are a pyramid. The lengths of what is lent were judged.
    pub fn found(&mut self, call: &str, state: &State, lent: &Lent) -> Option<&mut Pyramid> {
        match &self.pyramid {
            Some(kept) => agree("before", call, kept, state, lent),
            None => self.pyramid = pyramid_of(state, lent.entries(state.darts), lent.history),
        }
        self.pyramid.as_mut()
    }
}
