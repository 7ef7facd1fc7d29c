//! State == "D, the number of operations, the number of levels, and the 64 level ends"; from request Six of document 02 on the
//!          numbers of vertices and faces of the present level too: "Store both numbers in the state."

/// "There are D darts, 0 to D-1, D even, 2 to 65,536."
pub const MOST_DARTS: u32 = 65_536;

/// "There are at most 64 kernels over the base."
pub const MOST_LEVELS: usize = 64;

/// A state as it travels. Its numbers may be anything at all: only a check tells whether it belongs to a pyramid.
#[derive(Clone, Copy, Debug, PartialEq, Eq)]
pub struct State {
    pub darts: u32,
    pub operations: u32,
    pub levels: u32,
    pub vertices: u32,
    pub faces: u32,
    /// "the operation count after each kernel, zero when unused"
    pub ends: [u32; MOST_LEVELS],
}

/// "all zero at the start"
impl Default for State {
    fn default() -> State {
        State::ZERO
    }
}

impl State {
    /// "A refused start or read, which was given none, hands back a state of zeros."
    pub const ZERO: State = State { darts: 0, operations: 0, levels: 0, vertices: 0, faces: 0, ends: [0; MOST_LEVELS] };
}
