//! Call == one of the calls with its own numbers, but for the lookup, which is lent no history (`ended`)
//! Lot  == a state with everything a call is lent; past what document 01 asks for, and in the work area, stand marks
//! Left == what a call gave back
//!
//! A call on a lot finds no levels kept, as after numbers put in by hand; `call_keeping` keeps them from call to call.

use second::answer::Answer;
use second::calls;
use second::counts::Counts;
use second::kept::Kept;
use second::lent::Lent;
use second::operation::Kind;
use second::plan::Grid;
use second::pyramid::Pyramid;
use second::state::State;

/// Stands where a call must not write.
pub const MARK: u32 = 77;

#[derive(Clone, Copy, Debug)]
pub enum Call<'a> {
    Start(u32),
    Flat(Grid, &'a [u8]),
    FlatAreas(Grid, &'a [u8]),
    Reduce(Kind, &'a [u32]),
    Sweep,
    Undo,
    Unfold(u32),
    Counts,
    Read(&'a [u8]),
    Write,
}

/// The calls on a state, with numbers that a map of 8 darts would take.
pub const ON_A_STATE: [Call; 7] = [
    Call::Reduce(Kind::Contract, &[0]),
    Call::Reduce(Kind::Remove, &[0]),
    Call::Sweep,
    Call::Undo,
    Call::Unfold(0),
    Call::Counts,
    Call::Write,
];

#[derive(Clone, Debug, PartialEq, Eq)]
pub struct Lot {
    pub state: State,
    pub table: Vec<u32>,
    pub history: Vec<u32>,
    pub work: Vec<u32>,
    pub output: Vec<u8>,
}

#[derive(Clone, Copy, Debug, PartialEq, Eq)]
pub struct Left {
    pub answer: Answer,
    pub state: State,
    pub counts: Counts,
}

/// A state whose ends are given up to the last level; it stores 0 vertices and 0 faces.
pub fn state(darts: u32, operations: u32, ends: &[u32]) -> State {
    let mut state = State { darts, operations, levels: ends.len() as u32, ..State::ZERO };
    state.ends[..ends.len()].copy_from_slice(ends);
    state
}

/// The same with the numbers of vertices and faces that it stores.
pub fn stored(darts: u32, operations: u32, ends: &[u32], (vertices, faces): (u32, u32)) -> State {
    State { vertices, faces, ..state(darts, operations, ends) }
}

impl Lot {
    /// The table with three marks after it, the history and the work area with marks up to their lengths and three
    /// more.
    pub fn new(state: State, table: &[u32], history: &[u32]) -> Lot {
        let darts = table.len();
        let mut lot = Lot {
            state,
            table: table.to_vec(),
            history: history.to_vec(),
            work: vec![MARK; 4 * darts + 3],
            output: vec![MARK as u8; 2_000],
        };
        lot.table.resize(darts + 3, MARK);
        lot.history.resize(history.len().max(darts / 2) + 3, MARK);
        lot
    }

    /// A pyramid as it is lent to a call.
    pub fn of(pyramid: &Pyramid) -> Lot {
        Lot::new(pyramid.state(), pyramid.map().table(), pyramid.history())
    }

    /// A base, and kernels done on it.
    pub fn built(base: &[u32], kernels: &[(Kind, &[u32])]) -> Lot {
        let mut lot = Lot::new(State::ZERO, base, &[]);
        lot.accept(&Call::Start(base.len() as u32));
        for &(kind, edges) in kernels {
            lot.accept(&Call::Reduce(kind, edges));
        }
        lot.work.fill(MARK);
        lot
    }

    pub fn darts(&self) -> usize {
        self.state.darts as usize
    }

    /// The first D numbers of the table.
    pub fn entries(&self) -> &[u32] {
        &self.table[..self.darts()]
    }

    /// The history numbers up to the count.
    pub fn numbers(&self) -> &[u32] {
        &self.history[..self.state.operations as usize]
    }

    /// The same lot whose state stores these numbers of vertices and faces.
    pub fn storing(&self, vertices: u32, faces: u32) -> Lot {
        Lot { state: State { vertices, faces, ..self.state }, ..self.clone() }
    }

    /// Makes the call and keeps the state that it hands back.
    pub fn call(&mut self, call: &Call) -> Left {
        self.call_keeping(call, &mut Kept::default())
    }

    /// The same with the levels that were kept so far.
    pub fn call_keeping(&mut self, call: &Call, kept: &mut Kept) -> Left {
        let given = self.state;
        let mut lent = Lent { table: &mut self.table, history: &mut self.history, work: &mut self.work };
        let mut counts = Counts::default();
        let (answer, state) = match *call {
            Call::Start(darts) => calls::start(darts, &mut lent, kept),
            Call::Flat(grid, codes) => calls::flat(grid, codes, &mut lent, kept),
            Call::FlatAreas(grid, codes) => calls::flat_areas(grid, codes, &mut lent, kept),
            Call::Reduce(kind, edges) => calls::reduce(&given, kind, edges, &mut lent, kept),
            Call::Sweep => calls::sweep(&given, &mut lent, kept),
            Call::Undo => calls::undo(&given, &mut lent, kept),
            Call::Unfold(k) => calls::unfold(&given, k, &mut lent, kept),
            Call::Read(bytes) => calls::read(bytes, &mut lent, kept),
            Call::Write => (calls::write(&given, &mut lent, &mut self.output, kept), given),
            Call::Counts => {
                let (answer, given_counts) = calls::counts(&given, &mut lent, kept);
                counts = given_counts;
                (answer, given)
            }
        };
        self.state = state;
        Left { answer, state, counts }
    }

    /// Makes a call that must be accepted. "every other answer has 0 there": it has no second place.
    pub fn accept(&mut self, call: &Call) -> Left {
        let left = self.call(call);
        assert_eq!((left.answer.number, left.answer.second), (0, 0), "{call:?}");
        left
    }

    /// The call must be refused with this number and place, and with no second place.
    pub fn refuse(&self, call: &Call, number: u32, place: usize, zeroed: usize) {
        self.refuse_with(call, Answer { number, place, second: 0 }, zeroed);
    }

    /// The call must be refused with 4 whatever numbers of vertices and faces the state stores.
    pub fn refuse_as_no_pyramid(&self, call: &Call) {
        let darts = self.state.darts;
        for (vertices, faces) in (0..=darts).flat_map(|vertices| (0..=darts).map(move |faces| (vertices, faces))) {
            self.storing(vertices, faces).refuse(call, 4, 0, 4 * darts as usize);
        }
    }

    /// A start must be refused with 3 and both these places.
    pub fn refuse_start(&self, darts: u32, place: usize, second: usize) {
        self.refuse_with(&Call::Start(darts), Answer { number: 3, place, second }, 4 * darts as usize);
    }

    /// The call must be refused with this answer, must leave the first `zeroed` numbers of the work area zero, and must
    /// leave all else as it was. "A refusal changes nothing but the work area."
    fn refuse_with(&self, call: &Call, answer: Answer, zeroed: usize) {
        let mut after = self.clone();
        let left = after.call(call);
        assert_eq!(left.answer, answer, "{call:?}");
        assert_eq!(left.counts, Counts::default(), "{call:?}");
        let mut expected = self.clone();
        expected.work[..zeroed].fill(0);
        if matches!(call, Call::Start(_) | Call::Flat(..) | Call::FlatAreas(..) | Call::Read(_)) {
            expected.state = State::ZERO;
        }
        assert_eq!(after, expected, "{call:?}");
    }
}
