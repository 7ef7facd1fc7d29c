//! Costed  == a lot with both sheets; past what document 02 asks for stand marks too
//! records == of stitches alone, not measured, or with metres

use super::chance::Chance;
use super::lot::{Call, Lot, MARK};
use second::answer::Answer;
use second::kept::Kept;
use second::lent::Lent;
use second::map::Map;
use second::merges::places;
use second::pyramid::Pyramid;
use second::record::{Record, Yarn};
use second::sheets::LentSheets;
use second::state::State;
use second::yarn;

#[derive(Clone, Debug, PartialEq, Eq)]
pub struct Costed {
    pub lot: Lot,
    pub sheet: Vec<Record>,
    pub kept: Vec<Record>,
}

pub fn measured(stitches: u32, metres: f64) -> Record {
    Record { stitches, yarn: Yarn::Metres(metres) }
}

pub fn unmeasured(stitches: u32) -> Record {
    Record { stitches, yarn: Yarn::NotMeasured }
}

/// Stands where a call must not write; a start would refuse it.
pub const MARKED: Record = Record { stitches: u32::MAX, yarn: Yarn::Metres(f64::NEG_INFINITY) };

/// The places of a base's vertices.
pub fn base_places(base: &Map) -> Vec<usize> {
    let mut places = places(base);
    places.sort_unstable();
    places.dedup();
    places
}

impl Costed {
    /// A base whose vertices, by rising place, have these records, started; marks everywhere else.
    pub fn started(base: &[u32], records: &[Record]) -> Costed {
        let mut costed = Costed::given(base, records);
        costed.accept(&Call::Start(base.len() as u32));
        costed.lot.work.fill(MARK);
        costed
    }

    /// The same before the start.
    pub fn given(base: &[u32], records: &[Record]) -> Costed {
        let map = Map::new(base, vec![true; base.len()]);
        let mut sheet = vec![MARKED; base.len() + 3];
        let places = base_places(&map);
        assert_eq!(places.len(), records.len(), "one record for each vertex");
        for (place, record) in places.into_iter().zip(records) {
            sheet[place] = *record;
        }
        Costed { lot: Lot::new(State::ZERO, base, &[]), sheet, kept: vec![MARKED; base.len() / 2 + 3] }
    }

    /// A pyramid's base with records by chance, and its kernels done on it.
    pub fn of(pyramid: &Pyramid, chance: &mut Chance) -> Costed {
        let base = &pyramid.levels()[0].map;
        let records: Vec<Record> = base_places(base).iter().map(|_| any_fit(chance)).collect();
        let mut costed = Costed::started(base.table(), &records);
        for kernel in pyramid.kernels() {
            let edges: Vec<u32> = kernel.iter().map(|number| number / 4).collect();
            costed.accept(&Call::Reduce(second::operation::kind_of(kernel[0]), &edges));
        }
        costed.lot.work.fill(MARK);
        costed
    }

    /// Makes the call with the sheets: one of start, reduce, sweep, undo and unfold.
    pub fn call(&mut self, call: &Call) -> Answer {
        let Costed { lot, sheet, kept: kept_records } = self;
        let given = lot.state;
        let mut lent = Lent { table: &mut lot.table, history: &mut lot.history, work: &mut lot.work };
        let mut sheets = LentSheets { sheet, kept: kept_records };
        let mut kept = Kept::default();
        let (answer, state) = match *call {
            Call::Start(darts) => yarn::start(darts, &mut lent, &mut sheets, &mut kept),
            Call::Reduce(kind, edges) => yarn::reduce(&given, kind, edges, &mut lent, &mut sheets, &mut kept),
            Call::Sweep => yarn::sweep(&given, &mut lent, &mut sheets, &mut kept),
            Call::Undo => yarn::undo(&given, &mut lent, &mut sheets, &mut kept),
            Call::Unfold(k) => yarn::unfold(&given, k, &mut lent, &mut sheets, &mut kept),
            _ => panic!("{call:?} has no sheets"),
        };
        lot.state = state;
        answer
    }

    #[track_caller]
    pub fn accept(&mut self, call: &Call) {
        assert_eq!(self.call(call), Answer::done(0), "{call:?}");
    }

    /// The call must be refused with this number and place, must leave the first `zeroed` numbers of the work area zero, and
    /// all else, both sheets too, as it was; a start hands back zeros.
    #[track_caller]
    pub fn refuse(&self, call: &Call, number: u32, place: usize, zeroed: usize) {
        let (mut after, mut expected) = (self.clone(), self.clone());
        assert_eq!(after.call(call), Answer { number, place, second: 0 }, "{call:?}");
        expected.lot.work[..zeroed].fill(0);
        if matches!(call, Call::Start(_)) {
            expected.lot.state = State::ZERO;
        }
        assert_eq!(after, expected, "{call:?}");
    }
}

/// A record that a start accepts, limits included.
pub fn any_fit(chance: &mut Chance) -> Record {
    let stitches = match chance.below(8) {
        0 => 0,
        1 => 65_535,
        _ => chance.below(65_536),
    };
    let metres = match chance.below(8) {
        0 => return unmeasured(stitches),
        1 => 100_000.0,
        2 => [0.0, -0.0, f64::MIN_POSITIVE, 5e-324, 0.1][chance.below(5) as usize],
        _ => f64::from(chance.below(100_000)) + f64::from(chance.below(1 << 30)) / f64::from(1 << 30),
    };
    measured(stitches, metres)
}
