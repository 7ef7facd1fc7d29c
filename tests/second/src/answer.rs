//! Answer  == the number and the two places that a call gives
//! Refusal == the answers 1 to 16, case by case

/// What a call answers.
#[derive(Clone, Copy, Debug, PartialEq, Eq)]
pub struct Answer {
    pub number: u32,
    pub place: usize,
    /// Request Three of document 02: "3 carries a second place ..; every other answer has 0 there".
    pub second: usize,
}

impl Answer {
    /// "0 | done | 0; for the writer, the bytes written"
    pub fn done(place: usize) -> Answer {
        Answer { number: 0, place, second: 0 }
    }
}

/// "Given when", row by row; a place that is not 0 is carried along.
#[derive(Clone, Copy, Debug, PartialEq, Eq)]
pub enum Refusal {
    /// 1: "D is odd, 0 or over 65,536"
    BadDarts,
    /// 2: "a lent slice is too short"
    ShortSlice,
    /// 2: the same, "for the writer's output, the bytes needed"
    ShortOutput { needed: usize },
    /// 3: "start: the table is no permutation"; the second place is "which lower dart already has that successor", or "D
    /// where the value was out of range"
    NoPermutation { dart: usize, second: usize },
    /// 4: "the state, or what a file holds, is no pyramid"
    NoPyramid,
    /// 5: "the kernel is empty"
    EmptyKernel,
    /// 6: "64 levels are in use, or a file states more"
    TooManyLevels,
    /// 7: "edge number is D/2 or more"
    NoSuchEdge { place: usize },
    /// 7: "for a dart of D or more"
    NoSuchDart,
    /// 8: "the edge is gone already"
    EdgeGone { place: usize },
    /// 8: "for a dart gone by then"
    DartGone,
    /// 9: "contraction with one vertex at both ends"
    OneVertex { place: usize },
    /// 10: "removal with one face on both sides"
    OneFace { place: usize },
    /// 11: "the edge is a whole piece"
    WholePiece { place: usize },
    /// 12: "undo at the base, or k above the top"
    NoSuchLevel { top: usize },
    /// 13: "the bytes leave the file's form"
    BadForm { byte: usize },
    /// 14: "byte nine is neither 0 nor 1"
    BadFlag,
    /// 15: "plan size outside the limits, or one cell alone"
    PlanSize,
    /// 16: "metres not from 0 to 100,000 (a NaN is not) or stitches too many, place the first such record"
    UnfitRecord { place: usize },
}

impl Refusal {
    /// The number and the places of the table of answers.
    pub fn answer(self) -> Answer {
        let (number, place) = match self {
            Refusal::BadDarts => (1, 0),
            Refusal::ShortSlice => (2, 0),
            Refusal::ShortOutput { needed } => (2, needed),
            Refusal::NoPermutation { dart, .. } => (3, dart),
            Refusal::NoPyramid => (4, 0),
            Refusal::EmptyKernel => (5, 0),
            Refusal::TooManyLevels => (6, 0),
            Refusal::NoSuchEdge { place } => (7, place),
            Refusal::NoSuchDart => (7, 0),
            Refusal::EdgeGone { place } => (8, place),
            Refusal::DartGone => (8, 0),
            Refusal::OneVertex { place } => (9, place),
            Refusal::OneFace { place } => (10, place),
            Refusal::WholePiece { place } => (11, place),
            Refusal::NoSuchLevel { top } => (12, top),
            Refusal::BadForm { byte } => (13, byte),
            Refusal::BadFlag => (14, 8),
            Refusal::PlanSize => (15, 0),
            Refusal::UnfitRecord { place } => (16, place),
        };
        Answer { number, place, second: self.second() }
    }

    /// "3 carries a second place ..; every other answer has 0 there"
    fn second(self) -> usize {
        match self {
            Refusal::NoPermutation { second, .. } => second,
            _ => 0,
        }
    }

    /// What a program prints for a refusal: "one line, `refusal=N place=P`, and no other".
    pub fn line(self) -> String {
        let Answer { number, place, .. } = self.answer();
        format!("refusal={number} place={place}\n")
    }
}
