//! Head == what the first two lines say: F and D
//! body == the other lines, and the pyramid that they mean
//!
//! "Values are judged when their line has ended: D (1, then 2), L over 64 (6), N of 0 (5). After the last byte: 4".

use crate::answer::Refusal;
use crate::decide::levels_of;
use crate::operation::{number, Kind};
use crate::pyramid::Pyramid;
use crate::scan::Scan;
use crate::state::{State, MOST_LEVELS};

/// F and D. D is not judged yet.
pub struct Head {
    first: u32,
    pub darts: u32,
}

/// A line `kernel=`: its kind and its count of operations.
type Kernel = (Kind, u32);

/// "1. `numbers=F`." and "2. `darts=D`."
pub fn read_head(scan: &mut Scan) -> Result<Head, Refusal> {
    scan.word("numbers=")?;
    let first = read_flag(scan)?;
    scan.word("\n")?;
    let darts = scan.line("darts=")?;
    Ok(Head { first, darts })
}

/// "F is byte nine: 0 for darts from zero, 1 for darts from one." One byte, whatever follows it.
fn read_flag(scan: &mut Scan) -> Result<u32, Refusal> {
    match scan.peek() {
        None => Err(scan.fault()),
        Some(b'0') => scan.word("0").map(|()| 0),
        Some(b'1') => scan.word("1").map(|()| 1),
        Some(_) => Err(Refusal::BadFlag),
    }
}

/// The lines from 3 on, the end of the file, and then whether it is a pyramid. D has been judged.
pub fn read_body(scan: &mut Scan, head: &Head) -> Result<Pyramid, Refusal> {
    let kernels = read_kernels(scan)?;
    let mut table = Vec::new();
    for _ in 0..head.darts / 2 {
        table.extend(read_pair(scan)?);
    }
    scan.end()?;
    let table = counted_from_zero(head, &table).ok_or(Refusal::NoPyramid)?;
    let (state, history) = stated(head.darts, &kernels);
    levels_of(&state, &table, &history).ok_or(Refusal::NoPyramid)
}

/// "3. `levels=L`. 4. L lines `kernel=`": "L over 64 (6)"
fn read_kernels(scan: &mut Scan) -> Result<Vec<Kernel>, Refusal> {
    let levels = scan.line("levels=")?;
    if levels as usize > MOST_LEVELS {
        return Err(Refusal::TooManyLevels);
    }
    (0..levels).map(|_| read_kernel(scan)).collect()
}

/// "`kernel=contract N` or `kernel=remove N`": "N of 0 (5)"
fn read_kernel(scan: &mut Scan) -> Result<Kernel, Refusal> {
    scan.word("kernel=")?;
    let (kind, count) = match scan.peek() {
        Some(b'c') => (Kind::Contract, scan.line("contract ")?),
        Some(b'r') => (Kind::Remove, scan.line("remove ")?),
        _ => return Err(scan.fault()),
    };
    match count {
        0 => Err(Refusal::EmptyKernel),
        _ => Ok((kind, count)),
    }
}

/// "`pair=A B`: the table entries of darts 0 and 1, 2 and 3, and so on."
fn read_pair(scan: &mut Scan) -> Result<[u32; 2], Refusal> {
    scan.word("pair=")?;
    let a = scan.number()?;
    scan.word(" ")?;
    let b = scan.number()?;
    scan.word("\n")?;
    Ok([a, b])
}

/// "F applies to A and B only." None "where a pair holds a number that is no dart (0 under F = 1, D under F = 0)".
fn counted_from_zero(head: &Head, table: &[u32]) -> Option<Vec<u32>> {
    let dart = |&entry: &u32| entry.checked_sub(head.first).filter(|&dart| dart < head.darts);
    table.iter().map(dart).collect()
}

/// The state, but for its two numbers, and the history that the kernel lines state. "Operation t read back has p = 2t-2", with t from 1.
fn stated(darts: u32, kernels: &[Kernel]) -> (State, Vec<u32>) {
    let mut state = State { darts, levels: kernels.len() as u32, ..State::ZERO };
    let mut history = Vec::new();
    for (end, &(kind, count)) in state.ends.iter_mut().zip(kernels) {
        history.extend((state.operations..state.operations + count).map(|done| number(kind, 2 * done)));
        state.operations += count;
        *end = state.operations;
    }
    (state, history)
}
