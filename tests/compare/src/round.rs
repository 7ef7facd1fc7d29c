//! Round == both programs on the inputs of one group, as many at a time as the machine has processors

use crate::compare::Others;
use crate::coverage::Coverage;
use crate::groups::Group;
use crate::input::Input;
use std::io;
use std::sync::atomic::{AtomicUsize, Ordering};
use std::thread;

#[derive(Default)]
pub struct Round {
    /// What the inputs that show no difference have covered.
    pub coverage: Coverage,
    /// The number of the input that shows a difference, and the input: of several the first.
    pub difference: Option<(usize, Input)>,
}

pub fn round(others: &Others, group: &Group, inputs: usize) -> io::Result<Round> {
    let next = AtomicUsize::new(0);
    let workers = thread::available_parallelism().map_or(1, usize::from);
    let rounds: io::Result<Vec<Round>> = thread::scope(|scope| {
        let workers: Vec<_> = (0..workers).map(|_| scope.spawn(|| work(others, group, inputs, &next))).collect();
        workers.into_iter().map(|worker| worker.join().expect("a worker does not panic")).collect()
    });
    let mut all = Round::default();
    for round in rounds? {
        all.coverage.add(&round.coverage);
        let found = all.difference.into_iter().chain(round.difference);
        all.difference = found.min_by_key(|(number, _)| *number);
    }
    Ok(all)
}

/// Takes the next input until there is none, or until one shows a difference, which ends the round for all.
fn work(others: &Others, group: &Group, inputs: usize, next: &AtomicUsize) -> io::Result<Round> {
    let mut round = Round::default();
    loop {
        let number = next.fetch_add(1, Ordering::Relaxed);
        if number >= inputs {
            return Ok(round);
        }
        let input = (group.input)(number);
        let (printed, parting) = others.compare(&input)?;
        if parting.is_some() {
            next.store(inputs, Ordering::Relaxed);
            round.difference = Some((number, input));
            return Ok(round);
        }
        // An error line ends a script: what comes after it is compared with nothing.
        let error = printed.split(|&byte| byte == b'\n').any(|line| line.starts_with(b"error="));
        assert!(!(input.sound && error), "input {number} of group {} has an error line", group.name);
        round.coverage.add(&Coverage::of(input.program, &input.bytes(), &printed));
    }
}
