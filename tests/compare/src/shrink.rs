//! shrunk == the smallest input found that still shows a difference

use crate::compare::Others;
use crate::input::{Input, Program};
use std::io;
use std::time::{Duration, Instant};

/// What is spent on it.
const MOST_TRIES: usize = 800;
const MOST_TIME: Duration = Duration::from_secs(60);

struct Shrinker<'a> {
    others: &'a Others,
    tries: usize,
    until: Instant,
}

/// Leaves out commands (of a file or a drawing: lines), then words of the commands that are left; of a drawing wales, each
/// in all its lines at once.
pub fn shrunk(others: &Others, input: &Input) -> io::Result<Input> {
    let mut shrinker = Shrinker { others, tries: MOST_TRIES, until: Instant::now() + MOST_TIME };
    let mut input = input.clone();
    let whole = input.clone();
    input.pieces = shrinker.fewer(&whole.pieces, |pieces| Input { pieces: pieces.to_vec(), ..whole.clone() })?;
    if matches!(input.program, Program::Plan | Program::PlanBase) {
        let whole = input.clone();
        let wales: Vec<usize> = (0..whole.pieces.iter().map(Vec::len).max().unwrap_or(0)).collect();
        let wales = shrinker.fewer(&wales, |wales| with_wales(&whole, wales))?;
        return Ok(with_wales(&whole, &wales));
    }
    for place in 0..input.pieces.len() {
        let whole = input.clone();
        let words = words(&whole.pieces[place]);
        let words = shrinker.fewer(&words, |words| with_piece(&whole, place, words.concat()))?;
        input.pieces[place] = words.concat();
    }
    Ok(input)
}

/// A command's words, each with the space before it; the last with the line feed. A `read` with its file is one word.
fn words(piece: &[u8]) -> Vec<Vec<u8>> {
    if piece.starts_with(b"read ") {
        return vec![piece.to_vec()];
    }
    let mut words: Vec<Vec<u8>> = Vec::new();
    for &byte in piece {
        match words.last_mut() {
            Some(word) if byte != b' ' && byte != b'\n' => word.push(byte),
            _ => words.push(vec![byte]),
        }
    }
    words
}

/// The drawing with these wales alone. Line feeds stay.
fn with_wales(input: &Input, wales: &[usize]) -> Input {
    let kept = |line: &Vec<u8>| {
        let bytes = line.iter().enumerate().filter(|(wale, &byte)| byte == b'\n' || wales.contains(wale));
        bytes.map(|(_, &byte)| byte).collect()
    };
    Input { pieces: input.pieces.iter().map(kept).collect(), ..input.clone() }
}

fn with_piece(input: &Input, place: usize, piece: Vec<u8>) -> Input {
    let mut input = input.clone();
    input.pieces[place] = piece;
    input
}

impl Shrinker<'_> {
    /// Leaves out as many parts as it finds it can: many at once first, then fewer, then one by one until none can go.
    fn fewer<P: Clone>(&mut self, parts: &[P], input_of: impl Fn(&[P]) -> Input) -> io::Result<Vec<P>> {
        let mut left = parts.to_vec();
        let mut many = left.len().div_ceil(2);
        while many > 0 {
            let before = left.len();
            let mut at = 0;
            while at < left.len() && !self.spent() {
                let fewer = [&left[..at], &left[left.len().min(at + many)..]].concat();
                if self.shows(&input_of(&fewer))? {
                    left = fewer;
                } else {
                    at += many;
                }
            }
            if many > 1 || left.len() == before || self.spent() {
                many /= 2;
            }
        }
        Ok(left)
    }

    fn spent(&self) -> bool {
        self.tries == 0 || Instant::now() > self.until
    }

    /// Does this input still show a difference?
    fn shows(&mut self, input: &Input) -> io::Result<bool> {
        self.tries -= 1;
        Ok(self.others.compare(input)?.1.is_some())
    }
}
