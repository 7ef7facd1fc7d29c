//! Scan == "Bytes are judged from left to right, and the first fault decides."

use crate::answer::Refusal;

/// "Numbers are decimal, one to five digits"
const MOST_DIGITS: usize = 5;

/// The bytes of a file and how many of them were in good form.
pub struct Scan<'a> {
    bytes: &'a [u8],
    at: usize,
}

impl<'a> Scan<'a> {
    pub fn new(bytes: &'a [u8]) -> Scan<'a> {
        Scan { bytes, at: 0 }
    }

    /// The byte that comes next; none at the end.
    pub fn peek(&self) -> Option<u8> {
        self.bytes.get(self.at).copied()
    }

    /// "13: first wrong byte, from 0, or the length if it ends early"
    pub fn fault(&self) -> Refusal {
        Refusal::BadForm { byte: self.at }
    }

    /// Exactly these bytes.
    pub fn word(&mut self, word: &str) -> Result<(), Refusal> {
        for byte in word.bytes() {
            if self.peek() != Some(byte) {
                return Err(self.fault());
            }
            self.at += 1;
        }
        Ok(())
    }

    /// Nothing more.
    pub fn end(&self) -> Result<(), Refusal> {
        match self.peek() {
            None => Ok(()),
            Some(_) => Err(self.fault()),
        }
    }

    fn digit(&mut self) -> Option<u32> {
        let byte = self.peek()?;
        byte.is_ascii_digit().then(|| {
            self.at += 1;
            u32::from(byte - b'0')
        })
    }

    /// "one to five digits, no leading zero but for 0 itself". It stops where no digit may follow: a digit too many
    /// is then the first wrong byte of what must follow the number.
    pub fn number(&mut self) -> Result<u32, Refusal> {
        let mut value = self.digit().ok_or_else(|| self.fault())?;
        if value == 0 {
            return Ok(0);
        }
        for _ in 1..MOST_DIGITS {
            match self.digit() {
                Some(digit) => value = 10 * value + digit,
                None => break,
            }
        }
        Ok(value)
    }

    /// One whole line `key=value` with a number for its value.
    pub fn line(&mut self, key: &str) -> Result<u32, Refusal> {
        self.word(key)?;
        let value = self.number()?;
        self.word("\n")?;
        Ok(value)
    }
}
