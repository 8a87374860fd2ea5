//! A lent buffer of words: what a call answers, what it writes from the buffer's start, and that all
//! else in it and behind it is as it was.

use crate::mismatch::{Mismatch, same};

/// How many words stand behind the lent ones. Nobody may touch these.
const BEHIND: usize = 8;

/// What is expected of a call: its result, its count, and the words that it writes.
pub struct Expected<'a> {
    pub result: usize,
    pub count: usize,
    pub written: &'a [u16],
}

impl Expected<'static> {
    /// A refusal counts nothing and writes nothing.
    pub fn refused(result: usize) -> Expected<'static> {
        Expected { result, count: 0, written: &[] }
    }
}

impl Expected<'_> {
    /// Holds a call with a buffer of this length to it; `what` is asked for its words on a mismatch alone.
    pub fn agrees(
        &self,
        what: impl Fn() -> String,
        length: usize,
        call: impl Fn(&mut [u16]) -> (usize, usize),
    ) -> Result<(), Mismatch> {
        let before = pattern(length + BEHIND);
        let mut buffer = before.clone();
        let answer = call(&mut buffer[..length]);
        let expected = [self.written, &before[self.written.len()..]].concat();
        let compared = same("", (self.result, self.count), answer).and_then(|()| same("", expected, buffer));
        compared.map_err(|mismatch| Mismatch { what: what(), ..mismatch })
    }
}

/// Words that no answer has, each another, so that one that was moved shows as well.
fn pattern(length: usize) -> Vec<u16> {
    (0..length).map(|k| 0xbeef ^ (k as u16)).collect()
}
