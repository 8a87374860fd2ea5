//! The lists, word for word, in buffers that are exact, too large, too short and empty. Of a pass's
//! own part a short buffer holds what fits, a record cut short among it, and all records are counted; the
//! full list is refused with 9, count 0, and the buffer is as it was.

use super::Asked;
use super::buffers::Expected;
use crate::mismatch::Mismatch;
use reference::{Pass, RECORD_WORDS, Record};

type List = fn(&[u8], &mut [u16]) -> (usize, usize);

/// A pass's own part of the list.
pub fn part(asked: &Asked, pass: Pass, list: List) -> Result<(), Mismatch> {
    let records = asked.judged.as_ref().map_or(&[][..], |judged| judged.part(pass));
    let words: Vec<u16> = records.iter().flat_map(Record::words).collect();
    for length in lengths(records.len()) {
        let what = || format!("{}'s part of the list in {length} words", pass.word());
        let written = &words[..words.len().min(length)];
        let expected = Expected { result: asked.refusal(), count: records.len(), written };
        expected.agrees(what, length, |buffer| list(asked.image, buffer))?;
    }
    Ok(())
}

/// The full list.
pub fn full(asked: &Asked) -> Result<(), Mismatch> {
    let judged = asked.judged.as_ref().map_err(|refusal| *refusal);
    for length in lengths(judged.map_or(0, |judged| judged.list().len())) {
        let what = || format!("the full list in {length} words");
        let mut room = vec![0; length];
        let expected = match judged.and_then(|judged| judged.list_into(&mut room)) {
            Ok(count) => Expected { result: 0, count, written: &room[..length.min(RECORD_WORDS * count)] },
            Err(refusal) => Expected::refused(usize::from(refusal)),
        };
        expected.agrees(what, length, |buffer| isonkaypu_sys::list(asked.image, buffer))?;
    }
    Ok(())
}

/// Room to spare, exact, short by one word, by two and by three, by a word of each record, by all.
fn lengths(records: usize) -> Vec<usize> {
    let full = RECORD_WORDS * records;
    let less = |by: usize| full.saturating_sub(by);
    let mut lengths = vec![full + 7, full, less(1), less(2), less(3), less(records), 0];
    lengths.dedup();
    lengths
}
