//! The boundary to the proved static library, which is always linked. A lent slice passes as a
//! pointer and a length, an answer's place as a pointer; here these become slices and values again.
//! This is the only member that is unsafe, and each call is safe for the same reason: the pointers
//! come from live references, and the lengths are those of the slices.

#![deny(missing_docs, rustdoc::all)]

mod exported;

use exported::{List, Pass, Question};

/// The words of a record of a list: code, place, related, entry. `list` is refused with 9 where it is lent fewer
/// for each offence.
pub const RECORD: usize = 4;

/// What lent places hold before a call, so that an answer that is not written shows.
const UNSET: u8 = 0xa5;

/// The numbers of a verdict. The first is 0 where the pass accepts, 1 to 8 where the image is
/// refused, else the offence's code.
#[derive(Clone, Copy, Debug, PartialEq, Eq)]
pub struct Answer {
    /// 0, a refusal, or a code.
    pub number: usize,
    /// The node of the first offence; 0 where there is none.
    pub place: usize,
    /// That node's first span word.
    pub from: usize,
    /// That node's second span word.
    pub to: usize,
}

/// The kit that the library was made with, in the one line by which `rt version` names it.
pub fn kit() -> &'static str {
    env!("ISONKAYPU_KIT")
}

/// What the library was made from: one SHA-256 over the proved crates, in 64 hexadecimal digits.
pub fn library() -> &'static str {
    env!("ISONKAYPU_LIBRARY")
}

fn unset() -> usize {
    usize::from_ne_bytes([UNSET; size_of::<usize>()])
}

/// 0 where the image is admitted, else its refusal.
pub fn refusal(image: &[u8]) -> usize {
    // SAFETY: pointer and length are those of a live slice.
    unsafe { exported::isonkaypu_refusal(image.as_ptr(), image.len()) }
}

/// The verdict of the resolve pass.
pub fn resolve(image: &[u8]) -> Answer {
    pass(exported::isonkaypu_resolve, image)
}

/// The verdict of the access pass.
pub fn access(image: &[u8]) -> Answer {
    pass(exported::isonkaypu_access, image)
}

/// The verdict of the linear pass.
pub fn linear(image: &[u8]) -> Answer {
    pass(exported::isonkaypu_linear, image)
}

fn pass(function: Pass, image: &[u8]) -> Answer {
    let mut place = u16::from_ne_bytes([UNSET; 2]);
    let mut from = u32::from_ne_bytes([UNSET; 4]);
    let mut to = from;
    // SAFETY: pointer and length are those of a live slice; the rest are live and exclusive.
    let number = unsafe { function(image.as_ptr(), image.len(), &mut place, &mut from, &mut to) };
    Answer { number, place: usize::from(place), from: from as usize, to: to as usize }
}

/// The verdicts of resolve, access and linear, with one admission.
pub fn verdicts(image: &[u8]) -> [Answer; 3] {
    let mut numbers = [unset(); 12];
    // SAFETY: pointer and length are those of a live slice; the twelve numbers are live and
    // exclusive.
    unsafe { exported::isonkaypu_verdicts(image.as_ptr(), image.len(), &mut numbers) };
    let answer = |at: usize| Answer {
        number: numbers[at],
        place: numbers[at + 1],
        from: numbers[at + 2],
        to: numbers[at + 3],
    };
    [answer(0), answer(4), answer(8)]
}

/// The result, 0 to 8, and the byte that says yes (1) or no (0).
pub fn is_state(image: &[u8], name: &[u8]) -> (usize, u8) {
    question(exported::isonkaypu_is_state, image, name)
}

/// As `is_state`.
pub fn is_declared_asset(image: &[u8], name: &[u8]) -> (usize, u8) {
    question(exported::isonkaypu_is_declared_asset, image, name)
}

/// As `is_state`.
pub fn is_known_asset(image: &[u8], name: &[u8]) -> (usize, u8) {
    question(exported::isonkaypu_is_known_asset, image, name)
}

fn question(function: Question, image: &[u8], name: &[u8]) -> (usize, u8) {
    let mut yes = UNSET;
    // SAFETY: pointers and lengths are those of live slices; `yes` is live and exclusive.
    let result = unsafe { function(image.as_ptr(), image.len(), name.as_ptr(), name.len(), &mut yes) };
    (result, yes)
}

/// The full list: the result, 0 to 9, and the number of records, each of `RECORD` words.
pub fn list(image: &[u8], words: &mut [u16]) -> (usize, usize) {
    listed(exported::isonkaypu_list, image, words)
}

/// Resolve's part of the list: the result, 0 to 8, and the number of records; the words are written
/// as far as they go.
pub fn resolve_list(image: &[u8], words: &mut [u16]) -> (usize, usize) {
    listed(exported::isonkaypu_resolve_list, image, words)
}

/// As `resolve_list`.
pub fn access_list(image: &[u8], words: &mut [u16]) -> (usize, usize) {
    listed(exported::isonkaypu_access_list, image, words)
}

/// As `resolve_list`.
pub fn linear_list(image: &[u8], words: &mut [u16]) -> (usize, usize) {
    listed(exported::isonkaypu_linear_list, image, words)
}

fn listed(function: List, image: &[u8], words: &mut [u16]) -> (usize, usize) {
    let mut count = unset();
    // SAFETY: pointers and lengths are those of live slices, the words' one exclusive; `count` is
    // live and exclusive.
    let result =
        unsafe { function(image.as_ptr(), image.len(), words.as_mut_ptr(), words.len(), &mut count) };
    (result, count)
}

/// Why the lot at a place is refused, or is not: the result, 0, 1 to 8, 13 where no lot stands at that
/// place, or 10 where the words are too few; and how many words were written, two for each clause that
/// burns the lot and each use of it.
pub fn why(image: &[u8], place: usize, words: &mut [u16]) -> (usize, usize) {
    let mut count = unset();
    // SAFETY: as in `listed`.
    let result = unsafe {
        exported::isonkaypu_why(
            image.as_ptr(),
            image.len(),
            place,
            words.as_mut_ptr(),
            words.len(),
            &mut count,
        )
    };
    (result, count)
}

#[cfg(test)]
mod tests {
    use super::*;

    #[test]
    fn the_library_answers() {
        let mut words = [7; RECORD];
        assert_eq!(refusal(&[]), 1);
        assert_eq!(linear(&[0; 24]), Answer { number: 2, place: 0, from: 0, to: 0 });
        assert_eq!(verdicts(&[]).map(|answer| answer.number), [1; 3]);
        assert_eq!(is_known_asset(&[], b"QTOV"), (1, 0));
        assert_eq!((list(&[], &mut words), words), ((1, 0), [7; RECORD]));
        assert_eq!((why(&[], 5, &mut words), words), ((1, 0), [7; RECORD]));
    }

    #[test]
    fn the_kit_is_one_line() {
        assert!(!kit().trim().is_empty());
        assert_eq!(kit().lines().count(), 1);
    }

    #[test]
    fn the_library_is_that_of_the_crates_that_stand_here() {
        let script = concat!(env!("CARGO_MANIFEST_DIR"), "/made-from");
        let output = std::process::Command::new(script).output().unwrap();
        assert_eq!(String::from_utf8(output.stdout).unwrap(), format!("{}\n", library()));
    }
}
