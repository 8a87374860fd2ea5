//! The source as lines and columns of byte offsets. Any bytes are a source: what is no UTF-8 shows as
//! U+FFFD, and an offset or a span that lies outside has no place here, which is no fault.

use isonkaypu::Span;
use std::ops::Range;

/// Columns are noted once in so many characters, so that no place needs a long line to be gone through.
const STEP: usize = 64;

/// The bytes of a source and where its lines begin. Lines end with LF or CR LF, and count from 1.
pub struct Source<'a> {
    bytes: &'a [u8],
    starts: Vec<usize>,
    /// Where each line's first character, its 65th and so on begin, and how many stand before it.
    steps: Vec<(usize, usize)>,
}

impl<'a> Source<'a> {
    /// The lines of these bytes.
    pub fn of(bytes: &'a [u8]) -> Source<'a> {
        let after_breaks = bytes.iter().enumerate().filter(|(_, b)| **b == b'\n').map(|(i, _)| i + 1);
        let starts = std::iter::once(0).chain(after_breaks).collect();
        let mut source = Source { bytes, starts, steps: Vec::new() };
        source.steps = (1..=source.lines()).flat_map(|n| source.steps_of(n)).collect();
        source
    }

    fn steps_of(&self, n: usize) -> impl Iterator<Item = (usize, usize)> + '_ {
        self.chars(n).enumerate().step_by(STEP).map(|(column, (bytes, _))| (bytes.start, column))
    }

    /// All of its bytes.
    pub fn bytes(&self) -> &'a [u8] {
        self.bytes
    }

    /// How many lines there are: at least one.
    pub fn lines(&self) -> usize {
        self.starts.len()
    }

    /// The bytes of line n, without its end. A line that is not there is empty.
    pub fn range(&self, n: usize) -> Range<usize> {
        let Some(from) = n.checked_sub(1).and_then(|i| self.starts.get(i)).copied() else {
            return self.bytes.len()..self.bytes.len();
        };
        let line = match self.starts.get(n) {
            Some(next) => &self.bytes[from..next - 1],
            None => &self.bytes[from..],
        };
        from..from + line.strip_suffix(b"\r").unwrap_or(line).len()
    }

    /// The characters of line n, each with the bytes that it stands for; tabs are kept.
    pub fn chars(&self, n: usize) -> impl Iterator<Item = (Range<usize>, char)> + '_ {
        self.chars_in(self.range(n))
    }

    /// The characters of a part of the source.
    pub fn chars_in(&self, range: Range<usize>) -> impl Iterator<Item = (Range<usize>, char)> + '_ {
        let mut at = range.start;
        self.bytes.get(range).unwrap_or_default().utf8_chunks().flat_map(move |chunk| {
            let valid = at;
            let invalid = valid + chunk.valid().len();
            at = invalid + chunk.invalid().len();
            let broken = (invalid < at).then_some((invalid..at, char::REPLACEMENT_CHARACTER));
            let whole = chunk.valid().char_indices();
            whole.map(move |(i, c)| (valid + i..valid + i + c.len_utf8(), c)).chain(broken)
        })
    }

    /// Line n as text; tabs are kept.
    pub fn line(&self, n: usize) -> String {
        String::from_utf8_lossy(&self.bytes[self.range(n)]).into_owned()
    }

    /// The line and the column of an offset, both from 1; the column counts characters. The end of
    /// the source has a place, what lies beyond has none.
    pub fn position(&self, offset: usize) -> Option<(usize, usize)> {
        if offset > self.bytes.len() {
            return None;
        }
        let line = self.line_of(offset);
        let range = self.range(line);
        let step = self.steps[..self.steps.partition_point(|(start, _)| *start <= offset)].last();
        let (at, noted) = step.copied().filter(|(at, _)| *at >= range.start).unwrap_or((range.start, 0));
        let after = self.chars_in(at..range.end).take_while(|(bytes, _)| bytes.end <= offset).count();
        Some((line, noted + after + 1))
    }

    /// The line that an offset stands in: the last one, for what lies beyond.
    pub fn line_of(&self, offset: usize) -> usize {
        self.starts.partition_point(|start| *start <= offset)
    }

    /// The offset itself, or the start of the character that it stands in the middle of.
    pub fn whole_chars(&self, offset: usize) -> usize {
        let begins = |at: &usize| self.bytes.get(*at).is_none_or(|b| b & 0b1100_0000 != 0b1000_0000);
        (offset.saturating_sub(3)..=offset).rev().find(begins).unwrap_or(offset)
    }

    /// The bytes of a span that lies in the source, in order.
    pub fn place(&self, span: Span) -> Option<Range<usize>> {
        let place = span.start as usize..span.end as usize;
        (place.start <= place.end && place.end <= self.bytes.len()).then_some(place)
    }
}

#[cfg(test)]
mod tests {
    use super::*;

    #[test]
    fn lines_and_columns() {
        let source = Source::of("a\r\n\tä€\nlast".as_bytes());
        assert_eq!(source.lines(), 3);
        assert_eq!([source.line(1), source.line(2), source.line(3)], ["a", "\tä€", "last"]);
        assert_eq!([source.line(0), source.line(4)], ["", ""]);
        let offsets = [0, 1, 2, 3, 4, 5, 6, 9, 10, 14];
        let places = [(1, 1), (1, 2), (1, 2), (2, 1), (2, 2), (2, 2), (2, 3), (2, 4), (3, 1), (3, 5)];
        assert_eq!(offsets.map(|o| source.position(o)), places.map(Some));
        assert_eq!(source.position(15), None);
    }

    /// The noted columns change nothing: each place is as if its line had been gone through.
    #[test]
    fn long_lines() {
        let line = [&b"a\xff"[..], "é€😀".as_bytes(), b"\xe2\x82\t"].concat().repeat(50);
        let bytes = [&b"\n"[..], &line, b"\r\n", &line, b"\n\n"].concat();
        let source = Source::of(&bytes);
        for offset in 0..=bytes.len() {
            let (n, column) = source.position(offset).unwrap();
            let gone_through = source.chars(n).take_while(|(place, _)| place.end <= offset).count();
            assert_eq!(column, gone_through + 1, "offset {offset} in line {n}");
        }
    }

    #[test]
    fn no_text_and_nothing() {
        let source = Source::of(b"\xff\xfea\n");
        assert_eq!(source.line(1), "\u{fffd}\u{fffd}a");
        assert_eq!([source.position(1), source.position(2)], [Some((1, 2)), Some((1, 3))]);
        assert_eq!([source.position(3), source.position(4)], [Some((1, 4)), Some((2, 1))]);
        let nothing = Source::of(b"");
        assert_eq!((nothing.lines(), nothing.line(1), nothing.position(0)), (1, String::new(), Some((1, 1))));
    }

    #[test]
    fn spans() {
        let source = Source::of(b"abc");
        let place = |start, end| source.place(Span { start, end });
        assert_eq!([place(0, 3), place(3, 3), place(1, 2)], [Some(0..3), Some(3..3), Some(1..2)]);
        assert_eq!([place(2, 1), place(0, 4), place(u32::MAX, u32::MAX)], [None, None, None]);
    }
}
