//! A place in the source as a terminal shows it: the line, and a row of signs under the place.

use crate::source::Source;
use crate::terminal::glyph;
use std::ops::Range;

/// Lines of more bytes than this are cut around the place.
const LONG: usize = 120;
/// How many bytes of a cut line stand before the place.
const BEFORE: usize = 40;

/// A place in a source.
pub struct Excerpt<'s, 'a> {
    source: &'s Source<'a>,
    place: Range<usize>,
    /// The line that the place begins in.
    pub line: usize,
}

impl<'s, 'a> Excerpt<'s, 'a> {
    /// The excerpt for a place that lies in the source.
    pub fn of(source: &'s Source<'a>, place: Range<usize>) -> Excerpt<'s, 'a> {
        let line = source.line_of(place.start);
        Excerpt { source, place, line }
    }

    /// The line that the place ends in, where that is another one.
    fn last_line(&self) -> Option<usize> {
        let last_byte = self.place.end.saturating_sub(1).max(self.place.start);
        Some(self.source.line_of(last_byte)).filter(|last| *last > self.line)
    }

    /// The line and the column where the place begins.
    pub fn position(&self) -> Option<(usize, usize)> {
        self.source.position(self.place.start)
    }

    /// The line with its number, `width` digits wide.
    pub fn numbered(&self, width: usize) -> String {
        format!("  {:>width$} | {}", self.line, self.row().text).trim_end().to_string()
    }

    /// The signs under the place, painted, and what to say of it.
    pub fn underlined(
        &self,
        width: usize,
        sign: char,
        paint: impl Fn(&str) -> String,
        label: &str,
    ) -> String {
        let Row { from, to, .. } = self.row();
        let signs = paint(&String::from(sign).repeat(to.saturating_sub(from).max(1)));
        let on = self.last_line().map_or(String::new(), |last| format!(" (to line {last})"));
        format!("  {:width$} | {}{signs} {label}{on}", "", " ".repeat(from))
    }

    fn row(&self) -> Row {
        let line = self.source.range(self.line);
        let window = self.window(&line);
        let mut row = Row::default();
        row.dots(line.start < window.start);
        for (bytes, c) in self.source.chars_in(window.clone()) {
            row.add(bytes, c, &self.place);
        }
        row.from = row.marked.map_or(row.column, |(from, _)| from);
        row.to = row.marked.map_or(row.column, |(_, to)| to);
        row.dots(window.end < line.end);
        row
    }

    /// The bytes of the line that are shown.
    fn window(&self, line: &Range<usize>) -> Range<usize> {
        if line.len() <= LONG {
            return line.clone();
        }
        let from = self.place.start.min(line.end).saturating_sub(BEFORE).max(line.start).min(line.end - LONG);
        self.source.whole_chars(from)..self.source.whole_chars(from + LONG)
    }
}

/// A line as it is shown, as far as it is made.
#[derive(Default)]
struct Row {
    text: String,
    column: usize,
    marked: Option<(usize, usize)>,
    from: usize,
    to: usize,
}

impl Row {
    fn dots(&mut self, cut: bool) {
        if cut {
            self.text.push('…');
            self.column += 1;
        }
    }

    fn add(&mut self, bytes: Range<usize>, c: char, place: &Range<usize>) {
        let (shown, width) = glyph(c, self.column);
        let start = self.column;
        self.text.push_str(&shown);
        self.column += width;
        if bytes.end > place.start && (self.marked.is_none() || bytes.start < place.end) {
            let from = self.marked.map_or(start, |(from, _)| from);
            let to = if bytes.start < place.end { self.column } else { start };
            self.marked = Some((from, to));
        }
    }
}
