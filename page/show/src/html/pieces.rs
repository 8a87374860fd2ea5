//! The source cut into pieces, so that spans that lie in each other, cross each other, run over
//! lines or are empty can all be marked: HTML can nest nothing that crosses.

use crate::Source;
use std::collections::BTreeSet;
use std::ops::Range;

/// A span of the source that is marked, inside of it. Its number is its position in the list.
#[derive(Clone, Copy, Debug, PartialEq, Eq)]
pub struct Spot {
    pub from: usize,
    pub to: usize,
}

/// A stretch of one line with the same marks all along.
#[derive(Clone, Debug, PartialEq, Eq)]
pub struct Piece {
    pub from: usize,
    pub to: usize,
    /// The shortest spot that it lies in.
    pub inmost: Option<usize>,
    /// How many spots it lies in.
    pub depth: usize,
    /// The spots that begin with it, the longest first.
    pub begins: Vec<usize>,
}

/// A line of the source: where its text begins and ends, without its line end, and its pieces. A
/// piece beyond the text is the line end, and is there only where a spot begins with it.
#[derive(Clone, Debug, PartialEq, Eq)]
pub struct Line {
    pub from: usize,
    pub to: usize,
    pub pieces: Vec<Piece>,
}

/// Every line of the source with its pieces; the spots lie inside of the source.
pub fn lines(source: &Source, spots: &[Spot]) -> Vec<Line> {
    let mut sweep = Sweep::of(spots);
    let cuts = cuts(spots);
    (1..=source.lines()).map(|n| line(source, n, &cuts, &mut sweep)).collect()
}

fn cuts(spots: &[Spot]) -> Vec<usize> {
    let mut cuts: Vec<usize> = spots.iter().flat_map(|spot| [spot.from, spot.to]).collect();
    cuts.sort_unstable();
    cuts.dedup();
    cuts
}

fn line(source: &Source, n: usize, cuts: &[usize], sweep: &mut Sweep) -> Line {
    let Range { start: from, end: to } = source.range(n);
    let next = source.range(n + 1).start;
    let blank = source.bytes()[from..to].iter().take_while(|byte| byte.is_ascii_whitespace()).count();
    let inside = &cuts[cuts.partition_point(|cut| *cut < from)..cuts.partition_point(|cut| *cut < next)];
    let mut bounds: Vec<usize> = inside.iter().copied().chain([from, from + blank, to, next]).collect();
    bounds.sort_unstable();
    bounds.dedup();
    if n == source.lines() {
        bounds.push(next);
    }
    let pieces = bounds.windows(2).map(|pair| sweep.piece(pair[0], pair[1]));
    let kept = |piece: &Piece| piece.to > piece.from && piece.to <= to || !piece.begins.is_empty();
    Line { from, to, pieces: pieces.filter(kept).collect() }
}

/// Goes through the spots as they begin and end.
struct Sweep<'a> {
    spots: &'a [Spot],
    /// Those to come, the next one last.
    ahead: Vec<usize>,
    /// Those that are open: by length, then by number.
    open: BTreeSet<(usize, usize)>,
    /// The open ones again: by end.
    ends: BTreeSet<(usize, usize)>,
}

impl<'a> Sweep<'a> {
    fn of(spots: &'a [Spot]) -> Sweep<'a> {
        let mut ahead: Vec<usize> = (0..spots.len()).collect();
        ahead.sort_by_key(|i| std::cmp::Reverse((spots[*i].from, std::cmp::Reverse(spots[*i].to), *i)));
        Sweep { spots, ahead, open: BTreeSet::new(), ends: BTreeSet::new() }
    }

    /// The piece of a stretch; stretches come in order and no spot begins or ends inside of one.
    fn piece(&mut self, from: usize, to: usize) -> Piece {
        self.close(from);
        let begins = self.begin(from);
        let inmost = if from < to { self.open.first().map(|(_, i)| *i) } else { None };
        Piece { from, to, inmost, depth: self.open.len(), begins }
    }

    fn close(&mut self, at: usize) {
        while let Some((end, i)) = self.ends.first().copied().filter(|(end, _)| *end <= at) {
            self.ends.remove(&(end, i));
            self.open.remove(&(end - self.spots[i].from, i));
        }
    }

    fn begin(&mut self, at: usize) -> Vec<usize> {
        let mut begins = Vec::new();
        while let Some(i) = self.ahead.pop_if(|i| self.spots[*i].from <= at) {
            let Spot { from, to } = self.spots[i];
            if from < to {
                self.open.insert((to - from, i));
                self.ends.insert((to, i));
            }
            begins.push(i);
        }
        begins
    }
}

#[cfg(test)]
mod tests {
    use super::{Line, Spot, lines};
    use crate::Source;

    fn spots(list: &[(usize, usize)]) -> Vec<Spot> {
        list.iter().map(|(from, to)| Spot { from: *from, to: *to }).collect()
    }

    /// The lines as text: `<n` where a spot begins, `{n:text}` where one is inmost.
    fn shown(source: &str, list: &[(usize, usize)]) -> String {
        let piece = |p: &super::Piece| {
            let begins: String = p.begins.iter().map(|i| format!("<{i}")).collect();
            let text = source[p.from..p.to].replace('\n', "$").replace('\r', "%");
            begins + &p.inmost.map_or(text.clone(), |i| format!("{{{i}:{text}}}"))
        };
        let line = |line: &Line| line.pieces.iter().map(piece).collect::<String>();
        lines(&Source::of(source.as_bytes()), &spots(list)).iter().map(line).collect::<Vec<_>>().join("|")
    }

    #[test]
    fn spans_of_all_sorts() {
        for (source, list, expected) in [
            ("", &[][..], ""),
            ("", &[(0, 0)], "<0"),
            ("ab\ncd", &[], "ab|cd"),
            ("ab\r\ncd\n", &[], "ab|cd|"),
            ("abcd", &[(1, 3)], "a<0{0:bc}d"),
            ("abcd", &[(0, 4), (1, 3)], "<0{0:a}<1{1:bc}{0:d}"),
            ("abcd", &[(0, 3), (1, 4)], "<0{0:a}<1{0:bc}{1:d}"),
            ("abcd", &[(1, 3), (1, 3)], "a<0<1{0:bc}d"),
            ("abcd", &[(2, 2)], "ab<0cd"),
            ("abcd", &[(4, 4)], "abcd<0"),
            ("ab\n", &[(3, 3)], "ab|<0"),
            ("ab\ncd", &[(1, 4)], "a<0{0:b}|{0:c}d"),
            ("ab\ncd", &[(2, 3)], "ab<0{0:$}|cd"),
            ("ab\r\ncd", &[(3, 4)], "ab<0{0:$}|cd"),
            ("ab\ncd", &[(2, 2)], "ab<0$|cd"),
            ("ab\r", &[(3, 3)], "ab<0"),
            ("  ab\n  cd", &[(2, 8)], "  <0{0:ab}|{0:  }{0:c}d"),
        ] {
            assert_eq!(shown(source, list), expected, "{source:?} {list:?}");
        }
    }
}
