//! Characters as a terminal shows them: how many columns each takes, and nothing that a terminal
//! would act on. A source may be anything, so it must not be able to move the cursor, change colours,
//! or let text read in another order than it stands.

use crate::escape::is_hidden;

/// The columns of a tab stop.
const TAB: usize = 4;

/// A character as it is shown from a column on, and how many columns it takes.
pub fn glyph(c: char, column: usize) -> (String, usize) {
    if c == '\t' {
        let width = TAB - column % TAB;
        return (" ".repeat(width), width);
    }
    if is_hidden(c) {
        let shown = c.escape_unicode().to_string();
        let width = shown.len();
        return (shown, width);
    }
    (c.to_string(), width(c))
}

/// Text of one line, made safe.
pub fn safe(text: &str) -> String {
    let mut shown = String::with_capacity(text.len());
    let mut column = 0;
    for c in text.chars() {
        let (glyph, width) = glyph(c, column);
        shown.push_str(&glyph);
        column += width;
    }
    shown
}

/// The most columns of a line of prose.
pub const COLUMNS: usize = 100;

/// Prose broken between words: the first line begins in a column, the others are set in. A word that is
/// too long for a line stays whole.
pub fn wrapped(text: &str, column: usize, inset: usize) -> String {
    let columns = |word: &str| word.chars().map(|c| glyph(c, 0).1).sum::<usize>();
    let mut lines = String::new();
    let mut at = column;
    for (i, word) in text.split(' ').enumerate() {
        let fits = at + 1 + columns(word) <= COLUMNS;
        match (i, fits) {
            (0, _) => at += columns(word),
            (_, true) => {
                lines.push(' ');
                at += 1 + columns(word);
            }
            (_, false) => {
                lines += &format!("\n{:inset$}", "");
                at = inset + columns(word);
            }
        }
        lines.push_str(word);
    }
    lines
}

/// Columns of a character that is shown as it is: none for marks set on the one before, two for the
/// wide ones of East Asia and for pictures, else one. Near enough for a line under a place.
fn width(c: char) -> usize {
    match c {
        '\u{300}'..='\u{36f}' | '\u{1ab0}'..='\u{1aff}' | '\u{20d0}'..='\u{20ff}' => 0,
        '\u{1100}'..='\u{115f}'
        | '\u{2e80}'..='\u{a4cf}'
        | '\u{ac00}'..='\u{d7a3}'
        | '\u{f900}'..='\u{faff}'
        | '\u{fe30}'..='\u{fe6f}'
        | '\u{ff00}'..='\u{ff60}'
        | '\u{ffe0}'..='\u{ffe6}'
        | '\u{1f300}'..='\u{1faff}'
        | '\u{20000}'..='\u{3fffd}' => 2,
        _ => 1,
    }
}

#[cfg(test)]
mod tests {
    use super::*;

    #[test]
    fn what_a_terminal_would_act_on_is_written_out() {
        assert_eq!(safe("a\u{1b}[2Jb"), "a\\u{1b}[2Jb");
        assert_eq!(safe("\u{202e}x\u{7f}\u{9b}\r\u{feff}"), "\\u{202e}x\\u{7f}\\u{9b}\\u{d}\\u{feff}");
        assert_eq!(safe("a\tb\t\tc"), "a   b       c");
        assert_eq!(safe("Müller 鈴木"), "Müller 鈴木");
    }

    #[test]
    fn prose_is_broken_between_words() {
        let words = "word ".repeat(40);
        let broken = wrapped(words.trim_end(), 5, 2);
        let lengths: Vec<usize> = broken.lines().map(str::len).collect();
        assert_eq!(lengths, [94, 96, 11]);
        assert_eq!(broken.replace("\n  ", " "), words.trim_end());
        assert_eq!(wrapped(&"木 ".repeat(40), 0, 0).lines().map(str::len).max(), Some(33 * 4 - 1));
        let long = "x".repeat(200);
        assert_eq!(wrapped(&format!("a {long} b"), 0, 2), format!("a\n  {long}\n  b"));
        assert_eq!(wrapped("", 3, 3), "");
    }

    #[test]
    fn columns() {
        assert_eq!(['a', 'ü', '木', '\u{301}', '😀'].map(|c| glyph(c, 0).1), [1, 1, 2, 0, 2]);
        assert_eq!([0, 1, 3, 4].map(|column| glyph('\t', column).1), [4, 3, 1, 4]);
        assert_eq!(glyph('\0', 0), ("\\u{0}".to_string(), 5));
    }
}
