//! Text that others wrote, made harmless: for JSON, for HTML, for a URI. Characters that cannot be
//! seen, or that turn the order of what is seen, become visible marks.

use std::fmt::Write;

/// A string's inside for JSON. Beyond what RFC 8259 asks, what cannot be seen is escaped too, so
/// that a report read in a terminal shows what it says.
pub fn json(text: &str) -> String {
    let mut out = String::with_capacity(text.len());
    for c in text.chars() {
        match c {
            '"' | '\\' => out.extend(['\\', c]),
            '\n' => out.push_str("\\n"),
            '\r' => out.push_str("\\r"),
            '\t' => out.push_str("\\t"),
            c if is_hidden(c) => json_units(&mut out, c),
            c => out.push(c),
        }
    }
    out
}

fn json_units(out: &mut String, c: char) {
    for unit in c.encode_utf16(&mut [0; 2]) {
        let _ = write!(out, "\\u{unit:04x}");
    }
}

/// Text for HTML, in an element or between double quotes. Hidden characters become their marks.
pub fn html(text: &str) -> String {
    let mut out = String::with_capacity(text.len() + text.len() / 8);
    text.chars().for_each(|c| push_html(&mut out, c));
    out
}

/// Bytes for HTML, in an element only: as `html`, with each hidden character, and each byte that is
/// no UTF-8, set apart as a mark.
pub fn html_bytes(bytes: &[u8]) -> String {
    let mut out = String::with_capacity(bytes.len() + bytes.len() / 8);
    for chunk in bytes.utf8_chunks() {
        chunk.valid().chars().for_each(|c| push_marked(&mut out, c));
        chunk.invalid().iter().for_each(|byte| push_mark(&mut out, &format!("byte {byte:02X}")));
    }
    out
}

fn push_html(out: &mut String, c: char) {
    match c {
        '&' => out.push_str("&amp;"),
        '<' => out.push_str("&lt;"),
        '>' => out.push_str("&gt;"),
        '"' => out.push_str("&quot;"),
        '\'' => out.push_str("&#39;"),
        '\t' | '\n' => out.push(c),
        c if is_hidden(c) => out.push_str(&mark(c)),
        c => out.push(c),
    }
}

fn push_marked(out: &mut String, c: char) {
    if is_hidden(c) && c != '\t' && c != '\n' {
        push_mark(out, &mark(c));
    } else {
        push_html(out, c);
    }
}

fn push_mark(out: &mut String, mark: &str) {
    let _ = write!(out, "<span class=\"hidden-char\">{mark}</span>");
}

/// The visible mark of a hidden character: its number, since fonts often lack the pictures of controls.
fn mark(c: char) -> String {
    format!("[U+{:04X}]", u32::from(c))
}

/// Characters that show nothing or turn the order of others: controls, the bidirectional marks,
/// embeddings, overrides and isolates, zero-width ones, separators, tags and noncharacters.
pub fn is_hidden(c: char) -> bool {
    let number = u32::from(c);
    c.is_control()
        || matches!(c, '\u{ad}' | '\u{34f}' | '\u{61c}' | '\u{115f}' | '\u{1160}' | '\u{17b4}' | '\u{17b5}')
        || matches!(c, '\u{180b}'..='\u{180f}' | '\u{200b}'..='\u{200f}' | '\u{2028}'..='\u{202e}')
        || matches!(c, '\u{2060}'..='\u{206f}' | '\u{3164}' | '\u{feff}' | '\u{ffa0}' | '\u{fff0}'..='\u{fffb}')
        || matches!(c, '\u{fe00}'..='\u{fe0f}' | '\u{fdd0}'..='\u{fdef}' | '\u{e0000}'..='\u{e0fff}')
        || number & 0xfffe == 0xfffe
}

/// A label as a URI reference of RFC 3986: a path from the root becomes a `file` URI, everything
/// but unreserved characters and `/` is percent-encoded.
pub fn uri(label: &str) -> String {
    let mut out = String::from(if label.starts_with('/') { "file://" } else { "" });
    for byte in label.bytes() {
        match byte {
            b'A'..=b'Z' | b'a'..=b'z' | b'0'..=b'9' | b'-' | b'.' | b'_' | b'~' | b'/' => {
                out.push(char::from(byte));
            }
            _ => drop(write!(out, "%{byte:02X}")),
        }
    }
    out
}

#[cfg(test)]
mod tests {
    use super::*;

    #[test]
    fn for_json() {
        assert_eq!(json("a\"b\\c\n\r\t"), "a\\\"b\\\\c\\n\\r\\t");
        assert_eq!(json("\0\u{1b}\u{7f}\u{202e}\u{feff}"), "\\u0000\\u001b\\u007f\\u202e\\ufeff");
        assert_eq!(json("é木😀\u{e0001}"), "é木😀\\udb40\\udc01");
    }

    #[test]
    fn for_html() {
        assert_eq!(html("<a href=\"x\" b='c'>&amp;"), "&lt;a href=&quot;x&quot; b=&#39;c&#39;&gt;&amp;amp;");
        assert_eq!(html("a\u{202e}b\0"), "a[U+202E]b[U+0000]");
        let hidden = |mark: &str| format!("<span class=\"hidden-char\">{mark}</span>");
        assert_eq!(
            html_bytes(b"<\xff\xc3>\r"),
            format!("&lt;{}{}&gt;{}", hidden("byte FF"), hidden("byte C3"), hidden("[U+000D]"))
        );
        assert_eq!(html_bytes("\té".as_bytes()), "\té");
    }

    /// Every control, mark of direction, embedding, override and isolate of Unicode.
    #[test]
    fn nothing_that_turns_or_hides_is_missed() {
        let turns = [0x61c, 0x200e, 0x200f].into_iter().chain(0x202a..=0x202e).chain(0x2066..=0x2069);
        for number in (0..0x20).chain(0x7f..0xa0).chain(turns) {
            assert!(char::from_u32(number).is_some_and(is_hidden), "U+{number:04X}");
        }
        assert!(!"aZ09 é木ש😀\u{fffd}".chars().any(is_hidden));
    }

    #[test]
    fn for_a_uri() {
        for (label, expected) in [
            ("ward.quanta", "ward.quanta"),
            ("a b/ü#?.image", "a%20b/%C3%BC%23%3F.image"),
            ("/srv/w.image", "file:///srv/w.image"),
            ("C:\\w", "C%3A%5Cw"),
            ("//host/w", "file:////host/w"),
        ] {
            assert_eq!(uri(label), expected);
        }
    }
}
