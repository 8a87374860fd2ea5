//! Sentences as HTML: what stands between backticks is code, a blank line ends a paragraph.

use crate::about::capital;
use crate::escape;

/// A sentence, for inside of an element.
pub fn line(text: &str) -> String {
    let mut parts = text.split('`').map(escape::html).collect::<Vec<_>>();
    // a backtick without its partner is only a backtick
    if parts.len() % 2 == 0 {
        let last = parts.pop().unwrap_or_default();
        if let Some(before) = parts.last_mut() {
            *before += &format!("`{last}");
        }
    }
    let part = |(i, part): (usize, &String)| if i % 2 == 0 { part.clone() } else { code(part) };
    parts.iter().enumerate().map(part).collect()
}

fn code(escaped: &str) -> String {
    format!("<code>{escaped}</code>")
}

/// A sentence that begins with a capital letter, unless it begins with code.
pub fn sentence(text: &str) -> String {
    line(&capital(text))
}

/// One or more paragraphs.
pub fn paragraphs(text: &str) -> String {
    let kept = |part: &&str| !part.trim().is_empty();
    text.split("\n\n").filter(kept).map(|part| format!("<p>{}</p>", sentence(part.trim()))).collect()
}

#[cfg(test)]
mod tests {
    use super::*;

    #[test]
    fn backticks_are_code() {
        for (text, html) in [
            ("", ""),
            ("a `b` c", "a <code>b</code> c"),
            ("`b`", "<code>b</code>"),
            ("a ` <b>", "a ` &lt;b&gt;"),
            ("`a` `b", "<code>a</code> `b"),
            ("`<script>`", "<code>&lt;script&gt;</code>"),
        ] {
            assert_eq!(line(text), html, "{text}");
        }
        assert_eq!(sentence("entry `a`"), "Entry <code>a</code>");
        assert_eq!(paragraphs("one\n\n\n\ntwo"), "<p>One</p><p>Two</p>");
    }
}
