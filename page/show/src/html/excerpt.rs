//! A place on its card: the line that it begins on, with the marked text marked, cut where it is long.

use crate::region::Region;
use crate::{Source, escape};

/// How much is shown of the marked text, and of what stands before and after it, in bytes.
const MARKED: usize = 120;
const AROUND: usize = 60;

/// The line that a region begins on, as code.
pub fn excerpt(source: &Source, region: &Region, class: &str) -> String {
    let line = source.range(region.start.0);
    let from = region.bytes.start.min(line.end);
    let to = region.bytes.end.min(line.end);
    let bytes = source.bytes();
    let set_in = bytes[line.start..from].trim_ascii_start();
    let before = tail(set_in, AROUND);
    let marked = head(&bytes[from..to], MARKED);
    let goes_on = region.bytes.end > line.end || marked.len() < to - from;
    let after = if goes_on { &[] } else { head(&bytes[to..line.end], AROUND) };
    let more = |is: bool| if is { "…" } else { "" };
    format!(
        "<code class=\"excerpt\">{}{}<mark class=\"{class}\">{}</mark>{}{}</code>",
        more(before.len() < set_in.len()),
        escape::html_bytes(before),
        escape::html_bytes(marked),
        escape::html_bytes(after),
        more(goes_on || to + after.len() < line.end),
    )
}

/// The first bytes, up to as many, cut between characters.
fn head(bytes: &[u8], most: usize) -> &[u8] {
    let end = (0..=most.min(bytes.len())).rev().find(|end| is_boundary(bytes, *end));
    &bytes[..end.unwrap_or(0)]
}

/// The last bytes, up to as many, cut between characters.
fn tail(bytes: &[u8], most: usize) -> &[u8] {
    let first = bytes.len().saturating_sub(most);
    let start = (first..=bytes.len()).find(|start| is_boundary(bytes, *start));
    &bytes[start.unwrap_or(bytes.len())..]
}

/// Does no character of UTF-8 go on here?
fn is_boundary(bytes: &[u8], at: usize) -> bool {
    bytes.get(at).is_none_or(|byte| byte & 0xc0 != 0x80)
}

#[cfg(test)]
mod tests {
    use super::*;
    use isonkaypu::Span;

    fn shown(source: &str, start: u32, end: u32) -> String {
        let source = Source::of(source.as_bytes());
        let region = Region::of(Some(&source), Span { start, end }).expect("it lies inside");
        let html = excerpt(&source, &region, "here");
        html.replace("<code class=\"excerpt\">", "")
            .replace("</code>", "")
            .replace("mark class=\"here\"", "mark")
    }

    #[test]
    fn the_line_with_its_mark() {
        assert_eq!(shown("a\n  send(x);\nb", 9, 10), "send(<mark>x</mark>);");
        assert_eq!(shown("a\n  send(x,\n  y);\nb", 4, 16), "<mark>send(x,</mark>…");
        assert_eq!(shown("ab", 2, 2), "ab<mark></mark>");
        assert_eq!(shown("", 0, 0), "<mark></mark>");
        let long = "é".repeat(200);
        assert_eq!(shown(&long, 200, 202), format!("…{0}<mark>é</mark>{0}…", "é".repeat(AROUND / 2)));
        assert_eq!(shown(&long, 0, 400), format!("<mark>{}</mark>…", "é".repeat(MARKED / 2)));
    }
}
