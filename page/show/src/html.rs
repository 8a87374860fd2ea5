//! The report as one HTML file for the pharmacist: no script, nothing from outside, everything that
//! others wrote escaped.

mod banner;
mod card;
mod code;
mod excerpt;
mod pieces;
mod prose;
mod view;

use crate::about::{self, TOOL, VERSION};
use crate::{Subject, Text, escape, sha256};
use view::View;

const STYLE: &str = include_str!("html/style.css");

/// Nothing may be loaded and nothing may run: only the style that stands in the page.
const POLICY: &str = "default-src 'none'; style-src 'unsafe-inline'";

/// The report on a subject as a page. Faults come first, since they are what is to be mended; where there are
/// none, what was checked and what was not.
pub fn html(subject: &Subject) -> String {
    let view = View::of(subject);
    let boxes = banner::boxes(&view);
    let faults = code::section(&view) + &card::section(&view);
    let (first, then) = if view.count() == 0 { (boxes, faults) } else { (faults, boxes) };
    format!(
        "<!DOCTYPE html>\n<html lang=\"en\">\n{}<body>\n{}{}<main>\n{first}{then}{}</main>\n</body>\n</html>\n",
        head(&view),
        skip(&view),
        banner::section(&view),
        about(subject),
    )
}

fn head(view: &View) -> String {
    format!(
        "<head>\n<meta charset=\"utf-8\">\n\
         <meta http-equiv=\"Content-Security-Policy\" content=\"{POLICY}\">\n\
         <meta name=\"viewport\" content=\"width=device-width, initial-scale=1\">\n\
         <meta name=\"color-scheme\" content=\"light dark\">\n\
         <meta name=\"referrer\" content=\"no-referrer\">\n\
         <title>{}: {}</title>\n<style>\n{STYLE}</style>\n</head>\n",
        banner::title(view),
        escape::html(view.subject.label())
    )
}

/// For those who go by keyboard: straight to the faults.
fn skip(view: &View) -> &'static str {
    if view.count() == 0 { "" } else { "<a class=\"skip\" href=\"#faults\">Skip to the faults</a>\n" }
}

/// Which bytes this is about, who says so, and the raw numbers.
fn about(subject: &Subject) -> String {
    let row = |title: &str, html: String| format!("<div><dt>{title}</dt><dd>{html}</dd></div>");
    let digest =
        |bytes: &[u8]| format!("<code class=\"digest\">{}</code>, {} bytes", sha256::hex(bytes), bytes.len());
    format!(
        "<footer aria-labelledby=\"about\"><h2 id=\"about\">About this report</h2>\n<dl>{}{}{}{}{}</dl>\n\
         <details><summary>The raw numbers</summary><pre>{}</pre></details></footer>\n",
        subject.image().map_or(String::new(), |image| row("Packed contract (SHA-256)", digest(image))),
        match subject.text() {
            Text::Shown(given) => row("Text shown (SHA-256)", digest(given.bytes)),
            Text::Other(given, _) => row("Other text, not shown", digest(given.bytes)),
            _ => String::new(),
        },
        row("Checker", format!("{TOOL} {VERSION}")),
        row("Proved library", format!("<code class=\"digest\">{}</code>", about::library())),
        row("Proved with", escape::html(isonkaypu::kit())),
        escape::html(&crate::numbers(subject)),
    )
}
