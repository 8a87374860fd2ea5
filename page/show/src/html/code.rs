//! The source with every fault marked: a number where a mark begins, the marked text underlined, and
//! under the line a word on each mark that begins on it, linked to its card.

use super::pieces::{Line, Piece, Spot, lines};
use super::prose;
use super::view::{Item, View};
use crate::region::Region;
use crate::{Mark, Source, Text, escape, notice};

/// A mark in the source: a fault's place or its related place.
struct Marked<'a> {
    item: &'a Item,
    mark: &'a Mark,
    spot: Spot,
    /// Which of the related places it is; the fault's own place is none.
    other: Option<usize>,
}

impl Marked<'_> {
    fn class(&self) -> &'static str {
        if self.other.is_some() { "also" } else { "here" }
    }

    fn id(&self) -> String {
        self.other.map_or_else(|| format!("here-{}", self.item.number), |i| self.item.other_id(i))
    }

    fn tag(&self) -> String {
        let (class, number) = (self.class(), self.item.number);
        let word = if self.other.is_some() { "also " } else { "" };
        format!(
            "<a class=\"tag {class}\" id=\"{}\" href=\"#fault-{number}\" tabindex=\"-1\" \
             aria-hidden=\"true\">{word}{number}</a>",
            self.id()
        )
    }

    fn note(&self) -> String {
        let (class, number) = (self.class(), self.item.number);
        let also = if self.other.is_some() { ", related place" } else { "" };
        format!(
            "<span class=\"note {class}\"><a href=\"#fault-{number}\">Fault {number}{also}</a>: {} \
             <span class=\"title\">({})</span></span>",
            prose::line(&self.mark.label),
            prose::line(&self.item.fault.title),
        )
    }
}

/// The section with the source, or a word on why there is none.
pub fn section(view: &View) -> String {
    match (&view.source, view.subject.text()) {
        (Some(source), _) => with_source(view, source),
        (None, Text::NotGiven | Text::NotHeld(_)) if view.count() == 0 => String::new(),
        (None, _) => without_source(view),
    }
}

fn without_source(view: &View) -> String {
    let why = match view.subject.text() {
        Text::Other(..) => {
            "The text that was given is not the one that this contract was packed from.".into()
        }
        _ => notice::not_shown(view.subject)
            .unwrap_or("The text of the contract was not given with it.".into()),
    };
    let named = match view.count() {
        0 => "",
        _ => " Places are named by the entry and by the number of the part (“node”) in the packed contract.",
    };
    format!(
        "<section class=\"box\" aria-labelledby=\"source\"><h2 id=\"source\">The contract’s text</h2><p>{}{named}</p>\
         </section>\n",
        prose::line(&why)
    )
}

fn with_source(view: &View, source: &Source) -> String {
    let marked = marked(view);
    let spots: Vec<Spot> = marked.iter().map(|marked| marked.spot).collect();
    let lines = lines(source, &spots);
    let shown = |(i, one): (usize, &Line)| line(source, i + 1, one, &marked);
    let rows: String = lines.iter().enumerate().map(shown).collect();
    format!(
        "<section aria-labelledby=\"source\"><h2 id=\"source\">The contract’s text</h2>\n{}{}\
         <div class=\"code\" dir=\"ltr\" translate=\"no\">\n{rows}</div></section>\n",
        legend(&marked, &lines),
        outside(view),
    )
}

fn marked<'a>(view: &'a View) -> Vec<Marked<'a>> {
    let one = |item: &'a Item, mark: &'a Mark, region: &Option<Region>, other: Option<usize>| {
        let bytes = region.as_ref().map(|region| region.bytes.clone())?;
        Some(Marked { item, mark, spot: Spot { from: bytes.start, to: bytes.end }, other })
    };
    let all = |item: &'a Item| {
        let others = item.fault.others.iter().zip(&item.others).enumerate();
        let others = others.map(|(i, (mark, region))| one(item, mark, region, Some(i)));
        let here = one(item, &item.fault.here, &item.here, None);
        std::iter::once(here).chain(others).flatten().collect::<Vec<_>>()
    };
    view.items().flat_map(all).collect()
}

/// What the marks mean: only of those that are there.
fn legend(marked: &[Marked], lines: &[Line]) -> String {
    if marked.is_empty() {
        return String::new();
    }
    let inside = lines.iter().flat_map(|line| &line.pieces).any(|piece| piece.depth > 1);
    let also = marked.iter().any(|one| one.other.is_some());
    let said = |is: bool, text: &'static str| if is { text } else { "" };
    format!(
        "<p class=\"legend\">A <mark class=\"here\">solid line</mark> and a number mark the place of a fault; \
         the number is that of its card below.{}{}</p>\n",
        said(also, ALSO),
        said(inside, INSIDE)
    )
}

const ALSO: &str = " A <mark class=\"also\">broken line</mark> with <span class=\"tag also\">also</span>marks a related \
                    place of the same fault.";
const INSIDE: &str = " A <mark class=\"here inside\">double line</mark> belongs to more than one place.";

/// A warning where marks do not lie in the text. Its names do, so it is not simply another text.
fn outside(view: &View) -> String {
    let lost = |item: &&Item| item.here.is_none() || item.others.iter().any(Option::is_none);
    let links: Vec<String> = view
        .items()
        .filter(lost)
        .map(|item| format!("<a href=\"#fault-{0}\">fault {0}</a>", item.number))
        .collect();
    if links.is_empty() {
        return String::new();
    }
    format!(
        "<p class=\"warning\"><strong>Not every place lies in this text:</strong> {}. The names of the contract \
         stand where they should, but these places do not; the page’s engineer should look.</p>\n",
        links.join(", ")
    )
}

fn line(source: &Source, number: usize, line: &Line, marked: &[Marked]) -> String {
    if number == source.lines() && number > 1 && line.from == line.to && line.pieces.is_empty() {
        return String::new();
    }
    let text: String = line.pieces.iter().map(|one| piece(source, line, one, marked)).collect();
    let begins = line.pieces.iter().flat_map(|piece| &piece.begins);
    let notes: String = begins.map(|i| marked[*i].note()).collect();
    let class = if notes.is_empty() { "line" } else { "line noted" };
    format!(
        "<div class=\"{class}\" id=\"line-{number}\"><span class=\"no\">{number}</span><code>{text}</code>{notes}\
         </div>\n"
    )
}

fn piece(source: &Source, line: &Line, piece: &Piece, marked: &[Marked]) -> String {
    let tags: String = piece.begins.iter().map(|i| marked[*i].tag()).collect();
    let bytes = &source.bytes()[piece.from..piece.to];
    let beyond = piece.from >= line.to && !piece.begins.is_empty();
    let text = match beyond {
        true => "<span class=\"hidden-char\">end of line</span>".to_string(),
        false => escape::html_bytes(bytes),
    };
    // the blanks that set a line in are not what is meant
    let blank = piece.begins.is_empty() && bytes.iter().all(u8::is_ascii_whitespace);
    match piece.inmost.filter(|_| !blank) {
        Some(i) => {
            let inside = if piece.depth > 1 { " inside" } else { "" };
            format!("{tags}<mark class=\"{}{inside}\">{text}</mark>", marked[i].class())
        }
        None => tags + &text,
    }
}
