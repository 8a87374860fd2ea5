//! A report for people at a terminal: a banner, each fault with its place in the source and how to
//! mend it, and what was not checked; and the answer why one lot is refused.

mod why;

pub use why::{why, why_in_colour};

use crate::about::made_by;
use crate::excerpt::Excerpt;
use crate::fault::{Fault, Mark, counted, faults, list_refused};
use crate::ink::Ink;
use crate::source::Source;
use crate::subject::Subject;
use crate::terminal::{safe, wrapped};
use crate::unread::Unread;
use crate::{Group, about, by_entry, entries, notice};
use form::Tree;
use isonkaypu::{Entry, Pass, Report, Span};

/// The report as text. Where the source is missing, or a place is not in it, the entry, the node's number
/// and the span stand instead.
pub fn text(subject: &Subject) -> String {
    written(subject, Ink::Plain)
}

/// The same for a terminal that shows colours.
pub fn text_in_colour(subject: &Subject) -> String {
    written(subject, Ink::Coloured)
}

fn written(subject: &Subject, ink: Ink) -> String {
    let checked = subject.report().map(|report| checked(subject, report, ink));
    let unread = Unread::of(subject).map(|unread| not_read(subject, &unread, ink));
    checked.or(unread).unwrap_or_default() + &made_by() + "\n"
}

fn not_read(subject: &Subject, unread: &Unread, ink: Ink) -> String {
    let tag = unread.number.map_or("not packed".to_string(), |number| format!("image {number}"));
    let place = unread.span.map_or(String::new(), |span| limit_place(subject, span, ink));
    format!(
        "{}  {}\n\n{}{place}{}\nNothing was checked.\n",
        ink.open("NOT READ"),
        safe(subject.label()),
        headed(&ink.bad(&format!("[{tag}]")), &tag, &unread.sentence),
        mend(&unread.mend, ink),
    )
}

/// Where a contract passes a limit: its line, or the bytes where the source does not show it.
fn limit_place(subject: &Subject, span: Span, ink: Ink) -> String {
    let Span { start, end } = span;
    let source = subject.source().map(Source::of);
    match source.as_ref().map(|source| source.place(span).map(|place| Excerpt::of(source, place))) {
        Some(Some(excerpt)) => {
            let at = excerpt.position().map(|(line, column)| format!(":{line}:{column}")).unwrap_or_default();
            let width = excerpt.line.to_string().len();
            let marked = excerpt.underlined(width, '^', |signs| ink.bad(signs), "here");
            format!("  {}{at}\n{}\n{marked}\n", safe(subject.label()), excerpt.numbered(width))
        }
        Some(None) => format!("  bytes {start} to {end}, which is no place in the text\n"),
        None => format!("  bytes {start} to {end} of the text\n"),
    }
}

/// A number in brackets and its sentence.
fn headed(head: &str, plain: &str, sentence: &str) -> String {
    let column = plain.chars().count() + 3;
    format!("{head} {}\n", wrapped(sentence, column, column))
}

fn mend(how: &str, ink: Ink) -> String {
    format!("  {} {}\n", ink.strong("mend:"), wrapped(how, 8, 8))
}

fn checked(subject: &Subject, report: &Report, ink: Ink) -> String {
    let faults = faults(report);
    let source = subject.source().map(Source::of);
    let placed: Vec<_> =
        faults.iter().map(|fault| placed(&fault.here, &fault.others, source.as_ref())).collect();
    let page = Page::of(subject, source.as_ref(), placed.iter().flatten(), ink);
    let one = |i: usize| page.fault(&faults[i], &placed[i]) + "\n";
    let of_entry =
        |group: &Group| page.heading(group) + &group.faults.iter().map(|i| one(*i)).collect::<String>();
    let shown: String = match subject.is_by_entry() {
        true => by_entry(&faults).iter().map(of_entry).collect(),
        false => (0..faults.len()).map(one).collect(),
    };
    opening(subject, report, faults.len(), ink)
        + &shown
        + &summary(report, &faults)
        + &words::last_lines(faults.first().map(|fault| fault.code))
}

/// The banner and what is to be said before the faults.
fn opening(subject: &Subject, report: &Report, count: usize, ink: Ink) -> String {
    let (answer, what) = answer(report, count);
    let inked = if report.accepted() { ink.good(answer) } else { ink.bad(answer) };
    banner(subject, &format!("{inked}  {}: {what}", safe(subject.label())), ink, || {
        format!("is {}: {what}", answer.to_lowercase())
    })
}

/// The first line, or, where the text is another one, that it is, with what the image alone comes to.
fn banner(subject: &Subject, first: &str, ink: Ink, alone: impl Fn() -> String) -> String {
    let doubts = subject.report().map_or(&[][..], |report| report.doubts());
    let doubts: String = doubts.iter().map(|doubt| format!("in doubt: {doubt}\n")).collect();
    let Some(other) = notice::other_text(subject) else {
        let not_shown = notice::not_shown(subject).map_or(String::new(), |text| line(&text));
        return format!("{first}\n{doubts}{not_shown}\n");
    };
    format!(
        "{}  {}\n\n{}{}\n{}{doubts}\n",
        ink.open(words::OTHER_TEXT),
        safe(subject.label()),
        line(&other.says),
        mend(notice::OTHER_TEXT_MEND, ink),
        line(&format!("The image alone {}. {}", alone(), other.unsaid)),
    )
}

/// Prose from the first column on.
fn line(text: &str) -> String {
    wrapped(text, 0, 0) + "\n"
}

fn answer(report: &Report, count: usize) -> (&'static str, String) {
    match (report.accepted(), list_refused(report), report.doubts()) {
        (true, _, _) => ("ACCEPTED", "no faults".to_string()),
        (false, true, _) => ("REFUSED", "too many faults for a list; the first of each check".to_string()),
        (false, false, []) => ("REFUSED", counted(count)),
        (false, false, _) => ("REFUSED", "the answers are in doubt".to_string()),
    }
}

/// "3 faults: names 1, access 1, lots 1"; nothing where there are none.
fn summary(report: &Report, faults: &[Fault]) -> String {
    let count = |pass: Pass| faults.iter().filter(|fault| fault.pass == pass).count();
    let counts = Pass::ALL.iter().map(|pass| (about::word(*pass), count(*pass)));
    let counts: Vec<String> = counts.filter(|(_, n)| *n > 0).map(|(word, n)| format!("{word} {n}")).collect();
    match (faults.is_empty(), list_refused(report)) {
        (true, _) => String::new(),
        (false, false) => format!("{}: {}\n", counted(faults.len()), counts.join(", ")),
        (false, true) => format!("the first fault of each check: {}\n", counts.join(", ")),
    }
}

/// A place of a fault with its sign, and its excerpt where it is in the source.
struct Placed<'f, 's> {
    mark: &'f Mark,
    sign: char,
    excerpt: Option<Excerpt<'s, 's>>,
}

impl Placed<'_, '_> {
    /// Places on one line are shown under it together.
    fn on_one_line(&self, next: &Placed) -> bool {
        let line = |place: &Placed| place.excerpt.as_ref().map(|excerpt| excerpt.line);
        line(self).is_some() && line(self) == line(next)
    }
}

/// The place of a fault, or of a lot, and the other places.
fn placed<'f, 's>(here: &'f Mark, others: &'f [Mark], source: Option<&'s Source<'s>>) -> Vec<Placed<'f, 's>> {
    let excerpt = |mark: &Mark| source.and_then(|s| Some(Excerpt::of(s, s.place(mark.span)?)));
    let one = |mark: &'f Mark, sign| Placed { mark, sign, excerpt: excerpt(mark) };
    let others = others.iter().map(|mark| one(mark, '-'));
    std::iter::once(one(here, '^')).chain(others).collect()
}

/// What the places of all faults have in common.
struct Page<'a> {
    label: String,
    tree: Option<Tree<'a>>,
    source: Option<&'a Source<'a>>,
    /// How wide the numbers of lines are.
    width: usize,
    ink: Ink,
}

impl<'a> Page<'a> {
    fn of<'p>(
        subject: &Subject<'a>,
        source: Option<&'a Source<'a>>,
        placed: impl Iterator<Item = &'p Placed<'p, 'p>>,
        ink: Ink,
    ) -> Page<'a> {
        let lines = placed.filter_map(|place| place.excerpt.as_ref().map(|excerpt| excerpt.line));
        let width = lines.max().unwrap_or(0).to_string().len();
        let tree = subject.report().and_then(|report| report.tree());
        Page { label: safe(subject.label()), tree, source, width, ink }
    }

    /// "Entry `issue`, line 9: 2 faults"
    fn heading(&self, group: &Group) -> String {
        let which = match group.entry {
            Some(entry) => format!("Entry `{}`, {}", entry.name, entries::place(entry, self.source)),
            None => "Outside of the entries".to_string(),
        };
        format!("{}\n\n", self.ink.strong(&format!("{which}: {}", counted(group.faults.len()))))
    }

    /// "in entry `issue`"
    fn within(&self, entry: Option<&Entry>) -> String {
        match self.tree.as_ref().zip(entry) {
            Some((tree, entry)) => format!("in {}", entries::in_words(tree, entry, self.source)),
            None => "outside of the entries".to_string(),
        }
    }

    /// A fault: its sentence, its entry, its places, how to mend it. A place without a line names its entry itself.
    fn fault(&self, fault: &Fault, placed: &[Placed]) -> String {
        let head = self.ink.bad(&format!("[{}]", fault.code));
        let said = headed(&head, &fault.code.to_string(), &fault.sentence);
        let within = match placed {
            [Placed { excerpt: Some(_), .. }, ..] => format!("  {}\n", self.within(fault.entry.as_ref())),
            _ => String::new(),
        };
        said + &within + &self.all(placed) + &mend(&fault.mend, self.ink)
    }

    /// Places one after the other, those on one line under it together.
    fn all(&self, placed: &[Placed]) -> String {
        placed.chunk_by(Placed::on_one_line).map(|places| self.places(places)).collect()
    }

    /// Places on one line of the source, or one place that is not in it: `file:line:column` of each, then
    /// the line, then what is marked in it.
    fn places(&self, places: &[Placed]) -> String {
        let [Placed { excerpt: Some(first), .. }, ..] = places else {
            return places.iter().map(|place| self.without_excerpt(place.mark)).collect();
        };
        let excerpts = || places.iter().filter_map(|place| Some((place, place.excerpt.as_ref()?)));
        let at = |(line, column): (usize, usize)| format!("  {}:{line}:{column}\n", self.label);
        let positions: String = excerpts().filter_map(|(_, e)| e.position()).map(at).collect();
        let marked = |(place, excerpt): (&Placed, &Excerpt)| {
            let paint = |signs: &str| self.painted(place.sign, signs);
            excerpt.underlined(self.width, place.sign, paint, &place.mark.label) + "\n"
        };
        format!("{positions}{}\n{}", first.numbered(self.width), excerpts().map(marked).collect::<String>())
    }

    fn painted(&self, sign: char, signs: &str) -> String {
        if sign == '^' { self.ink.bad(signs) } else { self.ink.also(signs) }
    }

    fn without_excerpt(&self, mark: &Mark) -> String {
        let Mark { node, span, label, .. } = mark;
        let entry = self.tree.as_ref().and_then(|tree| Entry::around(tree, *node));
        let within = self.within(entry.as_ref());
        let outside = if self.source.is_some() { ", which is no place in the text" } else { "" };
        format!("  {within}, node {node}, bytes {} to {}{outside}: {label}\n", span.start, span.end)
    }
}
