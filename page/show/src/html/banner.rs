//! The top of the page: the answer in words, the three checks, and what was not checked.

use super::excerpt::excerpt;
use super::prose;
use super::view::{Item, View};
use crate::about::{self, Claim};
use crate::fault::counted;
use crate::notice::{self, OtherText};
use crate::region::Region;
use crate::unread::Unread;
use crate::{Outcome, escape, list_refused, looks};
use isonkaypu::{Doubt, Pass, Report, Span};

/// How many faults the banner names one by one.
const SUMMARY: usize = 8;

/// The answer: its class in the style, its words, its drawing.
struct Answer {
    class: &'static str,
    title: String,
    drawing: &'static str,
    html: String,
}

/// The answer in a few words, without names: for the title of the page and of the banner.
pub fn title(view: &View) -> String {
    match view.subject.report() {
        Some(_) if view.subject.other_text().is_some() => "Text and image do not match".to_string(),
        Some(report) if report.accepted() => "Accepted".to_string(),
        Some(report) if list_refused(report) => "Refused: more faults than can be listed".to_string(),
        Some(report) if !report.doubts().is_empty() => "Refused: the answers are in doubt".to_string(),
        Some(_) => format!("Refused: {}", counted(view.count())),
        None => "Could not be read".to_string(),
    }
}

fn answer(view: &View) -> Answer {
    let title = title(view);
    if let Some(other) = notice::other_text(view.subject) {
        return other_text(view, title, &other);
    }
    match view.subject.outcome() {
        Outcome::Checked(report) if report.accepted() => Answer {
            class: "accepted",
            title,
            drawing: "M5 13l5 5L20 7",
            html: "<p>No fault was found by the rules that are <a href=\"#checked\">checked</a> here.</p>\
                   <p>It can still be wrong in what is <a href=\"#not-checked\">not checked</a>.</p>"
                .to_string(),
        },
        Outcome::Checked(report) => Answer {
            class: "refused",
            title,
            drawing: "M6 6l12 12M18 6L6 18",
            html: format!(
                "<p>This contract is not let through as it stands. {} Mend them all, then check the contract again.\
                 </p>{}<p>Below the faults: what is <a href=\"#checked\">checked</a>, and what is \
                 <a href=\"#not-checked\">not</a>.</p>",
                shown(report),
                doubts(report) + &summary(view)
            ),
        },
        _ => unread(view, title),
    }
}

/// The image was checked, but the text that was given with it is another one: no answer on that text.
fn other_text(view: &View, title: String, other: &OtherText) -> Answer {
    let alone = match view.subject.report().is_some_and(Report::accepted) {
        true => "The image alone has no fault.".to_string(),
        false => format!("The image alone is refused: {}.", counted(view.count())),
    };
    let doubts = view.subject.report().map_or(String::new(), doubts);
    let html = format!(
        "<p>{}</p><p><strong>What to do:</strong> {}.</p><p>{alone} {}</p>{doubts}{}",
        prose::sentence(&other.says),
        prose::line(notice::OTHER_TEXT_MEND),
        prose::line(&other.unsaid),
        summary(view),
    );
    Answer { class: "other", title, drawing: "M6 9h12M6 15h12M16 5L8 19", html }
}

fn unread(view: &View, title: String) -> Answer {
    let what = match view.subject.image() {
        Some(_) => "The packed contract could not be read, so nothing was checked.",
        None => "The contract could not be packed for the checks, so nothing was checked.",
    };
    let why = Unread::of(view.subject).map_or(String::new(), |unread| why(view, &unread));
    let html = format!("<p>{what}</p>{why}");
    Answer { class: "unread", title, drawing: "M12 5v9M12 18v1", html }
}

fn shown(report: &Report) -> &'static str {
    match (report.doubts().is_empty(), list_refused(report)) {
        (true, _) => "Every fault that was found is shown below; none is kept back.",
        (false, true) => {
            "The list of faults could not be made: only the first one of each check is shown below."
        }
        (false, false) => "Not every answer of the checker could be read; what could be is shown below.",
    }
}

/// Why the report is not to be relied on; nothing with the library that is proved.
fn doubts(report: &Report) -> String {
    let row =
        |doubt: &Doubt| format!("<p><strong>In doubt:</strong> {}.</p>", escape::html(&doubt.to_string()));
    report.doubts().iter().map(row).collect()
}

/// The first faults in a sentence each, and how many more there are.
fn summary(view: &View) -> String {
    if view.count() == 0 {
        return String::new();
    }
    let row = |item: &Item| {
        format!("<li><a href=\"#fault-{}\">{}</a></li>", item.number, prose::sentence(&item.fault.sentence))
    };
    let rows: String = view.items().take(SUMMARY).map(row).collect();
    let more = match view.count().saturating_sub(SUMMARY) {
        0 => String::new(),
        more => format!("<p>And <a href=\"#faults\">{more} more</a>.</p>"),
    };
    format!("<ol>{rows}</ol>{more}")
}

/// Why nothing was checked: of bytes in the words of their refusal, of a contract by the limit that it passes
/// and where.
fn why(view: &View, unread: &Unread) -> String {
    let Unread { number, sentence, mend, span, words } = unread;
    let part = |title: &str, html: &str| format!("<div><dt>{title}</dt><dd>{html}</dd></div>");
    let said = |title: &str, text: Option<&str>| {
        text.map_or(String::new(), |text| part(title, &prose::paragraphs(text)))
    };
    let number = number.map_or(String::new(), |n| format!(" <span class=\"at\">image {n}</span>"));
    // of a contract the number stands for several limits, so its own sentence is the heading
    let title = words.filter(|_| span.is_none()).map_or(sentence.as_str(), |words| &words.title);
    format!(
        "<h2>{}{number}</h2><dl>{}{}{}{}</dl>",
        prose::sentence(title),
        span.map_or(String::new(), |span| part("Where", &limit_place(view, span))),
        said("What it means", words.map(|words| words.means.as_str())),
        said("Why it matters", words.map(|words| words.matters.as_str())),
        said("What to do", Some(words.map_or(mend, |words| looks::how(view.subject, words)))),
    )
}

/// Where a contract passes a limit: the line with the place marked, or the bytes where the text does not show it.
fn limit_place(view: &View, span: Span) -> String {
    let Span { start, end } = span;
    match (&view.source, Region::of(view.source.as_ref(), span)) {
        (Some(source), Some(region)) => {
            format!("<p>{}</p>{}", prose::sentence(&region.in_words()), excerpt(source, &region, "here"))
        }
        (Some(_), None) => format!("<p>Bytes {start} to {end}, which is no place in this text</p>"),
        (None, _) => format!("<p>Bytes {start} to {end} of the contract’s text</p>"),
    }
}

/// The banner.
pub fn section(view: &View) -> String {
    let Answer { class, title, drawing, html } = answer(view);
    format!(
        "<header class=\"banner {class}\"><p class=\"product\">Isonkaypu: check of a ward contract</p>\
         <h1><svg viewBox=\"0 0 24 24\" aria-hidden=\"true\"><path d=\"{drawing}\"/></svg> {title}</h1>\
         <p class=\"file\"><bdi>{}</bdi></p>{html}</header>\n",
        escape::html(view.subject.label())
    )
}

/// What was checked, with the number of faults of each check; nothing where no check ran.
fn checked(view: &View) -> String {
    let count = |pass: Pass| view.items().filter(|item| item.fault.pass == pass).count();
    let row = |(pass, check): &(Pass, Claim)| check_row(check, count(*pass));
    let rows: String = about::checked(view.subject).iter().map(row).collect();
    if rows.is_empty() {
        return rows;
    }
    let (class, title) = match view.subject.other_text() {
        Some(_) => ("box alone", "Checked, of the image alone"),
        None => ("box", "Checked"),
    };
    format!(
        "<section class=\"{class}\" aria-labelledby=\"checked\"><h2 id=\"checked\">{title}</h2><ul class=\"checks\">\
         {rows}</ul></section>\n"
    )
}

fn check_row(check: &Claim, count: usize) -> String {
    let (class, result) = match count {
        0 => ("fine", "no fault".to_string()),
        _ => ("faulty", counted(count)),
    };
    format!(
        "<li class=\"{class}\"><strong>{}: {result}</strong> <span>{}</span></li>",
        prose::sentence(check.word),
        prose::sentence(check.means)
    )
}

/// What nobody may take for checked.
fn not_checked(view: &View) -> String {
    let row = |gap: &Claim| {
        format!(
            "<li><strong>{}</strong> <span>{}</span></li>",
            prose::sentence(gap.word),
            prose::sentence(gap.means)
        )
    };
    let rows: String = about::not_checked(view.subject).iter().map(row).collect();
    let why = match view.subject.report() {
        Some(_) => "No rule looks at these, and an accepted contract can be wrong in them:",
        None => "Nothing was checked, so this report says nothing about:",
    };
    format!(
        "<section class=\"box open\" aria-labelledby=\"not-checked\"><h2 id=\"not-checked\">Not checked</h2>\
         <p>{why}</p><ul class=\"checks\">{rows}</ul></section>\n"
    )
}

/// What was checked and what was not, side by side.
pub fn boxes(view: &View) -> String {
    format!("<div class=\"boxes\">{}{}</div>\n", checked(view), not_checked(view))
}
