//! The cards: for each fault what it is, why it matters, how to mend it and where it is.

use super::excerpt::excerpt;
use super::prose;
use super::view::{Group, Item, View};
use crate::fault::counted;
use crate::region::Region;
use crate::{Fault, Mark, about, entries, escape};
use words::Entry;

/// All cards, by entry; nothing where there is no fault.
pub fn section(view: &View) -> String {
    if view.groups.is_empty() {
        return String::new();
    }
    let groups: String = view.groups.iter().enumerate().map(|(i, one)| group(view, i + 1, one)).collect();
    format!(
        "<section aria-labelledby=\"faults\"><h2 id=\"faults\">The faults, entry by entry</h2>\n{}{groups}</section>\n",
        contents(view)
    )
}

/// Where to find which entry's faults, where there is more than one.
fn contents(view: &View) -> String {
    let row = |(i, group): (usize, &Group)| {
        let count = counted(group.items.len());
        let place = place_of(view, group).map_or(String::new(), |place| format!(", {place}"));
        format!("<li><a href=\"#group-{}\">{}</a>{place}: {count}</li>", i + 1, title(group))
    };
    let rows: String = view.groups.iter().enumerate().map(row).collect();
    match view.groups.len() {
        0 | 1 => String::new(),
        _ => format!("<nav aria-label=\"Faults by entry\"><ul class=\"contents\">{rows}</ul></nav>\n"),
    }
}

fn title(group: &Group) -> String {
    match &group.entry {
        Some(entry) => format!("Entry <code>{}</code>", escape::html(&entry.name)),
        None => "Outside of the entries".to_string(),
    }
}

/// Where an entry stands: entries can have the same name.
fn place_of(view: &View, group: &Group) -> Option<String> {
    group.entry.as_ref().map(|entry| entries::place(entry, view.source.as_ref()))
}

fn group(view: &View, number: usize, group: &Group) -> String {
    let place = match (&group.place, place_of(view, group)) {
        (Some(region), Some(place)) => {
            format!(" <a class=\"at\" href=\"#line-{}\">{place}</a>", region.start.0)
        }
        (None, Some(place)) => format!(" <span class=\"at\">{place}</span>"),
        (_, None) => String::new(),
    };
    let cards: String = group.items.iter().map(|item| card(view, item)).collect();
    format!(
        "<section aria-labelledby=\"group-{number}\"><h3 id=\"group-{number}\">{}{place}</h3>\n{cards}</section>\n",
        title(group)
    )
}

fn card(view: &View, item: &Item) -> String {
    let (fault, number) = (&item.fault, item.number);
    let words = words::code(fault.code);
    let part = |title: &str, text: &str| row(title, &prose::paragraphs(text));
    let said = |pick: fn(&Entry) -> &str| words.map_or("", pick);
    format!(
        "<article class=\"card\" id=\"fault-{number}\" aria-labelledby=\"title-{number}\">\
         <h4 id=\"title-{number}\"><span class=\"tag here\"><span class=\"quiet\">Fault </span>{number}</span> {}</h4>\n\
         <dl>{}{}{}{}{}</dl>\n{}<p class=\"code-number\">{}: {} (code {})</p></article>\n",
        prose::sentence(&fault.sentence),
        row("Where", &place(view, &format!("here-{number}"), &fault.here, &item.here, "here")),
        row(others_title(fault), &others(view, item)),
        part("What it means", said(|words| &words.means)),
        part("Why it matters", said(|words| &words.matters)),
        row("How to mend it", &mend(&fault.mend, said(|words| &words.how))),
        words.filter(|_| item.first).map_or(String::new(), example),
        prose::sentence(about::word(fault.pass)),
        prose::line(&fault.title),
        fault.code,
    )
}

/// The line for this contract, and what is to be said of the code at length.
fn mend(line: &str, how: &str) -> String {
    format!("<p class=\"mend\">{}</p>{}", prose::sentence(line), prose::paragraphs(how))
}

fn row(title: &str, html: &str) -> String {
    if html.is_empty() { String::new() } else { format!("<div><dt>{title}</dt><dd>{html}</dd></div>") }
}

fn others_title(fault: &Fault) -> &'static str {
    if fault.reasons.is_some() { "Every use of it" } else { "Related place" }
}

/// The related places of a fault, from the first to the last.
fn others(view: &View, item: &Item) -> String {
    let others = item.fault.others.iter().zip(&item.others).enumerate();
    others.map(|(i, (mark, region))| place(view, &item.other_id(i), mark, region, "also")).collect()
}

/// A place in words: in the text where it lies there, under the id of its mark, else by its node. The
/// class is `here`, or `also` for a related place.
fn place(view: &View, id: &str, mark: &Mark, region: &Option<Region>, class: &str) -> String {
    let label = prose::line(&mark.label);
    let label = if label.is_empty() { label } else { format!(": {label}") };
    let node = mark.node;
    match (&view.source, region) {
        (Some(source), Some(region)) => format!(
            "<p><a href=\"#{id}\">{}</a>{label}</p>{}",
            prose::sentence(&region.in_words()),
            excerpt(source, region, class)
        ),
        (Some(_), None) => format!(
            "<p>Node {node}{label} (its place, bytes {} to {}, is not in this text)</p>",
            mark.span.start, mark.span.end
        ),
        (None, _) => format!("<p>Node {node} of the packed contract{label}</p>"),
    }
}

fn example(words: &Entry) -> String {
    if words.before.is_empty() && words.after.is_empty() {
        return String::new();
    }
    let part = |title: &str, text: &str| format!("<p>{title}:</p><pre>{}</pre>", escape::html(text));
    format!(
        "<details class=\"example\"><summary>An example for code {}</summary>{}{}</details>\n",
        words.number,
        part("Before", &words.before),
        part("Mended", &words.after)
    )
}
