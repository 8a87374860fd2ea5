//! The HTML form: whole, bound together by its links, and nothing breaks out of it.

use crate::common;
use crate::common::chance::Chance;
use crate::common::contracts::{BURNED_AND_SENT, BURNED_TWICE};
use crate::common::pages::{hostile, pages};
use crate::common::tags::{Tag, tags};
use crate::common::{crossing, fitted, images, mended, respanned, respanned_but_names};
use crate::common::{shown, shown_source, shown_ward};
use std::collections::HashSet;

/// The elements and attributes that the page is made of; nothing else may ever stand in it.
const ELEMENTS: &[&str] = &[
    "html", "head", "meta", "title", "style", "body", "header", "main", "footer", "nav", "section",
    "article", "div", "h1", "h2", "h3", "h4", "p", "ul", "ol", "li", "dl", "dt", "dd", "a", "span", "strong",
    "code", "pre", "mark", "bdi", "svg", "path", "details", "summary",
];
const ATTRIBUTES: &[&str] = &[
    "lang",
    "charset",
    "http-equiv",
    "content",
    "name",
    "class",
    "id",
    "href",
    "dir",
    "translate",
    "tabindex",
    "aria-hidden",
    "aria-label",
    "aria-labelledby",
    "viewBox",
    "d",
];

/// Every tag is one of ours, tags nest, and links lead to places of the same page.
fn sound(html: &str) -> Vec<Tag> {
    let tags = tags(html);
    let mut open = Vec::new();
    for tag in &tags {
        assert!(ELEMENTS.contains(&tag.name.as_str()), "<{}> in {html}", tag.name);
        for (name, _) in &tag.attributes {
            assert!(ATTRIBUTES.contains(&name.as_str()), "{name} in <{}>", tag.name);
        }
        match (tag.closes, ["meta", "path"].contains(&tag.name.as_str())) {
            (true, _) => assert_eq!(open.pop(), Some(&tag.name), "</{}> closes another", tag.name),
            (false, false) => open.push(&tag.name),
            (false, true) => {}
        }
    }
    assert!(open.is_empty(), "open: {open:?}");
    sound_links(&tags);
    tags
}

fn values<'a>(tags: &'a [Tag], name: &str) -> Vec<&'a str> {
    let all = tags.iter().flat_map(|tag| &tag.attributes);
    all.filter(|(one, _)| one == name).map(|(_, value)| value.as_str()).collect()
}

fn sound_links(tags: &[Tag]) {
    let ids = values(tags, "id");
    let known: HashSet<&str> = ids.iter().copied().collect();
    assert_eq!(ids.len(), known.len(), "an id stands twice");
    for link in values(tags, "href") {
        assert!(link.strip_prefix('#').is_some_and(|id| known.contains(id)), "{link} leads nowhere");
    }
    for id in values(tags, "aria-labelledby") {
        assert!(known.contains(id), "{id} labels nothing");
    }
}

#[test]
fn the_pages_are_sound() {
    for page in pages() {
        let tags = sound(&page.html);
        let count = |name: &str| tags.iter().filter(|tag| tag.name == name && !tag.closes).count();
        assert_eq!((count("h1"), count("title"), count("main")), (1, 1, 1), "{}", page.name);
        assert_eq!(count("article"), page.cards, "{}", page.name);
        assert!(page.html.contains(&format!("<title>{}: ", page.says)), "{}", page.name);
        assert!(page.html.contains("default-src 'none'; style-src 'unsafe-inline'"));
        assert!(page.html.contains("Not checked"), "{}", page.name);
        headings_descend(&tags, page.name);
    }
}

/// No heading leaves out a level.
fn headings_descend(tags: &[Tag], page: &str) {
    let level = |tag: &Tag| tag.name.strip_prefix('h').and_then(|level| level.parse::<u8>().ok());
    let levels: Vec<u8> = tags.iter().filter(|tag| !tag.closes).filter_map(level).collect();
    assert!(levels.windows(2).all(|pair| pair[1] <= pair[0] + 1), "{page}: {levels:?}");
}

/// Every fault is marked in the text and leads to its card, and every card leads back.
#[test]
fn marks_and_cards_are_bound() {
    let html = shown_ward(show::html);
    let tags = sound(&html);
    let links: HashSet<&str> = values(&tags, "href").into_iter().collect();
    for link in ["#fault-1", "#fault-2", "#fault-3", "#here-1", "#here-2", "#here-3", "#also-1"] {
        assert!(links.contains(link), "{link}");
    }
    for part in ["What it means", "Why it matters", "How to mend it", "Where"] {
        assert_eq!(html.matches(&format!("<dt>{part}</dt>")).count(), 3, "{part}");
    }
    assert_eq!(html.matches("<dt>Every use of it</dt>").count(), 1);
    assert_eq!(html.matches("<dt>Related place</dt>").count(), 0);
    let twice = shown_source(show::html, "contract C { state { x: u8; x: u8; } }");
    assert_eq!(twice.matches("<dt>Related place</dt>").count(), 1);
}

/// Cards stand under their entry, entries in the contract's order.
#[test]
fn faults_by_entry() {
    let html = shown_ward(show::html);
    let parts: Vec<&str> = html.split("<h3 id=\"group-").skip(1).collect();
    let titles: Vec<&str> = parts.iter().map(|part| between(part, "Entry <code>", "</code>")).collect();
    assert_eq!(titles, ["issue", "destroy"]);
    assert_eq!(parts.iter().map(|part| part.matches("<article").count()).collect::<Vec<_>>(), [2, 1]);
}

fn between<'a>(text: &'a str, before: &str, after: &str) -> &'a str {
    text.split_once(before).and_then(|(_, rest)| rest.split_once(after)).expect("both are there").0
}

/// The related places on the card of the only 62, as people read them: what is said of each, and its line.
fn related_places(source: &str) -> Vec<(String, String)> {
    let html = shown_source(show::html, source);
    sound(&html);
    let card = html.split("<article").find(|card| card.contains("(code 62)")).expect("a card for 62");
    let places = between(card, "<dt>Every use of it</dt><dd>", "</dd>");
    let place = |html: &str| {
        let (said, line) =
            html.split_once("</a>").and_then(|(_, rest)| rest.split_once("</p>")).expect("both");
        (plain(said), line.to_string())
    };
    places.split("<p>").skip(1).map(place).collect()
}

/// A related place as it has to be read.
fn related_place(label: &str, before: &str, marked: &str, after: &str) -> (String, String) {
    let line = format!("{before}<mark class=\"also\">{marked}</mark>{after}");
    (format!(": {label}"), format!("<code class=\"excerpt\">{line}</code>"))
}

/// Document 01's P9: the card leads to the clause and to the use.
#[test]
fn burned_and_sent() {
    let expected = [
        related_place("this clause is its first use", "burns ", "Morphine", ""),
        related_place("its second use, taken by the call send", "send(to, ", "lot", ");"),
    ];
    assert_eq!(related_places(BURNED_AND_SENT), expected);
}

/// `burns` alone makes two uses: the card leads to both clauses.
#[test]
fn burned_twice() {
    let label = "this clause is a use for each lot that it burns";
    let expected = ["Morphine", "Fentanyl"].map(|asset| related_place(label, "burns ", asset, ""));
    assert_eq!(related_places(BURNED_TWICE), expected);
}

/// A code is explained by an example once, however often it comes.
#[test]
fn one_example_for_each_code() {
    let source = "contract C { entry e() { emit A(); emit B(); } entry f() { emit A(); } }";
    let html = shown_source(show::html, source);
    sound(&html);
    assert_eq!(
        (html.matches("<article").count(), html.matches("<details class=\"example\"").count()),
        (3, 1)
    );
}

/// Where no place lies in the text, the page says so of every fault, and marks nothing.
#[test]
fn places_outside_are_told() {
    let source = "contract C { state { s: u8; } entry e() { emit A(); s = 1; f(); } }";
    let image = respanned_but_names(&example::image(source), |_| (5, 4));
    let html = shown(show::html, "x", &image, Some(source.as_bytes()));
    sound(&html);
    let warning = between(&html, "<p class=\"warning\">", "</p>");
    assert!((1..=3).all(|n| warning.contains(&format!("#fault-{n}"))), "{warning}");
    assert!(!html.contains("<mark"));
}

#[test]
fn crossing_spans_are_all_marked() {
    let html = crossing(show::html);
    let tags = sound(&html);
    let ids: HashSet<&str> = values(&tags, "id").into_iter().collect();
    assert!(["here-2", "here-3", "here-4"].iter().all(|id| ids.contains(id)));
    assert_eq!(html.matches("is not in this text").count(), 2, "a place and a related place lie outside");
}

#[test]
fn an_accepted_contract_has_no_marks() {
    let html = shown_source(show::html, &mended());
    let tags = sound(&html);
    assert!(tags.iter().all(|tag| tag.name != "mark"));
}

/// What turns or hides text is shown by its number, and never stands in the page itself.
#[test]
fn hidden_characters_are_shown() {
    let html = hostile(show::html);
    sound(&html);
    for number in (0x202a..=0x202e).chain(0x2066..=0x2069).chain([0x200b, 0xfeff, 0, 0x1b, 0x7f, 0x85]) {
        let c = char::from_u32(number).expect("a character");
        assert!(!html.contains(c), "U+{number:04X} stands bare");
        assert!(html.contains(&format!("[U+{number:04X}]")), "U+{number:04X} is not shown");
    }
    assert!(html.chars().all(|c| c == '\n' || c == '\t' || !c.is_control()));
}

/// The text of the contract as the page has it: its lines without tags and marks.
fn text_of(html: &str) -> Vec<String> {
    let (_, code) = html.split_once("<div class=\"code\"").expect("the text");
    let (code, _) = code.split_once("</section>").expect("the text ends");
    let line = |part: &str| {
        let (_, text) = part.split_once("</span><code>").expect("a line");
        plain(text.split_once("</code>").expect("a line ends").0)
    };
    code.split("<div class=\"line").skip(1).map(line).collect()
}

fn plain(html: &str) -> String {
    let mut text = String::new();
    for (i, part) in html.split('<').enumerate() {
        let (tag, rest) = if i == 0 { ("", part) } else { part.split_once('>').expect("a tag") };
        // what stands in a link is the number of a mark
        text += if tag.starts_with("a ") { "" } else { rest };
    }
    text.replace("end of line", "")
}

/// Whatever is marked, the text stays as it is: nothing is lost, doubled or moved.
#[test]
fn the_text_is_all_there() {
    for (seed, image) in (0..300).zip(images().iter().cycle()) {
        let mut chance = Chance::new(seed);
        let (image, source) = fitted(image, &mut chance, |chance| {
            let length = chance.below(12);
            let chars = (0..length).map(|_| ['a', 'b', ' ', 'é', '\n', '\t', ';'][chance.below(7)]);
            chars.collect::<String>().into_bytes()
        });
        let source = String::from_utf8(source).expect("text");
        let image = whole_chars(&image, &source);
        let html = shown(show::html, "x", &image, Some(source.as_bytes()));
        let shown = text_of(&html).join("\n");
        // a line end at the end begins no line, unless something is marked behind it
        assert!(shown == source || format!("{shown}\n") == source, "{source:?} is shown as {shown:?}");
    }
}

/// The image with every span moved to where characters begin.
fn whole_chars(image: &[u8], source: &str) -> Vec<u8> {
    let tree = form::Tree::of(image).expect("a tree");
    let whole = |at: u32| if source.is_char_boundary(at as usize) { at } else { at.saturating_add(1) };
    respanned(image, |i| (whole(tree.nodes[i].from), whole(tree.nodes[i].to)))
}

/// Any bytes as source, any label and any span words give a sound page.
#[test]
fn anything_gives_a_sound_page() {
    for (seed, image) in (0..300).zip(images().iter().cycle()) {
        let mut chance = Chance::new(seed);
        let length = chance.below(80);
        let source = if seed % 3 == 0 { chance.bytes(length) } else { chance.nasty(length) };
        let label = String::from_utf8_lossy(&chance.nasty(8)).into_owned();
        let image = respanned(image, |_| chance.span(source.len()));
        sound(&shown(show::html, &label, &image, Some(&source)));
        let (image, source) = fitted(&image, &mut chance, |chance| {
            let length = chance.below(8);
            if seed % 3 == 0 { chance.bytes(length) } else { chance.nasty(length) }
        });
        let html = shown(show::html, &label, &image, Some(&source));
        sound(&html);
        assert!(html.contains("<div class=\"code\""), "the text is shown");
    }
}

/// Bytes that are no image, and images cut short or changed, give a sound page too.
#[test]
fn anything_as_an_image_gives_a_sound_page() {
    for (seed, image) in (0..300).zip(images().iter().cycle()) {
        let mut chance = Chance::new(seed);
        let mut image = image.clone();
        let at = chance.below(image.len());
        match seed % 2 {
            0 => image[at] = chance.below(256) as u8,
            _ => image.truncate(at),
        }
        let html = shown(show::html, "x", &image, None);
        sound(&html);
        show_all(&image);
    }
}

fn show_all(image: &[u8]) {
    for form in [show::json, show::sarif] {
        assert!(shown(form, "x", image, Some(b"text")).ends_with("}\n"));
    }
}

/// A contract that has no image: the limit's own sentence as the heading, and its line with the place marked.
#[test]
fn not_packed() {
    for limit in common::LIMITS {
        let html = common::umlaut(show::html, limit);
        sound(&html);
        let number = match limit.number() {
            0 => String::new(),
            number => format!(" <span class=\"at\">image {number}</span>"),
        };
        let (title, _) = html.split_once(&format!("{number}</h2><dl>")).expect("a heading");
        let sentence = limit.to_string();
        let begins = &sentence[1..sentence.find('`').unwrap_or(sentence.len())];
        assert!(title.rsplit("<h2>").next().is_some_and(|title| title.contains(begins)), "{title}");
        assert!(html.contains("<dt>Where</dt><dd><p>Line 2, column 13</p>"), "{html}");
        let marked = "<code class=\"excerpt\">state { <mark class=\"here\">ausgabe_für</mark>: u64; }</code>";
        assert!(html.contains(marked), "{html}");
        assert!(html.contains("<dt>What to do</dt>"), "{html}");
    }
    let ours = common::umlaut(show::html, isonkaypu::Limit::Unlike);
    assert!(ours.contains("Nothing in the contract is at fault") && !ours.contains("image 0"), "{ours}");
}

#[test]
fn not_packed_without_its_line() {
    let shown = |at, source| common::not_packed(show::html, isonkaypu::Limit::Nodes, at, source);
    assert!(shown((3, 9), None).contains("<p>Bytes 3 to 9 of the contract’s text</p>"));
    let text = "contract C { }\n";
    for at in [(9, 3), (0, u32::MAX)] {
        let html = shown(at, Some(text.as_bytes()));
        sound(&html);
        assert!(html.contains("which is no place in this text</p>"), "{html}");
    }
    sound(&shown((15, 15), Some(text.as_bytes())));
}

/// Who has faults to mend meets them first; who has none meets what nobody looked at.
#[test]
fn faults_come_first() {
    for page in pages() {
        let at = |id: &str| page.html.find(&format!("id=\"{id}\""));
        match (at("faults"), at("not-checked")) {
            (Some(faults), Some(not_checked)) => assert!(faults < not_checked, "{}", page.name),
            (None, Some(not_checked)) => {
                assert!(at("source").is_none_or(|source| not_checked < source), "{}", page.name);
            }
            (_, None) => panic!("{}: what was not checked is not said", page.name),
        }
    }
}

/// Where nothing was checked, the rules are not said to look at nothing.
#[test]
fn no_rule_is_blamed_for_what_could_not_be_read() {
    for page in pages() {
        let read = page.html.contains("id=\"checked\"");
        assert_eq!(page.html.contains("No rule looks at these"), read, "{}", page.name);
    }
}
