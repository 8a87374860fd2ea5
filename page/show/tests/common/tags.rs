//! A strict reader of the tags of a page: it takes only what our pages are made of, so that anything
//! that breaks out of text or of an attribute is found.

/// A tag as it stands.
#[derive(Debug)]
pub struct Tag {
    pub name: String,
    pub closes: bool,
    pub attributes: Vec<(String, String)>,
}

/// All tags of a page in order. The style is taken as it is.
pub fn tags(html: &str) -> Vec<Tag> {
    let rest = html.strip_prefix("<!DOCTYPE html>\n").expect("the kind of document");
    let mut tags = Vec::new();
    let mut rest = text(rest);
    while let Some(inside) = rest.strip_prefix('<') {
        let (tag, after) = tag(inside);
        let style = tag.name == "style" && !tag.closes;
        tags.push(tag);
        rest = if style { &after[after.find("</style>").expect("the style ends")..] } else { text(after) };
    }
    assert_eq!(rest, "");
    tags
}

/// What follows a text, in which no sign stands bare.
fn text(html: &str) -> &str {
    let end = html.find('<').unwrap_or(html.len());
    let text = &html[..end];
    assert!(!text.contains(['>', '"', '\'']), "bare signs in {text:?}");
    entities(text);
    &html[end..]
}

fn entities(text: &str) {
    for after in text.split('&').skip(1) {
        let known = ["amp;", "lt;", "gt;", "quot;", "#39;"].iter().any(|entity| after.starts_with(entity));
        assert!(known, "&{after:.8}");
    }
}

fn tag(inside: &str) -> (Tag, &str) {
    let closes = inside.starts_with('/');
    let inside = inside.strip_prefix('/').unwrap_or(inside);
    let end = inside.find(|c: char| !c.is_ascii_alphanumeric()).expect("a tag ends");
    let mut tag = Tag { name: inside[..end].to_string(), closes, attributes: Vec::new() };
    let mut rest = &inside[end..];
    while let Some(after) = rest.strip_prefix(' ') {
        let (attribute, after) = attribute(after);
        tag.attributes.push(attribute);
        rest = after;
    }
    let rest = rest.strip_prefix('/').unwrap_or(rest);
    (tag, rest.strip_prefix('>').unwrap_or_else(|| panic!("a tag goes on: {rest:.20}")))
}

fn attribute(text: &str) -> ((String, String), &str) {
    let (name, rest) = text.split_once("=\"").expect("an attribute with its value");
    assert!(name.chars().all(|c| c.is_ascii_alphabetic() || c == '-'), "{name:?}");
    let (value, rest) = rest.split_once('"').expect("the value ends");
    assert!(!value.contains(['<', '>']), "{value:?}");
    entities(value);
    ((name.to_string(), value.to_string()), rest)
}
