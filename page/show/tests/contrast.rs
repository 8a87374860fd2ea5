//! The colours of the page against WCAG 2.2, level AA: 4.5 to 1 for text, 3 to 1 for signs.

const STYLE: &str = include_str!("../src/html/style.css");

/// What is read on what.
const TEXT: &[(&str, &str)] = &[
    ("text", "page"),
    ("text", "paper"),
    ("text", "mark"),
    ("text", "also"),
    ("quiet", "page"),
    ("quiet", "paper"),
    ("quiet", "mark"),
    ("quiet", "also"),
    ("link", "page"),
    ("link", "paper"),
    ("bad-text", "bad-paper"),
    ("good-text", "good-paper"),
    ("open-text", "open-paper"),
    ("on-tag", "bad"),
    ("bad", "paper"),
    ("good", "paper"),
];
/// Signs and edges that say something, and what they stand on.
const SIGNS: &[(&str, &str)] =
    &[("bad", "mark"), ("link", "also"), ("open", "paper"), ("bad", "paper"), ("link", "paper")];

/// The value of a colour in a part of the style.
fn colour(part: &str, name: &str) -> [f64; 3] {
    let (_, rest) = part.split_once(&format!("--{name}: #")).unwrap_or_else(|| panic!("no --{name}"));
    let byte = |i: usize| u8::from_str_radix(&rest[2 * i..2 * i + 2], 16).expect("a colour");
    [0, 1, 2].map(|i| f64::from(byte(i)) / 255.0)
}

fn luminance(colour: [f64; 3]) -> f64 {
    let [r, g, b] = colour.map(|c| if c <= 0.04045 { c / 12.92 } else { ((c + 0.055) / 1.055).powf(2.4) });
    0.2126 * r + 0.7152 * g + 0.0722 * b
}

fn contrast(part: &str, (on, under): (&str, &str)) -> f64 {
    let (a, b) = (luminance(colour(part, on)), luminance(colour(part, under)));
    (a.max(b) + 0.05) / (a.min(b) + 0.05)
}

#[test]
fn light_and_dark_can_be_read() {
    let (light, dark) = STYLE.split_once("(prefers-color-scheme: dark)").expect("a dark part");
    for (scheme, part) in [("light", light), ("dark", dark)] {
        for (pairs, least) in [(TEXT, 4.5), (SIGNS, 3.0)] {
            for pair in pairs {
                let found = contrast(part, *pair);
                assert!(found >= least, "{scheme}: {pair:?} has {found:.2}, and should have {least}");
            }
        }
    }
}

/// The line under a mark lies below the `_` of a name, which would not be seen on it: `_` lies about a
/// quarter of an em below the letters.
#[test]
fn no_underscore_is_covered() {
    let (_, mark) = STYLE.split_once("\nmark {").expect("the style of marks");
    let (_, offset) = mark.split_once("text-underline-offset: ").expect("where the line lies");
    let em: f64 = offset.split_once("em").and_then(|(em, _)| em.parse().ok()).expect("in em");
    assert!(em >= 0.35, "{em}");
}

/// Nothing is loaded from anywhere.
#[test]
fn the_style_loads_nothing() {
    assert!(!STYLE.contains("url(") && !STYLE.contains("@import") && !STYLE.contains('<'));
}
