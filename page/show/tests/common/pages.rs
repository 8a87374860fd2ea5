//! The pages that are looked at: one of each sort.

use super::{mended, sample, shown, shown_source, shown_ward, shown_with};
use show::Subject;

pub struct Page {
    pub name: &'static str,
    /// What its banner says.
    pub says: &'static str,
    pub cards: usize,
    pub html: String,
}

/// A source that tries to break out of the page, to turn the order of what is seen, and to hide.
pub const HOSTILE: &str = "contract W { // </pre></code></div><script>document.title='broken'</script>\n\
    // \"><img src=x onerror=\"document.title='broken'\"> ' onmouseover='x' <!-- --> ]]> &amp; &#60;\n\
    // \u{202a}a\u{202b}b\u{202c}c\u{202d}d\u{202e}e\u{2066}f\u{2067}g\u{2068}h\u{2069} \u{200b}\u{feff}\u{0}\u{1b}[31m\u{7f}\u{85}\n\
    // שלום <style>body{display:none}</style> \u{1f600}\r\n\
    \tstate { limit: u64; }\n\
    \tentry e(lot: Q_Asset<M>, lot: u64) { limit = \u{2067}limit\u{2069} + 1; send(lot, lot); }\n}\n";

/// Faults of many sorts, inside and outside of entries, more than the banner names.
const MANY: &str = "contract Ward {
    asset Morphine;
    asset Fentanyl;
    state { limit: u64; stock: Q_Asset<Morphine>; limit: u32; nurse: Q_Address; }
    event Issued(amount: u64);
    event Issued(amount: u64, to: Q_Address);
    genesis { Limit = 500; mint_asset(nurse, 5); }
    invariant stocked <= limit;
    entry issue(to: Q_Address, amount: u64 signed_by chief)
        writes stock, cupboard
        burns Ketamine
    {
        let part = stock.split(amount);
        let part = stock.split(amount);
        let other = part;
        guard caller == deployer;
        to.call(amount);
        emit Issued(amount);
    }
    entry issue(ward: Q_Address, amount: u64) { limit = amount; }
}
";

/// As the reader of examples can read it: the same length, with blanks for what it does not know.
fn readable(source: &str) -> String {
    let known = |c: char| {
        if c.is_ascii_graphic() || c.is_ascii_whitespace() { c.to_string() } else { " ".repeat(c.len_utf8()) }
    };
    source.chars().map(known).collect()
}

pub fn hostile(form: fn(&Subject) -> String) -> String {
    let label = "</title><script>alert(1)</script>\"'\u{202e}.quanta";
    shown(form, label, &example::image(&readable(HOSTILE)), Some(HOSTILE.as_bytes()))
}

pub fn pages() -> Vec<Page> {
    let html = show::html;
    let page = |name, says, cards, html| Page { name, says, cards, html };
    vec![
        page("faulty", "Refused: 3 faults", 3, shown_ward(html)),
        page("accepted", "Accepted", 0, shown_source(html, &mended())),
        page(
            "unread",
            "Could not be read",
            0,
            shown(html, "ward.image", &sample("ward.image")[..2000], None),
        ),
        page("not-packed", "Could not be read", 0, super::umlaut(html, isonkaypu::Limit::NameForm)),
        page("no-source", "Refused: 3 faults", 3, shown(html, "ward.image", &sample("ward.image"), None)),
        page("hostile", "Refused: 3 faults", 3, hostile(html)),
        page("many", "Refused: 18 faults", 18, shown_source(html, MANY)),
        page("crossing", "Refused: 4 faults", 4, super::crossing(html)),
        page("long", "Refused: 4 faults", 4, long(html)),
        page("other-text", "Text and image do not match", 3, other_text(html)),
        page("other-text-accepted", "Text and image do not match", 0, other_text_accepted(html)),
        page("too-long", "Accepted", 0, too_long(html)),
        page(
            "text-for-image",
            "Could not be read",
            0,
            shown(html, "ward.quanta", &sample("ward.quanta"), None),
        ),
    ]
}

/// Names as long as an image may have them, lines without end, and a label to match.
fn long(form: fn(&Subject) -> String) -> String {
    let name = |first: char| first.to_string() + &"n".repeat(127);
    let (a, b, c) = (name('a'), name('b'), name('c'));
    let source = format!(
        "contract {a} {{ state {{ {b}: u64; }} entry {c}({a}: Q_Asset<{b}>, {a}: u64) {{ {b} = {a} + {c}; emit {c}(); }} }}"
    );
    let label = format!("{}.quanta", "ward-".repeat(60));
    shown(form, &label, &example::image(&source), Some(source.as_bytes()))
}

/// The ward's contract with a text that has one remark more.
pub fn other_text(form: fn(&Subject) -> String) -> String {
    let text = format!("// checked by A. B.\n{}", super::ward());
    shown_with(form, ("ward.image", &sample("ward.image")), Some(("other.quanta", text.as_bytes())))
}

/// The same of a contract without faults.
pub fn other_text_accepted(form: fn(&Subject) -> String) -> String {
    let text = format!("// checked by A. B.\n{}", mended());
    let image = example::image(&mended());
    shown_with(form, ("ward.image", &image), Some(("other.quanta", text.as_bytes())))
}

/// A contract with a text that is too long to be shown.
pub fn too_long(form: fn(&Subject) -> String) -> String {
    let text = mended() + &" ".repeat(show::LONGEST_SOURCE);
    let image = example::image(&mended());
    shown_with(form, ("ward.image", &image), Some(("long.quanta", text.as_bytes())))
}
