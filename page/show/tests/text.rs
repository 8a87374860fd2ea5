//! The text for people, on contracts with a source: what stands where.

use crate::common;
use crate::common::contracts::{BURNED_AND_SENT, BURNED_TWICE};
use isonkaypu::Limit;
use show::text;

const WARD: &str = "\
contract WardStock {
    asset Morphine;
    state { stock: Q_Asset<Morphine>; issued: u64; }
    entry issue(lot: Q_Asset<Morphine>, to: Q_Address)
        writes stock
    {
        issued = issued + 1;
        send(to, lot);
        stock.merge(lot);
    }
}
";

/// The text for an image with a source, or without, up to its last line, which is always the same.
fn shown(image: &[u8], source: Option<&[u8]>) -> String {
    without_last_line(common::shown(text, "ward.quanta", image, source))
}

fn without_last_line(text: String) -> String {
    text.strip_suffix(&(show::made_by() + "\n")).expect("the last line says who made the report").to_string()
}

/// The last line: the program, its version, and 12 digits of the library that decided.
#[test]
fn who_says_so() {
    let digits = common::library_digits();
    let expected = format!("isonkaypu {}, library {digits}", env!("CARGO_PKG_VERSION"));
    let image = example::image(ONE_FAULT);
    for bytes in [&image[..], b"no image"] {
        let text = common::shown(text, "ward.quanta", bytes, None);
        assert_eq!(text.lines().last(), Some(expected.as_str()));
    }
}

/// The text for an example, with itself as the source.
fn of(example: &str) -> String {
    shown(&example::image(example), Some(example.as_bytes()))
}

#[test]
fn with_the_source() {
    let expected = "\
REFUSED  ward.quanta: 2 faults

[51] entry `issue` changes `issued`, which its `writes` clause does not name
  in entry `issue`
  ward.quanta:7:9
  7 |         issued = issued + 1;
    |         ^^^^^^^^^^^^^^^^^^^^ changed here
  mend: write `writes stock, issued`, or leave `issued` alone

[62] the lot `lot` is used more than once: stock would count double
  in entry `issue`
  ward.quanta:4:17
  4 |     entry issue(lot: Q_Asset<Morphine>, to: Q_Address)
    |                 ^^^ this lot
  ward.quanta:8:18
  8 |         send(to, lot);
    |                  --- used here, taken by the call `send`
  ward.quanta:9:21
  9 |         stock.merge(lot);
    |                     --- its second use, taken by the call `stock.merge`
  mend: keep one use; to divide a lot use `split`

2 faults: access 1, lots 1
";
    assert_eq!(of(WARD), expected.to_string() + &words::last_lines(Some(51)));
}

#[test]
fn without_the_source() {
    let expected = "\
REFUSED  ward.quanta: 2 faults

[51] entry `issue` changes `issued`, which its `writes` clause does not name
  in entry `issue`, node 29, bytes 184 to 204: changed here
  mend: write `writes stock, issued`, or leave `issued` alone

[62] the lot `lot` is used more than once: stock would count double
  in entry `issue`, node 18, bytes 110 to 113: this lot
  in entry `issue`, node 38, bytes 222 to 225: used here, taken by the call `send`
  in entry `issue`, node 44, bytes 248 to 251: its second use, taken by the call `stock.merge`
  mend: keep one use; to divide a lot use `split`

2 faults: access 1, lots 1
";
    assert_eq!(shown(&example::image(WARD), None), expected.to_string() + &words::last_lines(Some(51)));
}

/// Document 01's P9: both lines are shown, that of the clause and that of the use.
#[test]
fn burned_and_sent() {
    let expected = "\
REFUSED  ward.quanta: 1 fault

[62] the lot `lot` is used more than once, since its `burns` clause is a use too: stock would count
     double
  in entry `destroy`
  ward.quanta:3:19
  3 |     entry destroy(lot: Q_Asset<Morphine>, to: Q_Address)
    |                   ^^^ this lot
  ward.quanta:4:15
  4 |         burns Morphine
    |               -------- this clause is its first use
  ward.quanta:6:18
  6 |         send(to, lot);
    |                  --- its second use, taken by the call `send`
  mend: keep one use of `lot`: the clause `burns Morphine`, or one other without the clause; to
        divide a lot use `split`

1 fault: lots 1
";
    assert_eq!(of(BURNED_AND_SENT), expected.to_string() + &words::last_lines(Some(62)));
    let related = common::related_of_62(BURNED_AND_SENT).expect("a related place");
    let place = format!(
        "node {}, bytes {} to {}: its second use, taken by the call `send`",
        related.node, related.span.start, related.span.end
    );
    let without_source = shown(&example::image(BURNED_AND_SENT), None);
    assert!(without_source.contains(&place), "{without_source}");
}

/// Two parameters of one name, two clauses: both are shown.
#[test]
fn burned_twice() {
    let expected = "
[62] the lot `lot` is burned more than once, since several parameters have its name: stock would be
     written off twice
  in entry `destroy`
  ward.quanta:4:19
  4 |     entry destroy(lot: Q_Asset<Morphine>, lot: Q_Asset<Fentanyl>, to: Q_Address)
    |                   ^^^ this lot
  ward.quanta:5:15
  5 |         burns Morphine
    |               -------- this clause is a use for each `lot` that it burns
  ward.quanta:6:15
  6 |         burns Fentanyl
    |               -------- this clause is a use for each `lot` that it burns
  mend: give each its own name first (25, 27, 29): more than one thing here is called `lot`; `burns`
        counts for the first lot of a name, any other use for the last

2 faults: names 1, lots 1
";
    let text = of(BURNED_TWICE);
    assert!(text.contains(expected), "{text}");
}

#[test]
fn accepted_and_not_read() {
    let accepted = "\
ACCEPTED  ward.quanta: no faults

";
    assert_eq!(of("contract Empty { }"), accepted.to_string() + &words::last_lines(None));
    let not_read = "\
NOT READ  ward.quanta

[image 6] the parts form no contract, or a name begins with a digit
  mend: begin each name with a letter or `_`: `mg3`, not `3mg`

Nothing was checked.
";
    assert_eq!(of("contract Empty { state { 3mg: u64; } }"), not_read);
}

/// A contract that has no image: the limit in its own words, and the line where it is passed.
#[test]
fn not_packed() {
    let expected = "\
NOT READ  ward.quanta

[image 5] a name has something else than letters, digits and `_`
  ward.quanta:2:13
  2 |     state { ausgabe_für: u64; }
    |             ^^^^^^^^^^^ here
  mend: write names with plain letters, digits and `_` only, and make long names shorter

Nothing was checked.
";
    assert_eq!(without_last_line(common::umlaut(text, Limit::NameForm)), expected);
    for limit in common::LIMITS {
        let text = common::umlaut(text, limit);
        let first = text.lines().nth(2).expect("a sentence");
        assert!(first.ends_with(&format!("] {limit}")), "{text}");
        assert!(text.contains("\n    |             ^^^^^^^^^^^ here\n"), "{text}");
    }
}

/// What document 01 has no number for gets none, and the uploader is not told to mend what they cannot.
#[test]
fn not_packed_by_our_own_fault() {
    for (limit, tag) in [(Limit::Unlike, "[not packed] "), (Limit::Refused(8), "[image 8] ")] {
        let text = common::umlaut(text, limit);
        assert_eq!(text.lines().nth(2), Some(format!("{tag}{limit}").as_str()));
        assert!(
            text.contains("\n  mend: nothing in the contract is at fault; the page's engineer"),
            "{text}"
        );
    }
}

#[test]
fn not_packed_without_its_line() {
    let place = |at, source| {
        let text = common::not_packed(text, Limit::Nodes, at, source);
        text.lines().nth(3).expect("a place").to_string()
    };
    assert_eq!(place((3, 9), None), "  bytes 3 to 9 of the text");
    for at in [(9, 3), (0, u32::MAX)] {
        let expected = format!("  bytes {} to {}, which is no place in the text", at.0, at.1);
        assert_eq!(place(at, Some(b"contract C { }")), expected);
    }
}

/// A contract with one fault, 30, at a node that carries no name, so that its span may be anything.
const ONE_FAULT: &str = "contract C { entry e() { emit E(); } }";
/// The node of its `emit`.
const AT: usize = 4;
/// What stands above the sources of the tests below: the names that the image has, where it says.
const ABOVE: &str = "C e E\n";

/// The lines between `file:line:column` and the `mend:` line, for a source and a span of that fault, which
/// counts from the second line on.
fn excerpt(source: &[u8], from: u32, to: u32) -> String {
    let above = ABOVE.len() as u32;
    let text = with_span(source, above + from, above + to);
    let lines = text.lines().skip(5).take_while(|line| !line.starts_with("  mend: "));
    lines.map(|line| format!("{line}\n")).collect()
}

/// The text for a source below `ABOVE`, with this span.
fn with_span(source: &[u8], from: u32, to: u32) -> String {
    let names = [(1, 0), (3, 2), (5, 4)];
    let image = common::respanned(&example::image(ONE_FAULT), |node| {
        let name = names.iter().find(|(name, _)| *name == node).map(|(_, at)| (*at, at + 1));
        name.unwrap_or(if node == AT { (from, to) } else { (7, 3) })
    });
    shown(&image, Some(&[ABOVE.as_bytes(), source].concat()))
}

#[test]
fn two_places_on_one_line() {
    let text = of("contract C { state { x: u8; x: u8; } }");
    let expected = "\
[20] the state field `x` is declared twice
  outside of the entries
  ward.quanta:1:29
  ward.quanta:1:22
  1 | contract C { state { x: u8; x: u8; } }
    |                             ^ declared again here
    |                      - declared first here
";
    assert!(text.contains(expected), "{text}");
}

#[test]
fn tabs_and_other_letters() {
    let tabs = "  2 |     a   xy\n    |         ^^ emitted here\n";
    assert_eq!(excerpt(b"\ta\txy", 3, 5), tabs);
    let umlaut = "  2 | ä ö xy\n    |     ^^ emitted here\n";
    assert_eq!(excerpt("ä ö xy".as_bytes(), 6, 8), umlaut);
    let wide = "  2 | 木 xy\n    |    ^^ emitted here\n";
    assert_eq!(excerpt("木 xy".as_bytes(), 4, 6), wide);
    let in_the_middle = "  2 | ä\n    | ^ emitted here\n";
    assert_eq!(excerpt("ä".as_bytes(), 1, 2), in_the_middle);
    let broken = "  2 | \u{fffd}\u{fffd}x\n    |   ^ emitted here\n";
    assert_eq!(excerpt(b"\xff\xfex", 2, 3), broken);
}

#[test]
fn ends_of_lines() {
    let carriage_return = "  3 | x y\n    |   ^ emitted here\n";
    assert_eq!(excerpt(b"a\r\nx y\r\n", 5, 6), carriage_return);
    let empty_at_the_end = "  2 | ab\n    |   ^ emitted here\n";
    assert_eq!(excerpt(b"ab", 2, 2), empty_at_the_end);
    let on_the_break = "  2 | ab\n    |   ^ emitted here\n";
    assert_eq!(excerpt(b"ab\r\ncd", 3, 4), on_the_break);
    let several = "  2 | a bc\n    |   ^^ emitted here (to line 4)\n";
    assert_eq!(excerpt(b"a bc\nd\ne", 2, 8), several);
    let to_the_break = "  2 | a bc\n    |   ^^ emitted here\n";
    assert_eq!(excerpt(b"a bc\nd\ne", 2, 5), to_the_break);
    let nothing = "  2 |\n    | ^ emitted here\n";
    assert_eq!(excerpt(b"", 0, 0), nothing);
}

#[test]
fn no_place_in_the_source() {
    let source = [ABOVE, "abc"].concat();
    let end = source.len() as u32;
    for (from, to) in [(2, 1), (0, end + 1), (end + 1, end + 1), (u32::MAX, u32::MAX), (u32::MAX, 0)] {
        let outside = format!(
            "  in entry `e`, node 4, bytes {from} to {to}, which is no place in the text: emitted here\n  mend: "
        );
        let text = with_span(b"abc", from, to);
        assert!(text.contains(&outside), "{text}");
    }
}

#[test]
fn long_lines_are_cut_around_the_place() {
    let long = format!("{}xy{}", "a".repeat(1000), "b".repeat(1000));
    let expected =
        format!("  2 | …{}xy{}…\n    | {}^^ emitted here\n", "a".repeat(40), "b".repeat(78), " ".repeat(41));
    assert_eq!(excerpt(long.as_bytes(), 1000, 1002), expected);
    let at_the_start = format!("  2 | {}…\n    | ^ emitted here\n", "a".repeat(120));
    assert_eq!(excerpt(long.as_bytes(), 0, 1), at_the_start);
    let at_the_end = format!("  2 | …{}\n    | {}^ emitted here\n", "b".repeat(120), " ".repeat(121));
    assert_eq!(excerpt(long.as_bytes(), 2002, 2002), at_the_end);
    let all = excerpt(long.as_bytes(), 0, 2002);
    assert!(all.ends_with(&format!("    | {} emitted here\n", "^".repeat(120))), "{all}");
}

#[test]
fn a_terminal_is_not_told_what_to_do() {
    let escaped = "  2 | \\u{1b}[2J x\n    |           ^ emitted here\n";
    assert_eq!(excerpt(b"\x1b[2J x", 5, 6), escaped);
    let image = example::image(ONE_FAULT);
    let label = "a\u{1b}[2J\nb";
    let text = common::shown(text, label, &image, None);
    assert!(text.starts_with("REFUSED  a\\u{1b}[2J\\u{a}b: 1 fault\n"), "{text}");
}

/// Every line of prose fits on a terminal of 100 columns, and no word is lost.
#[test]
fn prose_is_wrapped() {
    let name = "a_rather_long_name_for_an_event";
    let long = of(&format!("contract C {{ entry e() {{ emit {name}_{name}(); }} }}"));
    let widest = long.lines().filter(|line| !line.contains(" | ")).map(|line| line.chars().count()).max();
    assert!(widest <= Some(100) && widest > Some(80), "{long}");
    assert!(long.lines().any(|line| line.starts_with("     ")) && long.contains("\n        "), "{long}");
    let joined = |text: &str| text.split_whitespace().collect::<Vec<_>>().join(" ");
    let fault = words::code(30).expect("30").fault.replace("{name}", &format!("{name}_{name}"));
    assert!(joined(&long).contains(&joined(&fault)), "{long}");
}

/// The colours change no word, and stand only where they are asked for.
#[test]
fn colours_change_no_word() {
    let without_colours = |text: &str| {
        let mut parts = text.split("\u{1b}[");
        let first = parts.next().unwrap_or_default().to_string();
        parts.fold(first, |all, part| all + part.split_once('m').expect("a colour ends").1)
    };
    let image = example::image(WARD);
    let texts: [(&[u8], Option<&[u8]>); 5] = [
        (&image, Some(WARD.as_bytes())),
        (&image, Some(b"contract")),
        (&image, None),
        (b"no image", None),
        (&example::image("contract C { }"), None),
    ];
    for (image, source) in texts {
        let plain = common::shown(text, "ward.quanta", image, source);
        let coloured = common::shown(show::text_in_colour, "ward.quanta", image, source);
        assert!(!plain.contains('\u{1b}') && coloured.contains("\u{1b}[1;3"), "{coloured}");
        assert_eq!(without_colours(&coloured), plain);
    }
}

/// Without the source a fault outside of the entries is told from one inside.
#[test]
fn entries_are_named_without_the_source() {
    let text = shown(&example::image("contract C { invariant x; entry e() { emit E(); } }"), None);
    assert!(text.contains("  outside of the entries, node 3, bytes 23 to 24: named here\n"), "{text}");
    assert!(text.contains("  in entry `e`, node 6, "), "{text}");
}
