//! Refusal 5: the text offsets, the text, and the form of names.

use super::*;

pub fn all() -> Vec<Limit> {
    [lengths(), forms(), order(), text_offsets()].into_iter().flatten().collect()
}

fn lengths() -> Vec<Limit> {
    let of_length = |length| of_names(&[padded("n", 0, length)], 5).image();
    let texts = |last: Option<&str>| {
        let mut names: Vec<String> = (0..16_384 / 128).map(|k| padded("n", k, 128)).collect();
        names.extend(last.map(str::to_string));
        of_names(&names, 200).image()
    };
    vec![
        limit("a name of 1 byte", 0, of_names(&["n".to_string()], 5).image()),
        limit("a name of 128 bytes", 0, of_length(128)),
        limit("a name of 129 bytes", 5, of_length(129)),
        limit("16,384 bytes of text", 0, texts(None)),
        limit("16,385 bytes of text", 5, texts(Some("z"))),
        limit("a name of no bytes", 5, changed(&small(), |p| p.names.insert(0, vec![]))),
    ]
}

/// A contract whose one name has these bytes.
fn of_name(text: &[u8]) -> Vec<u8> {
    let text = text.to_vec();
    changed(&of_names(&["n".to_string()], 5), |p| p.names[0] = text)
}

/// Bytes beside those that a name may have, and bytes that end a name too early.
const REFUSED: [&[u8]; 13] =
    [b"a-b", b"a b", b"\xc3\xa9", b"n\0", b"-", b"1-", b"a\x80", b"a@", b"a[", b"a`", b"a{", b"a/", b"a:"];

const ADMITTED: [&[u8]; 5] = [b"_", b"a9", b"A_z", b"Zz09_", b"__1"];

fn forms() -> Vec<Limit> {
    let of = |refusal| move |text: &&[u8]| limit(format!("a name {text:?}"), refusal, of_name(text));
    let mut all: Vec<Limit> = REFUSED.iter().map(of(5)).chain(ADMITTED.iter().map(of(0))).collect();
    all.push(limit("a Name that is a number text", 6, of_name(b"7x")));
    all
}

fn order() -> Vec<Limit> {
    let fields = |texts: [&str; 2]| {
        let fields = texts.map(|t| field_decl(t, ty("u8")));
        contract("c", vec![state(fields.to_vec())])
    };
    // the two names stand side by side in the table, and become these
    let renamed = |old: [&str; 2], new: [&str; 2]| {
        changed(&fields(old), |p| {
            let first = p.names.iter().position(|n| n == old[0].as_bytes()).unwrap_or(0);
            (p.names[first], p.names[first + 1]) = (new[0].into(), new[1].into());
        })
    };
    vec![
        limit("`Limit` and `limit` are two names", 0, fields(["Limit", "limit"]).image()),
        limit("`limit` twice", 5, renamed(["limis", "limit"], ["limit", "limit"])),
        limit("a prefix first", 0, fields(["li", "limit"]).image()),
        limit("a prefix after the longer name", 5, renamed(["li", "limit"], ["limit", "li"])),
        limit("names out of order", 5, changed(&small(), |p| p.names.swap(1, 2))),
    ]
}

fn text_offsets() -> Vec<Limit> {
    let good = small().image();
    let names = 24 + 16 * small().size();
    let count = small().names().len();
    let offset = |k: usize, value| with_word(&good, names + 2 * k, 2, value);
    let text = (good.len() - names - 2 * (count + 1)) as u32;
    vec![
        limit("the first text offset is 1", 5, offset(0, 1)),
        limit("the last text offset is short", 5, offset(count, text - 1)),
        limit("the last text offset is past the text", 5, offset(count, text + 1)),
        limit("a text offset falls", 5, offset(2, 0)),
        limit("a text offset far past the text", 5, offset(1, 65_535)),
    ]
}
