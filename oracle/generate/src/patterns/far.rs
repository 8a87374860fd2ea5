//! Offences past node 1,000, and span words of every number of digits: what a report prints with
//! four digits and with ten. Each contract begins with an event of many parameters, so that all the
//! rest stands behind it.

use super::*;
use crate::ident;

pub fn reported() -> Vec<Reported> {
    let each_digit = "500 501 502 503 504 505 506 507 508 509 50m";
    vec![
        with_report("F P2 past node 1,000", p2_far(), "61x", P2_FAR),
        with_report("F each pass past node 1,000", each_pass(), "2021 51a 62xs", EACH_PASS),
        with_report("F span words of 1 to 10 digits", digits(), each_digit, DIGITS),
        with_report("F an offence at the last node of all", last_node(), "50m", LAST_NODE),
    ]
}

/// An event of this many parameters, from node 2 on, and then the items. The event takes two nodes
/// more than it has parameters.
fn behind(parameters: usize, items: Vec<Node>) -> Node {
    contract("c", std::iter::once(event("D", parameters)).chain(items).collect())
}

/// Gives every node large span words, the first the largest of all.
fn with_large_spans(mut tree: Node) -> Node {
    tree.for_each_mut(&mut |n| (n.from, n.to) = (4_294_967_295, 4_000_000_000));
    tree
}

fn p2_far() -> Node {
    with_large_spans(behind(1_000, vec![entry("e", vec![asset_x()])]))
}

const P2_FAR: &str = "\
resolve 0 0 0 0
access 0 0 0 0
linear 61 1007 4294967295 4000000000
list 1
61 1007 0 1004 4294967295 4000000000
";

fn each_pass() -> Node {
    let fields = vec![marked_field("f", '1', ty("u8")), marked_field("f", '2', ty("u8"))];
    let sent_twice = does(apply("send", vec![ident("x"), ident("x").marked('s')]));
    let parts = vec![asset_x(), sent_twice, assign(ident("f"), int()).marked('a')];
    with_large_spans(behind(1_000, vec![state(fields), entry("e", parts)]))
}

const EACH_PASS: &str = "\
resolve 20 1010 4294967295 4000000000
access 51 1024 4294967295 4000000000
linear 62 1016 4294967295 4000000000
list 3
20 1010 1006 0 4294967295 4000000000
51 1024 0 1013 4294967295 4000000000
62 1016 1023 1013 4294967295 4000000000
";

/// An invariant of undeclared names, whose span words are those around each power of ten, and last
/// the largest.
fn digits() -> Node {
    let last = ident("u").marked('m').spanned(4_294_967_295, 4_000_000_000);
    let around = |power: u8| {
        let large = 10u32.pow(power.into());
        ident("u").marked(char::from(b'0' + power)).spanned(large - 1, large)
    };
    let names = (0..10).rev().map(around);
    behind(1_000, vec![invariant(names.fold(last, |inner, name| binary(name, inner)))])
}

const DIGITS: &str = "\
resolve 0 0 0 0
access 50 1006 0 1
linear 0 0 0 0
list 11
50 1006 0 0 0 1
50 1008 0 0 9 10
50 1010 0 0 99 100
50 1012 0 0 999 1000
50 1014 0 0 9999 10000
50 1016 0 0 99999 100000
50 1018 0 0 999999 1000000
50 1020 0 0 9999999 10000000
50 1022 0 0 99999999 100000000
50 1024 0 0 999999999 1000000000
50 1025 0 0 4294967295 4000000000
";

/// 2,048 nodes.
fn last_node() -> Node {
    with_large_spans(behind(2_042, vec![invariant(ident("u").marked('m'))]))
}

const LAST_NODE: &str = "\
resolve 0 0 0 0
access 50 2047 4294967295 4000000000
linear 0 0 0 0
list 1
50 2047 0 0 4294967295 4000000000
";
