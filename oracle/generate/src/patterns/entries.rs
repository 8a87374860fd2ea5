//! Request E8, "Which entry?": "the Entry node that contains the place, 0 outside entries". The reports say
//! it by number; all span words are 0.

use super::*;
use crate::ident;

pub fn reported() -> Vec<Reported> {
    let outside = "2021 2143 22a 22b 22d 30m 32i 33s 50i";
    vec![
        with_report("E items behind an entry are outside it", behind_an_entry(), outside, BEHIND_AN_ENTRY),
        with_report("E the Name of an entry is in it", same_signatures(), "2321 2331", SAME_SIGNATURES),
        with_report("E from the first part to the last node", parts(), "32l 36w 39b 61x 61y", PARTS),
    ]
}

/// Every kind of item between two entries, each but the Assets with an offence.
fn behind_an_entry() -> Node {
    let minting = |mark| does(apply("mint_asset", vec![]).marked(mark));
    let event = |mark| node(kind::EVENT, vec![name("D").marked(mark)]);
    let assigned = assign(ident("u"), int()).marked('s');
    contract(
        "c",
        vec![
            entry("e", vec![minting('a')]),
            asset("A"),
            asset("B"),
            state(vec![marked_field("f", '1', ty("u8")), marked_field("f", '2', ty("u8"))]),
            event('3'),
            event('4'),
            genesis(vec![minting('b'), emit("U", vec![]).marked('m'), assigned]),
            invariant(ident("deployer").marked('i')),
            entry("g", vec![minting('d')]),
        ],
    )
}

const BEHIND_AN_ENTRY: &str = "\
resolve 20 17 0 0
access 50 34 0 0
linear 0 0 0 0
list 9
20 17 13 0 0 0
21 23 21 0 0 0
22 5 0 2 0 0
22 26 0 0 0 0
22 38 0 35 0 0
30 28 0 0 0 0
32 34 0 0 0 0
33 30 0 0 0 0
50 34 0 0 0 0
";

/// Three entries of one signature: the Name that is related stands in the first.
fn same_signatures() -> Node {
    let named = |mark| node(kind::ENTRY, vec![name("e").marked(mark)]);
    contract("c", ['1', '2', '3'].map(named).to_vec())
}

const SAME_SIGNATURES: &str = "\
resolve 23 5 0 0
access 0 0 0 0
linear 0 0 0 0
list 2
23 5 3 4 0 0
23 7 3 6 0 0
";

/// Offences in parameters, clauses and at the last node of an entry behind which another begins.
fn parts() -> Node {
    let clause = |kind, text, mark| node(kind, vec![name(text).marked(mark)]);
    let first = vec![asset_x(), clause(kind::WRITES, "w", 'w'), guard(ident("deployer").marked('l'))];
    let second = vec![marked_param("y", 'y', asset_type()), clause(kind::BURNS, "T", 'b')];
    contract("c", vec![entry("e", first), entry("g", second)])
}

const PARTS: &str = "\
resolve 32 11 0 0
access 0 0 0 0
linear 61 5 0 0
list 5
32 11 0 2 0 0
36 9 0 2 0 0
39 19 0 12 0 0
61 5 0 2 0 0
61 15 0 12 0 0
";
