//! Document 01, "Patterns we check by hand": P1 to P14. Request E4 gives P9 its related place.

use super::*;
use crate::ident;

pub fn all() -> Vec<Pattern> {
    [p1_to_p7(), p8_and_p9(), p10_and_p11(), p12_to_p14()].into_iter().flatten().collect()
}

/// P2's contract with spans 10i and 10i+1, as the page has it.
pub fn p2() -> Node {
    let mut tree = contract("c", vec![entry("e", vec![asset_x()])]);
    let mut next = 0;
    tree.for_each_mut(&mut |n| {
        (n.from, n.to) = (next, next + 1);
        next += 10;
    });
    tree
}

fn to_address() -> Node {
    param("to", ty("Q_Address"))
}

fn send(arguments: Vec<Node>) -> Node {
    does(apply("send", arguments))
}

fn p1_to_p7() -> Vec<Pattern> {
    let with_x = |name, statements: Vec<Node>, list| {
        let parts = [asset_x(), to_address()].into_iter().chain(statements);
        with_state(name, &["s"], parts.collect(), list)
    };
    let on_s = |text, argument| method(ident("s"), text, vec![argument]);
    let nested = does(on_s("get", on_s("set", ident("x"))));
    vec![
        pattern("P1 contract and name only", vec![], ""),
        Pattern { name: "P2 the example", tree: p2(), list: "61x" },
        of_entry("P3 let x = x", vec![local("x", ident("x").marked('i'))], "26i"),
        with_x("P4 send(to, x)", vec![send(vec![ident("to"), ident("x")])], ""),
        with_x("P5 send(x, x)", vec![send(vec![ident("x"), ident("x").marked('2')])], "62x2"),
        with_x("P6 only s.get(x)", vec![does(on_s("get", ident("x")))], "61x"),
        with_x("P7 s.get(s.set(x))", vec![writes(&["s"]), nested], ""),
    ]
}

fn p8_and_p9() -> Vec<Pattern> {
    let burned = |statements: Vec<Node>| {
        let head = [marked_param("x", 'x', asset_of("T")), to_address(), burns("T")];
        vec![asset("T"), entry("e", head.into_iter().chain(statements).collect())]
    };
    let sent = send(vec![ident("to"), ident("x").marked('1')]);
    vec![
        pattern("P8 burns T, empty body", burned(vec![]), ""),
        pattern("P9 burns T and send(to, x)", burned(vec![sent]), "62x1"),
    ]
}

fn p10_and_p11() -> Vec<Pattern> {
    let minting = || genesis(vec![does(apply("mint_asset", vec![]).marked('m'))]);
    let to_checked = |text| assign(checked(ident(text)), int()).marked('a');
    let undeclared = vec![genesis(vec![to_checked("u")])];
    vec![
        pattern("P10 two Asset items, mint_asset", vec![asset("A"), asset("B"), minting()], "22m"),
        pattern("P10 one Asset item, mint_asset", vec![asset("A"), minting()], ""),
        pattern("P11 genesis assigns to a checked undeclared name", undeclared, ""),
        with_state("P11 an entry assigns to a checked field", &["s"], vec![to_checked("s")], "51a"),
    ]
}

fn p12_to_p14() -> Vec<Pattern> {
    let after_limit = |second| {
        let fields = [marked_field("limit", '1', ty("u8")), marked_field(second, '2', ty("u8"))];
        vec![state(fields.to_vec())]
    };
    let emitting = |event| {
        let emits = emit("Done", vec![int(), int()]).marked('m');
        vec![event, entry("e", vec![emits])]
    };
    let deployer = |mark| ident("deployer").marked(mark);
    let in_both = vec![limits(deployer('l')), guard(deployer('b'))];
    vec![
        pattern("P12 fields limit, Limit", after_limit("Limit"), ""),
        pattern("P12 limit twice", after_limit("limit"), "2021"),
        pattern("P13 one parameter, two arguments", emitting(event("Done", 1)), "31m"),
        pattern("P13 undeclared", emitting(event("done", 2)), "30m"),
        of_entry("P14 deployer in a Limits clause and in the body", in_both, "32b 32l"),
    ]
}
