//! Document 01, "Tempting and wrong".

use super::*;
use crate::ident;

pub fn all() -> Vec<Pattern> {
    [roots(), uses(), genesis_lets(), peeled_callees()].into_iter().flatten().collect()
}

/// "one root rule for both passes"
fn roots() -> Vec<Pattern> {
    let below_checked = |text| assign(field(checked(ident(text)), "f"), int()).marked('a');
    let undeclared = vec![genesis(vec![below_checked("u")])];
    vec![
        pattern("W genesis below a checked undeclared name", undeclared, ""),
        with_state("W an entry below a checked field", &["s"], vec![below_checked("s")], "51a"),
    ]
}

/// "skipping what is nested under `get`; counting a receiver or an Emit argument as use; peeling
/// an Assign value"
fn uses() -> Vec<Pattern> {
    let x = || ident("x");
    let s = || ident("s");
    let after_x = |name, statement, list| {
        let parts = vec![asset_x(), writes(&["s"]), statement];
        pattern(name, vec![plain_state(&["s"]), event("Done", 1), entry("e", parts)], list)
    };
    let got = method(s(), "get", vec![apply("send", vec![int(), x()])]);
    let nested = does(method(s(), "contains", vec![binary(int(), got)]));
    let received = does(method(x(), "credit", vec![int()]));
    let summed = does(apply("send", vec![int(), binary(x(), int())]));
    let has = does(method(s(), "has", vec![x()]).marked('h'));
    vec![
        after_x("W what is nested under contains and get", nested, ""),
        after_x("W counting a receiver", received, "61x"),
        after_x("W counting an Emit argument", emit("Done", vec![x()]), "61x"),
        after_x("W peeling an Assign value", assign(s(), checked(x())), "61x"),
        after_x("W an Assign value that is bare", assign(s(), x()), ""),
        after_x("W an argument that is no Ident when peeled", summed, "61x"),
        after_x("W has counted", has, "34h 61x"),
    ]
}

/// "Let rules on genesis"
fn genesis_lets() -> Vec<Pattern> {
    let lets = vec![local("s", ident("s")), local("s", ident("l")), local("l", int())];
    vec![pattern("W Let rules on genesis", vec![plain_state(&["s"]), genesis(lets)], "")]
}

/// "peeling … a callee before its name is tested (only 40 peels)"
fn peeled_callees() -> Vec<Pattern> {
    let call_of = |callee, arguments| call(checked(callee), arguments).marked('k');
    let of_x = |name, callee| {
        let used = does(call_of(callee, vec![ident("x")]));
        with_state(name, &["s"], vec![asset_x(), used], "34k")
    };
    let setting = does(call_of(field(ident("s"), "set"), vec![]));
    let minting = genesis(vec![does(call_of(ident("mint_asset"), vec![]))]);
    let minted = local("y", call_of(ident("mint"), vec![]));
    let split = local("y", call_of(field(int(), "split"), vec![]));
    let outward = does(call_of(caller(), vec![]));
    vec![
        of_x("W (checked send)(x)", ident("send")),
        of_x("W (checked s.get)(x) is a use", field(ident("s"), "get")),
        with_state("W (checked s.set)() writes nothing", &["s"], vec![setting], "34k"),
        pattern("W (checked mint_asset)()", vec![asset("A"), asset("B"), minting], "34k"),
        of_entry("W (checked mint)() is not tracked", vec![minted], "34k"),
        of_entry("W (checked n.split)() is not tracked", vec![split], "34k"),
        of_entry("W (checked caller)() is outward", vec![outward], "40k 34k"),
    ]
}
