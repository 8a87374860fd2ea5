//! Every sentence with the contract's names filled in.

use isonkaypu::{Pass, check_image};
use show::{Fault, faults};

fn faults_of(example: &str) -> Vec<Fault> {
    let report =
        check_image(&example::image(example)).unwrap_or_else(|refusal| panic!("{refusal}: {example}"));
    faults(&report)
}

/// The only fault of an example, in which it stands in for the items of a contract.
fn only(items: &str) -> Fault {
    let faults = faults_of(&format!("contract C {{ {items} }}"));
    assert_eq!(faults.len(), 1, "{faults:?}");
    faults.into_iter().next().expect("one")
}

/// The words between backquotes.
fn quoted(text: &str) -> Vec<&str> {
    let quotes = text.split('`').skip(1).step_by(2);
    quotes
        .flat_map(|q| q.split(|c: char| !c.is_alphanumeric() && c != '_'))
        .filter(|w| !w.is_empty())
        .collect()
}

/// What is filled in stands in the example, and nothing is left open.
fn filled(template: &str, sentence: &str, before: &str) {
    assert!(!sentence.contains(['{', '}']) && !sentence.contains("``"), "{sentence}");
    let ours = quoted(template);
    for word in quoted(sentence) {
        assert!(ours.contains(&word) || before.contains(word), "`{word}` in: {sentence}");
    }
}

#[test]
fn the_examples() {
    for entry in words::codes() {
        let fault = faults_of(&entry.before).remove(0);
        assert_eq!((fault.code, &fault.title), (entry.number, &entry.title));
        filled(&entry.fault, &fault.sentence, &entry.before);
        let mend = entry.mend_for(fault.case);
        // a way may name what is not there yet: a declaration, a first value
        filled(mend, &fault.mend, &format!("{} owner caller", entry.before));
        filled(&entry.here, &fault.here.label, &entry.before);
        let there = fault.others.iter().map(|mark| mark.label.as_str()).collect::<String>();
        let labels = [&entry.there, &entry.first, &entry.more, &entry.clause, &entry.clauses];
        let labels = labels.map(String::as_str).join(" ");
        filled(&labels, &there, &entry.before);
        assert_eq!(there.is_empty(), entry.there.is_empty(), "{}", entry.number);
    }
}

#[test]
fn places_and_labels() {
    let fault = only("state { f: u8; } entry e(a: u8, a: u8) { }");
    let entry = fault.entry.as_ref().map(|entry| (entry.place.node, entry.name.as_str()));
    assert_eq!((fault.code, fault.pass, entry), (25, Pass::Resolve, Some((7, "e"))));
    let related = fault.others.first().expect("related");
    assert_eq!((fault.here.label.as_str(), related.label.as_str()), ("named again here", "named first here"));
    assert!(related.node < fault.here.node && related.span.start < fault.here.span.start);
    let fault = only("invariant x;");
    assert_eq!((fault.pass, fault.entry, fault.others), (Pass::Access, None, vec![]));
}

#[test]
fn a_lot_that_can_be_burned_and_one_that_cannot() {
    let mend = |items: &str| only(items).mend;
    let with_burns = "send it, as by `send(caller, lot);`, store it in a state field that `writes` names, or, if it \
                      is destroyed, write `burns Morphine`";
    let without = "send it, as by `send(caller, lot);`, or store it in a state field that `writes` names";
    assert_eq!(mend("asset Morphine; entry e(lot: Q_Asset<Morphine>) { }"), with_burns);
    assert_eq!(mend("entry e(lot: Q_Asset<Morphine>) { }"), without);
    assert_eq!(mend("entry e(lot: Q_Asset) { }"), without);
    assert_eq!(mend("entry e(lot: Q_Asset<3>) { }"), without);
    assert_eq!(
        mend("asset M; state { s: Q_Asset<M>; } entry e() writes s { let lot = s.split(1); }"),
        without
    );
    // `burns` would be a second use of the other one
    let other = "asset M; entry e(lot: Q_Asset<M>, box: Q_Asset<M>) { send(caller, box); }";
    assert_eq!(mend(other), without);
    let to = mend("entry e(lot: Q_Asset<M>, nurse: Q_Address) { }");
    assert!(to.contains("`send(nurse, lot);`"), "{to}");
}

/// The sentence of the first 62 of an entry with these parameters, clauses and statements.
fn of_62(parameters: &str, clauses: &str, body: &str) -> String {
    let items = format!("asset M; asset N; entry e({parameters}) {clauses} {{ {body} }}");
    let faults = faults_of(&format!("contract C {{ {items} }}"));
    let fault = faults.into_iter().find(|fault| fault.code == 62);
    fault.unwrap_or_else(|| panic!("no 62: {items}")).sentence
}

/// The marks of a lot decide what is said of its uses, whatever the list has as the related place.
#[test]
fn burned_and_used() {
    let plain = "the lot `lot` is used more than once: stock would count double";
    let burned = "the lot `lot` is used more than once, since its `burns` clause is a use too: stock would count \
                  double";
    let twice = "the lot `lot` is burned more than once, since several parameters have its name: stock would be \
                 written off twice";
    let lot = "lot: Q_Asset<M>";
    let two_uses = "send(1, lot); send(2, lot);";
    assert_eq!(of_62(lot, "burns M", "send(1, lot);"), burned);
    assert_eq!(of_62(lot, "burns M", two_uses), burned);
    assert_eq!(of_62(lot, "burns N", two_uses), plain);
    assert_eq!(of_62("lot: Q_Asset", "burns M", two_uses), plain);
    let [same, unlike] = ["M", "N"].map(|asset| format!("{lot}, lot: Q_Asset<{asset}>"));
    assert_eq!(of_62(&same, "burns M", ""), twice);
    assert_eq!(of_62(&unlike, "burns M burns N", "send(1, lot);"), twice);
    // the mark is on the first of the two, and the uses are on the last
    assert_eq!(of_62(&unlike, "burns M", two_uses), plain);
    assert_eq!(of_62(lot, "burns M", &format!("let lot = mint(1); {two_uses}")), plain);
}

/// What is said of a marked lot is said in 62 alone.
#[test]
fn other_faults_of_a_burned_lot() {
    let faults = faults_of("contract C { asset M; state { lot: u8; } entry e(lot: Q_Asset<M>) burns M { } }");
    let said: Vec<_> = faults.iter().map(|fault| (fault.code, fault.sentence.contains("burn"))).collect();
    assert_eq!(said, [(24, false)]);
}

#[test]
fn what_is_called() {
    let sentence =
        |statement: &str| only(&format!("state {{ s: u8; }} entry e() {{ {statement} }}")).sentence;
    assert_eq!(sentence("has(1);"), "`has` is called, which the language does not have");
    assert_eq!(sentence("s.has(1);"), "the method `has` is called, which the language does not have");
    assert_eq!(
        sentence("checked(send)(1);"),
        "something without a name is called, which the language does not have"
    );
    assert_eq!(sentence("caller.get(1);"), "entry `e` calls `caller`, which is an address");
}

#[test]
fn where_it_stands() {
    let deployer =
        faults_of("contract C { state { deployer: u8; } invariant deployer; entry e() limits deployer { } }");
    let sentences: Vec<_> = deployer.iter().map(|f| f.sentence.as_str()).collect();
    let expected = [
        "`deployer` is used in an invariant, but it is known in genesis only",
        "`deployer` is used in entry `e`, but it is known in genesis only",
    ];
    assert_eq!(sentences, expected);
    let clause = |clause: &str| only(&format!("entry e() {clause} x {{ }}")).sentence;
    assert_eq!(clause("writes"), "the `writes` clause of entry `e` names `x`, which is no state field");
    assert_eq!(clause("reads"), "the `reads` clause of entry `e` names `x`, which is no state field");
}

#[test]
fn counts_and_signatures() {
    let fault = only("event E(); event F(a: u8); entry e() { emit F(1, 2); }");
    assert_eq!(
        fault.sentence,
        "the event `F` is emitted with 2 values, but its last declaration has 1 value"
    );
    let twice = "entry e(a: Q<2 of 3, Map<T, 5>>, b: u8) { }";
    let fault = only(&format!("{twice} {twice}"));
    assert_eq!(fault.sentence, "the entry `e(Q<2 of 3,Map<T,5>>,u8)` is declared twice");
}

#[test]
fn every_missing_field_in_one_writes_clause() {
    let items = "state { s: u8; t: u8; u: u8; } entry e() writes s { t = 1; u.set(1); t.f = 2; }";
    let mends: Vec<_> = faults_of(&format!("contract C {{ {items} }}")).into_iter().map(|f| f.mend).collect();
    let mend = |name| format!("write `writes s, t, u`, or leave `{name}` alone");
    assert_eq!(mends, ["t", "u", "t"].map(mend));
}

/// A code, the items of a contract that has it, and its mend.
type Mend = (u16, &'static str, &'static str);

const MENDS: &[Mend] = &[
    (
        35,
        "state { chief: Q_Address; } entry e(a: u64 signed_by cheif) { }",
        "did you mean `chief`? Then write that, or declare `cheif` in a `state` block",
    ),
    (
        50,
        "state { limit: u64; } invariant Limit > 5;",
        "did you mean `limit`? Then write that, or declare `Limit` in a `state` block",
    ),
    (37, "asset Morphine; entry e() conserves Morfine { }", "did you mean `Morphine`? Then write that"),
    (
        38,
        "asset M; entry e() mints QTOV { }",
        "take the clause out: `QTOV` is the ledger's own, and is never minted",
    ),
    (34, "state { s: u64; } entry e() { s.has(1); }", "write `contains` instead of `has`"),
    (
        34,
        "state { s: u64; } entry e() { s.inset(1); }",
        "did you mean `insert`? It changes `s`, so write `writes s` too",
    ),
    (
        35,
        "entry e(a: u64 signed_by deployer) { }",
        "mend the 32 on it: the field that stores `deployer` can be the signer",
    ),
    (36, "entry e() reads deployer { }", "take `deployer` out of the clause: it is no state field"),
    (
        36,
        "entry e(a: u64) reads a { }",
        "take `a` out of the clause: it is a parameter of entry `e`, and only state fields stand here",
    ),
    (
        35,
        "entry e(b: u64, a: u64 signed_by b) { }",
        "store the signer in a field of another name, such as `b_2`, and write that here: `b` is a parameter of \
             entry `e`, and no field can have the same name",
    ),
    (
        33,
        "genesis { let x = 1; x = 2; }",
        "take this assignment out, or assign to a state field: `x` is a `let` here",
    ),
    (
        26,
        "entry e() { let x = x; }",
        "the `let x` needs this value itself: write here the field, the parameter or the number that you mean",
    ),
    (
        26,
        "entry e(x: u64) { guard x > 1; let x = 2; }",
        "give `let x` another name: `x` is a parameter of this entry too",
    ),
    (
        51,
        "state { a: u64; b: u64; } entry e() { a = 1; b = 2; }",
        "add a clause `writes a, b` to the entry, or leave `a` alone",
    ),
    (
        51,
        "state { a: u64; b: u64; } entry e() writes a, x { b = 2; }",
        "write `writes a, b`, without `x`, which is no state field, or leave `b` alone",
    ),
    (
        51,
        "state { a: Q_Address; } entry e() { a.credit(1); }",
        "mend the 40 on this call first: this one goes with it",
    ),
    (
        62,
        "asset M; entry e(lot: Q_Asset<M>) burns M { send(caller, lot); }",
        "keep one use of `lot`: the clause `burns M`, or one other without the clause; to divide a lot use `split`",
    ),
    (
        62,
        "asset M; entry e(lot: Q_Asset<M>, box: Q_Asset<M>) burns M { send(caller, lot); }",
        "keep `burns M` as the one use of `lot`, and take every other use out: `box` needs the clause",
    ),
    (
        62,
        "asset M; entry e(lot: Q_Asset<M>, lot: Q_Asset<M>) burns M { }",
        "give each its own name first (25, 27, 29): more than one thing here is called `lot`; `burns` counts for the \
             first lot of a name, any other use for the last",
    ),
    (
        61,
        "asset M; entry e(lot: Q_Asset<M>, lot: Q_Asset<M>) { send(caller, lot); }",
        "give each its own name first (25, 27, 29): more than one thing here is called `lot`; `burns` counts for the \
             first lot of a name, any other use for the last",
    ),
];

/// The mends follow the case.
#[test]
fn a_mend_for_each_case() {
    for (code, items, mend) in MENDS {
        let faults = faults_of(&format!("contract C {{ {items} }}"));
        let fault = faults.iter().find(|fault| fault.code == *code).expect("the code");
        assert_eq!(fault.mend, *mend, "{code} {items}");
    }
}
