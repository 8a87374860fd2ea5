//! Request E3 by hand: contracts, and for places in them every entry that the documents give.
//!
//! Answers are written as `x=b 1s, y=, p!`: behind a place's mark and `=` its entries, each the mark of a
//! clause's Name, or the marks of an Ident and of what consumes it; behind `!` none, since the place is
//! no tracked asset.

use super::{asset_of, asset_type, marked_param};
use crate::build::*;
use crate::{Node, ident, name, node, number};
use form::kind;

pub struct Explained {
    pub name: &'static str,
    pub tree: Node,
    answers: &'static str,
}

/// An entry's two words, each a node's number or 0.
pub type Entry = [u16; 2];

impl Explained {
    /// Each place with its entries, or with nothing where it is no tracked asset.
    pub fn answers(&self) -> Vec<(usize, Option<Vec<Entry>>)> {
        self.answers.split(", ").map(|answer| self.answer(answer)).collect()
    }

    fn answer(&self, text: &str) -> (usize, Option<Vec<Entry>>) {
        let (place, entries) = text.split_at(1);
        let entries = entries.strip_prefix('=');
        (self.place(place), entries.map(|all| all.split_whitespace().map(|e| self.entry(e)).collect()))
    }

    fn entry(&self, marks: &str) -> Entry {
        let (first, consumer) = marks.split_at(1);
        let consumer = if consumer.is_empty() { 0 } else { self.place(consumer) };
        [self.place(first) as u16, consumer as u16]
    }

    fn place(&self, mark: &str) -> usize {
        let place = mark.chars().next().and_then(|mark| self.tree.place(mark));
        place.unwrap_or_else(|| panic!("{}: no node is marked {mark}", self.name))
    }
}

pub fn reasons() -> Vec<Explained> {
    let groups = [page(), uses(), clauses(), shared_by_parameters(), shared_with_lets(), types(), places()];
    groups.into_iter().flatten().chain([two_entries(), within_others()]).collect()
}

fn of(name: &'static str, parts: Vec<Node>, answers: &'static str) -> Explained {
    Explained { name, tree: contract("c", vec![entry("e", parts)]), answers }
}

/// The Ident `x`.
fn x(mark: char) -> Node {
    ident("x").marked(mark)
}

/// `send(…)`, whose Call bears the mark `s`.
fn send(arguments: Vec<Node>) -> Node {
    does(apply("send", arguments).marked('s'))
}

fn sent() -> Node {
    send(vec![x('1')])
}

/// A Burns clause whose Name bears the mark.
fn burned(text: &str, mark: char) -> Node {
    node(kind::BURNS, vec![name(text).marked(mark)])
}

/// The parameter `x`, whose Name bears the mark.
fn lot(mark: char, ty: Node) -> Node {
    marked_param("x", mark, ty)
}

/// `let x = mint()`
fn minted(mark: char) -> Node {
    local("x", apply("mint", vec![])).marked(mark)
}

/// Patterns of document 01: "61 has none and 62 at least two".
fn page() -> Vec<Explained> {
    let plain = || lot('x', asset_type());
    let marked = || vec![lot('x', asset_of("T")), burned("T", 'b')];
    let on_s = |text, argument| method(ident("s"), text, vec![argument]);
    let sent_to = || send(vec![ident("to"), x('1')]);
    vec![
        of("P2, no use", vec![plain()], "x="),
        of("P4, send(to, x)", vec![plain(), sent_to()], "x=1s"),
        of("P5, send(x, x)", vec![plain(), send(vec![x('1'), x('2')])], "x=1s 2s"),
        of("P6, s.get(x)", vec![plain(), does(on_s("get", x('1')))], "x="),
        of("P7, s.get(s.set(x))", vec![plain(), does(on_s("get", on_s("set", x('1')).marked('s')))], "x=1s"),
        of("P8, burned", marked(), "x=b"),
        of("P9, burned and sent", [marked(), vec![sent_to()]].concat(), "x=b 1s"),
    ]
}

/// "Then it gives every counted occurrence once, in preorder", and "the node that consumes it: the Call,
/// or the Assign for a bare value".
fn uses() -> Vec<Explained> {
    let plain = |statements: Vec<Node>| [vec![lot('x', asset_type())], statements].concat();
    let inner = apply("send", vec![x('1')]).marked('i');
    let looks = method(x('0'), "get", vec![x('0')]);
    let assigned = |value| assign(ident("s"), value).marked('a');
    let all = vec![looks, inner, checked(wrapping(x('2'))), binary(x('0'), x('0')), x('3')];
    vec![
        of("a bare value", plain(vec![assigned(x('1'))]), "x=1a"),
        of("a value that is not bare", plain(vec![assigned(checked(x('1')))]), "x="),
        of("by the Ident's number, inner and outer Calls", plain(vec![send(all)]), "x=1i 2s 3s"),
        of("the statements' order", plain(vec![assigned(x('1')), send(vec![x('2')])]), "x=1a 2s"),
        of("an Emit's argument and an alias", plain(vec![emit("D", vec![x('1')]), local("y", x('2'))]), "x="),
    ]
}

/// "the Name of the first Burns clause that gives the mark"
fn clauses() -> Vec<Explained> {
    let marked = |clauses: Vec<Node>| [vec![lot('x', asset_of("T"))], clauses].concat();
    let others = || vec![of_asset(kind::MINTS, "T"), conserves("T"), limits(int())];
    let twice = vec![burned("T", 'b'), burned("T", 'c')];
    let between = [others(), vec![burned("t", 'a'), burned("T", 'b')], others(), vec![burned("T", 'c')]];
    vec![
        of("one type in two clauses", marked(twice), "x=b"),
        of("the first of that text, not the first clause", marked(between.concat()), "x=b"),
        of("clauses that burn nothing", marked(others()), "x="),
        of("another type burned", marked(vec![burned("t", 'b')]), "x="),
    ]
}

/// "Where two parameters share a name and both are marked, the first row has two clause entries, which may
/// be the same Name", and these stand "in parameter order"; occurrences are "on the last row of the name".
fn shared_by_parameters() -> Vec<Explained> {
    let of_t = |mark| lot(mark, asset_of("T"));
    let of_u = |mark| lot(mark, asset_of("U"));
    let crossed = || vec![of_u('4'), of_t('5'), burned("T", 't'), burned("U", 'u')];
    let both = || vec![of_t('4'), of_t('5'), burned("T", 'b')];
    let with = |parts: Vec<Node>, statement| [parts, vec![statement]].concat();
    let other = marked_param("y", 'y', asset_of("T"));
    vec![
        of("one clause for two marks", both(), "4=b b, 5="),
        of("one clause for two marks, and a use", with(both(), sent()), "4=b b, 5=1s"),
        of("clauses the other way round", crossed(), "4=u t, 5="),
        of("clauses the other way round, and a use", with(crossed(), sent()), "4=u t, 5=1s"),
        of(
            "the second alone is burned",
            vec![lot('4', asset_type()), of_t('5'), burned("T", 'b')],
            "4=b, 5=",
        ),
        of("the second of three", vec![of_u('4'), of_t('5'), of_u('6'), burned("T", 'b')], "4=b, 5=, 6="),
        of("a name of its own beside", vec![of_t('4'), other, of_t('5'), burned("T", 'b')], "4=b b, y=b, 5="),
        of(
            "the first is no asset",
            vec![lot('p', ty("T")), of_t('5'), burned("T", 'b'), sent()],
            "p!, 5=b 1s",
        ),
        of(
            "the last is no asset",
            vec![of_t('4'), lot('p', ty("T")), burned("T", 'b'), sent()],
            "4=b 1s, p!",
        ),
    ]
}

/// "Tracked, in order: `Q_Asset` parameters …; then Lets": a Let comes behind every parameter, and takes the
/// occurrences of its name, earlier ones too.
fn shared_with_lets() -> Vec<Explained> {
    let marked =
        |statements: Vec<Node>| [vec![lot('x', asset_of("T")), burned("T", 'b')], statements].concat();
    let of_itself = local("x", apply("mint", vec![x('1')]).marked('s')).marked('l');
    let untracked = local("x", int()).marked('n');
    vec![
        of("burned, then minted and sent", marked(vec![minted('l'), sent()]), "x=b, l=1s"),
        of("sent before it is minted", marked(vec![sent(), minted('l')]), "x=b, l=1s"),
        of("minted of itself", marked(vec![of_itself]), "x=b, l=1s"),
        of("minted twice", marked(vec![minted('l'), sent(), minted('m')]), "x=b, l=, m=1s"),
        of("a Let that is no asset", marked(vec![untracked, sent()]), "x=b 1s, n!"),
        of("Lets alone", vec![minted('l'), minted('m'), split_off()], "l=, m=, n=1s"),
    ]
}

/// `let x = checked(x.split(x))`
fn split_off() -> Node {
    local("x", checked(method(ident("x"), "split", vec![x('1')]).marked('s'))).marked('n')
}

/// "for each parameter of type `Q_Asset` whose first argument is a type named in a Burns clause"
fn types() -> Vec<Explained> {
    let marked = |ty, clause| vec![lot('x', ty), burned(clause, 'b')];
    let list = || ty_of("List", vec![ty("T")]);
    let two = || ty_of("Q_Asset", vec![ty("T"), ty("U")]);
    let numbered = ty_of("Q_Asset", vec![number("3"), ty("T")]);
    vec![
        of("the first of two arguments", marked(two(), "T"), "x=b"),
        of("the second of two arguments", marked(two(), "U"), "x="),
        of("a number is the first argument", marked(numbered, "T"), "x="),
        of("a type that has arguments", marked(ty_of("Q_Asset", vec![list()]), "List"), "x=b"),
        of("an argument's argument", marked(ty_of("Q_Asset", vec![list()]), "T"), "x="),
        of("no argument", marked(asset_type(), "Q_Asset"), "x="),
        of("an asset in a list", marked(ty_of("List", vec![asset_of("T")]), "T"), "x!"),
        of("an asset of assets", marked(ty_of("Q_Asset", vec![asset_of("T")]), "Q_Asset"), "x=b"),
    ]
}

/// "13 when the place is no tracked asset": its place is the Name of a parameter, or a Let, and no other
/// node of these.
fn places() -> Vec<Explained> {
    let ty = node(kind::TYPE, vec![name("Q_Asset").marked('3')]).marked('2');
    let signer = name("owner").marked('4');
    let param = node(kind::PARAM, vec![name("x").marked('x'), ty, signer]).marked('1');
    let value = apply("mint", vec![]).marked('7');
    let made = node(kind::LET, vec![name("y").marked('6'), value]).marked('y');
    let call = apply("send", vec![x('9')]).marked('s');
    let parts = vec![param, burned("T", 'b'), made, does(call).marked('8')];
    let tree = contract("c", vec![entry("e", parts).marked('e')]).marked('c');
    let answers = "x=9s, y=, c!, e!, 1!, 2!, 3!, 4!, b!, 6!, 7!, 8!, s!, 9!";
    vec![Explained { name: "the nodes of a parameter, a Let and a use", tree, answers }]
}

/// "Linear, entry by entry": neither clauses nor uses of another entry count.
fn two_entries() -> Explained {
    let first = entry("e", vec![lot('4', asset_of("T")), burned("T", 'b'), send(vec![x('1')])]);
    let second = entry("f", vec![lot('5', asset_of("T")), burned("U", 'u')]);
    let third = entry("g", vec![lot('6', asset_of("U")), burned("U", 'v'), does(ident("x"))]);
    let tree = contract("c", vec![first, second, third]);
    Explained { name: "three entries", tree, answers: "4=b 1s, 5=, 6=v" }
}

/// What is tracked is tracked in entries: a field, a genesis and what stands in other clauses have no lots.
fn within_others() -> Explained {
    let state = state(vec![node(kind::FIELD_DECL, vec![name("x").marked('f'), asset_of("T")])]);
    let genesis = genesis(vec![minted('g'), does(apply("send", vec![ident("x")]))]);
    let clauses = vec![limits(apply("send", vec![ident("x")])), burned("T", 'b')];
    let entry = entry("e", [vec![lot('x', asset_of("T"))], clauses].concat());
    let tree = contract("c", vec![state, genesis, entry, invariant(apply("send", vec![ident("x")]))]);
    Explained { name: "state, genesis, an Invariant and a Limits clause", tree, answers: "f!, g!, x=b" }
}

/// Contracts of 2,048 nodes, or as near as one comes, with how many entries the lot marked `x` has: the
/// most marks that a row can have, the most uses, and the last of the most rows.
pub fn most_reasons() -> Vec<(&'static str, Node, usize)> {
    let full = |parts| contract("c", vec![entry("e", parts)]);
    let all = |count: usize, part: Node| vec![part; count];
    // the contract and the entry have 4 nodes, the clause 2, each parameter 6
    let marked =
        [vec![lot('x', asset_of("T"))], all(339, param("x", asset_of("T"))), vec![burns("T")]].concat();
    // 4 nodes, a parameter of 4, and 3 down to the callee
    let used = vec![lot('x', asset_type()), does(apply("send", all(2_037, ident("x"))))];
    // 4 nodes, and 4 for each parameter
    let rows = [all(510, param("x", asset_type())), vec![lot('x', asset_type())]].concat();
    vec![
        ("the most marks of a row", full(marked), 340),
        ("the most uses of a lot", full(used), 2_037),
        ("the most rows", full(rows), 0),
    ]
}
