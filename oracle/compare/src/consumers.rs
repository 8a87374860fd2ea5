//! `compare consumers`: that a counted occurrence has one consumer, and which. Request E5: "both the
//! Ident and the node that consumes it: the Call, or the Assign for a bare value". The reference goes
//! down, from each Call to its arguments and from each Assign to its value. Here one goes up from
//! each Ident, by the ends of the nodes alone, and comes to one consumer or to none.

use crate::images::{Range, by_hand_and_admitted};
use crate::mismatch::{Mismatch, differ, same, shown};
use crate::tally::outcome;
use form::Tree;
use form::kind::*;
use reference::{Occurrence, counted_occurrences};

/// "24 Guard, 28 Stmt::Expr", "25 Let", "26 Emit", "27 Assign"
const STATEMENTS: [u8; 5] = [GUARD, STMT_EXPR, LET, EMIT, ASSIGN];

/// Runs the comparison; the text is what to print, and an `Err` is a failure.
pub fn run(range: Range) -> Result<String, String> {
    let mut seen = Seen::default();
    for (label, image) in by_hand_and_admitted(range) {
        // the limits by hand stand on both sides
        if reference::refusal(&image) != 0 {
            continue;
        }
        match compared(&image) {
            Ok((tree, occurrences)) => seen.note(&tree, &occurrences),
            Err(_) => return Err(shown(&label, &image, &|image| compared(image).map(|_| ()))),
        }
    }
    seen.finish()
}

/// The tree of an admitted image and its counted occurrences, where both ways find the same.
fn compared(image: &[u8]) -> Result<(Tree<'_>, Vec<Occurrence>), Mismatch> {
    let tree = Tree::of(image).ok_or_else(|| differ("the image", "admitted", "the tree of none"))?;
    let (down, up) = (found_down(image), found_up(&tree));
    same("the counted occurrences, each with its consumer", &down, &up)?;
    Ok((tree, up))
}

/// The reference's, entry by entry.
fn found_down(image: &[u8]) -> Vec<Occurrence> {
    let of_entries = |tree: reference::tree::Tree| {
        tree.entries().into_iter().flat_map(|entry| counted_occurrences(&tree, entry)).collect()
    };
    reference::admit(image).map(of_entries).unwrap_or_default()
}

/// Every Ident that has a consumer, with it.
pub fn found_up(tree: &Tree) -> Vec<Occurrence> {
    let idents = tree.all().filter(|i| tree.kind(*i) == IDENT);
    let found = |ident| consumer(tree, ident).map(|consumer| Occurrence { ident, consumer });
    idents.filter_map(found).collect()
}

/// The first node above an Ident that is no Checked and no Wrapping, where that is a Call that does not
/// only read and one comes up to it by an argument, or an Assign and the Ident itself is its value.
fn consumer(tree: &Tree, ident: usize) -> Option<usize> {
    let way: Vec<usize> = std::iter::once(ident).chain(tree.above(ident)).collect();
    if !in_a_statement(tree, &way) {
        return None;
    }
    let peeled = way[1..].iter().take_while(|node| [CHECKED, WRAPPING].contains(&tree.kind(**node))).count();
    let (child, node) = (way[peeled], way[peeled + 1]);
    // the first child is a Call's callee and an Assign's target
    let is_first = child == node + 1;
    let consumes = match tree.kind(node) {
        CALL => !is_first && !only_reads(tree, node),
        ASSIGN => !is_first && peeled == 0,
        _ => false,
    };
    consumes.then_some(node)
}

/// "sought in statements only": the way up ends with a statement, its Entry and the contract.
fn in_a_statement(tree: &Tree, way: &[usize]) -> bool {
    let [.., part, item, _] = way else {
        return false;
    };
    tree.kind(*item) == ENTRY && STATEMENTS.contains(&tree.kind(*part))
}

/// "callee Field `get`, `contains`, `has`": the last node of a Field is its Name.
fn only_reads(tree: &Tree, call: usize) -> bool {
    let callee = call + 1;
    let word = tree.text(tree.end(callee) - 1);
    tree.kind(callee) == FIELD && [&b"get"[..], b"contains", b"has"].contains(&word)
}

/// How many images there were, how many counted occurrences they had, and of these how many an
/// Assign consumes, and how many a Call that stands within another.
#[derive(Default)]
struct Seen {
    images: u64,
    counted: u64,
    of_assigns: u64,
    nested: u64,
}

impl Seen {
    fn note(&mut self, tree: &Tree, occurrences: &[Occurrence]) {
        let is_call = |node: usize| tree.kind(node) == CALL;
        self.images += 1;
        for Occurrence { consumer, .. } in occurrences {
            self.counted += 1;
            self.of_assigns += u64::from(tree.kind(*consumer) == ASSIGN);
            self.nested += u64::from(is_call(*consumer) && tree.above(*consumer).any(is_call));
        }
    }

    /// One counted occurrence an image is wanted, and one in 20 of each of the others.
    fn finish(&self) -> Result<String, String> {
        let Seen { images, counted, of_assigns, nested } = *self;
        let wanted = [
            ("counted occurrences", counted, images),
            ("of an Assign", of_assigns, images / 20),
            ("of a Call within another", nested, images / 20),
        ];
        let seen = format!(
            "{images} images, {counted} counted occurrences, {of_assigns} of them of an Assign, \
             {nested} of a Call within another: "
        );
        outcome(seen, wanted.map(|(what, count, least)| (what.to_string(), count, least)))
    }
}

#[cfg(test)]
mod tests {
    use super::*;
    use generate::build::*;
    use generate::{Node, ident, name, node};

    /// What is written by hand: its label, the nodes, and the pairs that the documents give them, each
    /// as the mark of the Ident and the mark of its consumer.
    type Case<T> = (&'static str, T, &'static str);

    fn x(mark: char) -> Node {
        ident("x").marked(mark)
    }

    fn s() -> Node {
        ident("s")
    }

    /// `send(x)`
    fn sent() -> Node {
        apply("send", vec![x('1')]).marked('a')
    }

    /// "each argument that peels to an Ident, in every Call except those with callee Field `get`,
    /// `contains`, `has`. Calls nested in these still count."
    fn calls() -> Vec<Case<Node>> {
        let on_s = |text, argument| method(s(), text, vec![argument]);
        let send = |arguments| apply("send", arguments).marked('b');
        vec![
            ("send(x, x)", send(vec![x('1'), x('2')]), "1b 2b"),
            ("send(send(x), x)", send(vec![sent(), x('2')]), "1a 2b"),
            ("s.get(s.set(x))", on_s("get", on_s("set", x('1')).marked('a')), "1a"),
            ("s.set(s.get(x))", on_s("set", on_s("get", x('1'))), ""),
            ("s.contains(x)", on_s("contains", x('1')), ""),
            ("s.has(checked(x))", on_s("has", checked(x('1'))), ""),
            ("send(checked(x))", send(vec![checked(x('1'))]), "1b"),
            ("send(checked(wrapping(x)))", send(vec![checked(wrapping(x('1')))]), "1b"),
            ("send(checked(send(x)))", send(vec![checked(sent())]), "1a"),
            ("send(x + 1)", send(vec![binary(x('1'), int())]), ""),
            ("send(x.f)", send(vec![field(x('1'), "f")]), ""),
        ]
    }

    /// "counting a receiver", "peeling … a callee before its name is tested": what is called is no
    /// argument, whatever it is.
    fn callees() -> Vec<Case<Node>> {
        let of = |callee| call(callee, vec![x('2')]).marked('b');
        vec![
            ("x(x)", of(x('1')), "2b"),
            ("checked(x)(x)", of(checked(x('1'))), "2b"),
            ("x.set(x)", of(field(x('1'), "set")), "2b"),
            ("x.get(x)", of(field(x('1'), "get")), ""),
            ("checked(s.get)(x)", of(checked(field(s(), "get"))), "2b"),
            ("get(x)", of(ident("get")), "2b"),
            ("send(x)(x)", of(sent()), "1a 2b"),
            ("send(x).get(x)", of(field(sent(), "get")), "1a"),
        ]
    }

    /// "an Assign value that is a bare Ident", and what is none in other statements.
    fn statements() -> Vec<Case<Node>> {
        let assigns = |target, value| assign(target, value).marked('b');
        vec![
            ("s = x", assigns(s(), x('1')), "1b"),
            ("s = checked(x)", assigns(s(), checked(x('1'))), ""),
            ("s = send(x)", assigns(s(), sent()), "1a"),
            ("s = x.f", assigns(s(), field(x('1'), "f")), ""),
            ("x = x", assigns(x('1'), x('2')), "2b"),
            ("x = 1", assigns(x('1'), int()), ""),
            ("send(x).f = x", assigns(field(sent(), "f"), x('2')), "1a 2b"),
            ("let y = x", local("y", x('1')), ""),
            ("let y = send(x)", local("y", sent()), "1a"),
            ("emit D(x)", emit("D", vec![x('1')]), ""),
            ("emit D(send(x))", emit("D", vec![sent()]), "1a"),
            ("guard x", guard(x('1')), ""),
            ("guard send(x)", guard(sent()), "1a"),
        ]
    }

    /// "Calls, Lets, Assigns and Emits are sought in statements only", and here in those of entries.
    fn items() -> Vec<Case<Vec<Node>>> {
        let statement = |statement| entry("e", vec![statement]);
        let assigned = || assign(s(), x('2')).marked('b');
        let default = node(FIELD_DECL, vec![name("s"), ty("u8"), sent()]);
        vec![
            ("two entries", vec![statement(does(sent())), statement(assigned())], "1a 2b"),
            ("genesis", vec![genesis(vec![does(sent()), assigned()])], ""),
            ("an Invariant", vec![invariant(sent())], ""),
            ("a Limits clause", vec![entry("e", vec![limits(sent())])], ""),
            ("a default", vec![state(vec![default])], ""),
        ]
    }

    fn by_hand() -> Vec<Case<Vec<Node>>> {
        let done = |(label, expression, pairs)| (label, does(expression), pairs);
        let in_an_entry = |(label, statement, pairs)| (label, vec![entry("e", vec![statement])], pairs);
        let all = calls().into_iter().chain(callees()).map(done).chain(statements());
        all.map(in_an_entry).chain(items()).collect()
    }

    /// The pairs with the marks turned into node numbers.
    fn occurrences(tree: &Node, pairs: &str) -> Vec<Occurrence> {
        let place = |mark: u8| tree.place(char::from(mark)).expect("a mark of the tree");
        let occurrence = |pair: &str| match *pair.as_bytes() {
            [ident, consumer] => Occurrence { ident: place(ident), consumer: place(consumer) },
            _ => panic!("two marks, not {pair}"),
        };
        pairs.split_whitespace().map(occurrence).collect()
    }

    #[test]
    fn both_ways_find_what_the_documents_say() {
        for (label, items, pairs) in by_hand() {
            let tree = contract("c", items);
            let (image, expected) = (tree.image(), occurrences(&tree, pairs));
            assert_eq!(reference::refusal(&image), 0, "{label}");
            assert_eq!(found_down(&image), expected, "{label}");
            assert_eq!(found_up(&Tree::of(&image).expect("admitted")), expected, "{label}");
        }
    }

    #[test]
    fn too_few_of_any_are_a_failure() {
        let all = || Seen { images: 100, counted: 100, of_assigns: 5, nested: 5 };
        assert!(all().finish().is_ok());
        assert!(Seen { counted: 99, ..all() }.finish().is_err());
        assert!(Seen { of_assigns: 4, ..all() }.finish().is_err());
        assert!(Seen { nested: 4, ..all() }.finish().is_err());
        assert!(Seen::default().finish().is_err());
    }
}
