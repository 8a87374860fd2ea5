//! Each limit of the image form on both sides, which one is said when several are passed, and that no
//! contract is too deep or too wide for the packer itself.

use pack::{Limit, PackError, pack, unpack};
use quanta_ast::*;
use quanta_lexer::Span;

const NOWHERE: Span = Span { start: 0, end: 0 };
const HERE: Span = Span { start: 70, end: 77 };

fn name_at(text: &str, span: Span) -> Ident {
    Ident { text: text.to_string(), span }
}

fn name(text: &str) -> Ident {
    name_at(text, NOWHERE)
}

fn ident(text: &str) -> Expr {
    Expr::Ident(name(text))
}

/// An Ident that is to be found by its span.
fn found(text: &str) -> Expr {
    Expr::Ident(name_at(text, HERE))
}

fn call(args: Vec<Expr>) -> Expr {
    Expr::Call { callee: Box::new(ident("c")), args, span: NOWHERE }
}

/// A contract c whose one item is a Genesis of these statements.
fn genesis(body: Vec<Stmt>) -> Contract {
    let item = Item::Genesis(GenesisBlock { body, span: NOWHERE });
    Contract { name: name("c"), items: vec![item], span: NOWHERE }
}

/// The same with a Guard of the expression, which has three ancestors.
fn guard(expr: Expr) -> Contract {
    genesis(vec![Stmt::Guard { expr, span: NOWHERE }])
}

/// A contract c whose one entry e has a parameter of this type.
fn of_type(ty: Type) -> Contract {
    let param = Param { name: name("x"), sealed: false, ty, signed_by: None, span: NOWHERE };
    let (clauses, body) = (Vec::new(), Vec::new());
    let entry = EntryDecl { name: name("e"), params: vec![param], clauses, body, span: NOWHERE };
    Contract { name: name("c"), items: vec![Item::Entry(entry)], span: NOWHERE }
}

fn ty(text: &str, args: Vec<GenericArg>) -> Type {
    Type { name: name(text), args, span: NOWHERE }
}

fn outcome(contract: &Contract) -> Option<(Limit, u8, Span)> {
    pack(contract).err().map(|error| (error.limit(), error.number(), error.span()))
}

/// The limit, with its number, at the part that was put HERE.
fn passed(limit: Limit, number: u8) -> Option<(Limit, u8, Span)> {
    Some((limit, number, HERE))
}

#[test]
fn nodes() {
    // contract, Name, Genesis, Guard, Call, callee, and then the arguments
    let with_nodes = |count: usize| {
        let mut args = vec![ident("c"); count - 7];
        args.push(found("c"));
        guard(call(args))
    };
    assert_eq!(outcome(&with_nodes(2_048)), None);
    assert_eq!(outcome(&with_nodes(2_049)), passed(Limit::Nodes, 3));
}

#[test]
fn names() {
    let with_names = |count: usize| {
        let mut args: Vec<Expr> = (2..count).map(|k| ident(&format!("n{k}"))).collect();
        args.push(found("z"));
        guard(call(args))
    };
    assert_eq!(outcome(&with_names(1_024)), None);
    assert_eq!(outcome(&with_names(1_025)), passed(Limit::Names, 3));
}

#[test]
fn text() {
    // `c`, 127 names of 128 bytes, and one more
    let with_text = |last: usize| {
        let mut args: Vec<Expr> = (0..127).map(|k| ident(&format!("n{k:0>127}"))).collect();
        args.push(found(&"z".repeat(last)));
        guard(call(args))
    };
    assert_eq!(outcome(&with_text(127)), None);
    assert_eq!(outcome(&with_text(128)), passed(Limit::Text, 5));
}

#[test]
fn ancestors() {
    let checked = |levels: usize| {
        let wrap = |expr, _| Expr::Checked { expr: Box::new(expr), span: NOWHERE };
        guard((0..levels).fold(found("c"), wrap))
    };
    assert_eq!(outcome(&checked(61)), None);
    assert_eq!(outcome(&checked(62)), passed(Limit::Ancestors, 7));
    // a Type has three ancestors, its Name one more
    let nested = |levels: usize| {
        let inner = Type { name: name_at("T", HERE), args: Vec::new(), span: NOWHERE };
        of_type((0..levels).fold(inner, |inner, _| ty("T", vec![GenericArg::Type(inner)])))
    };
    assert_eq!(outcome(&nested(60)), None);
    assert_eq!(outcome(&nested(61)), passed(Limit::Ancestors, 7));
}

#[test]
fn forms_of_names() {
    let named = |text: &str| outcome(&guard(found(text)));
    for good in ["_", "a9", "A_z", "__1", &"n".repeat(128)] {
        assert_eq!(named(good), None, "{good}");
    }
    for bad in ["", &"n".repeat(129), &"é".repeat(65)] {
        assert_eq!(named(bad), passed(Limit::NameLength, 5), "{bad}");
    }
    for bad in ["é", "a-b", "a b", "1-", "-", "n\0", "a\u{7f}"] {
        assert_eq!(named(bad), passed(Limit::NameForm, 5), "{bad}");
    }
    for bad in ["3mg", "0"] {
        assert_eq!(named(bad), passed(Limit::OtherForm, 6), "{bad}");
    }
}

#[test]
fn forms_of_numbers() {
    let numbered = |text: &str| {
        let int = IntLit { text: text.to_string(), span: HERE };
        outcome(&of_type(ty("T", vec![GenericArg::Int(int)])))
    };
    assert_eq!(numbered("3mg"), None);
    assert_eq!(numbered("mg"), passed(Limit::OtherForm, 6));
    assert_eq!(numbered("3-"), passed(Limit::NameForm, 5));
    assert_eq!(numbered(""), passed(Limit::NameLength, 5));
}

#[test]
fn the_first_part_that_passes_a_limit_is_said() {
    let two = |first: Expr, second: Expr| outcome(&guard(call(vec![first, second])));
    assert_eq!(two(found("3mg"), ident("é")), passed(Limit::OtherForm, 6));
    assert_eq!(two(found("é"), ident("3mg")), passed(Limit::NameForm, 5));
    // at one part, the length before the form
    assert_eq!(two(found(&"-".repeat(129)), ident("c")), passed(Limit::NameLength, 5));
}

#[test]
fn the_words() {
    let error = pack(&guard(found("3mg"))).expect_err("a digit first");
    let words = "a name begins with a digit, or a number of a type does not, at bytes 70 to 77 of the source";
    assert_eq!(error.to_string(), words);
    assert_eq!(error, PackError::new(Limit::OtherForm, HERE));
    assert_eq!((Limit::Unlike.number(), Limit::Refused(4).number()), (0, 4));
}

/// A part around an expression.
type Wrap = fn(Box<Expr>) -> Expr;

const WRAPS: [Wrap; 7] = [
    |expr| Expr::Unary { op: UnaryOp::Neg, expr, span: NOWHERE },
    |left| Expr::Binary { op: BinOp::Or, left, right: Box::new(ident("c")), span: NOWHERE },
    |base| Expr::Field { base, name: name("c"), span: NOWHERE },
    |callee| Expr::Call { callee, args: Vec::new(), span: NOWHERE },
    |argument| call(vec![*argument]),
    |expr| Expr::Checked { expr, span: NOWHERE },
    |expr| Expr::Wrapping { expr, span: NOWHERE },
];

/// Packs on a thread with a small stack. The contract is not dropped: its parts drop each other, and
/// how deep that goes is the AST's matter.
fn packed_on_a_small_stack(make: impl FnOnce() -> Contract + Send + 'static) -> Option<(Limit, u8)> {
    let work = move || {
        let contract = make();
        let error = pack(&contract).err();
        std::mem::forget(contract);
        error.map(|error| (error.limit(), error.number()))
    };
    let thread = std::thread::Builder::new().stack_size(256 * 1024).spawn(work).expect("a thread");
    thread.join().expect("no panic")
}

#[test]
fn deep_expressions_do_not_overflow() {
    for levels in [20_000, 1_000_000] {
        for wrap in WRAPS {
            let deep = move || guard((0..levels).fold(ident("c"), |expr, _| wrap(Box::new(expr))));
            assert_eq!(packed_on_a_small_stack(deep), Some((Limit::Ancestors, 7)));
        }
    }
}

#[test]
fn deep_types_do_not_overflow() {
    for levels in [20_000, 1_000_000] {
        let nested =
            move || (0..levels).fold(ty("T", vec![]), |inner, _| ty("T", vec![GenericArg::Type(inner)]));
        assert_eq!(packed_on_a_small_stack(move || of_type(nested())), Some((Limit::Ancestors, 7)));
        // the type of an event's parameter is not carried, so it may be of any depth
        let event = move || {
            let param =
                Param { name: name("x"), sealed: false, ty: nested(), signed_by: None, span: NOWHERE };
            let event = EventDecl { name: name("E"), params: vec![param], span: NOWHERE };
            Contract { name: name("c"), items: vec![Item::Event(event)], span: NOWHERE }
        };
        assert_eq!(packed_on_a_small_stack(event), None);
    }
}

#[test]
fn wide_contracts_are_left_early() {
    let wide = || guard(call(vec![ident("c"); 1_000_000]));
    assert_eq!(outcome(&wide()).map(|o| o.0), Some(Limit::Nodes));
    let statement = || Stmt::Expr { expr: call(vec![ident("c"); 3_000]), span: NOWHERE };
    let both = genesis((0..3_000).map(|_| statement()).collect());
    assert_eq!(outcome(&both).map(|o| o.0), Some(Limit::Nodes));
}

/// Every byte of a small image takes every value, and every shorter image is tried.
#[test]
fn any_bytes_are_unpacked_or_not() {
    let image = pack(&guard(call(vec![ident("x")]))).expect("small");
    for at in 0..image.len() {
        assert_eq!(unpack(&image[..at]), None);
        let mut changed = image.clone();
        for byte in 0..=255 {
            changed[at] = byte;
            let Some(contract) = unpack(&changed) else {
                continue;
            };
            if let Ok(again) = pack(&contract) {
                assert_eq!(unpack(&again), Some(contract));
            }
        }
    }
}
