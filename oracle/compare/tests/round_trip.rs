//! The packer and the decoder: an image comes back byte for byte, a contract comes back up to what
//! the image does not carry, and what the packer refuses is what admission would refuse.

use compare::images::{admitted_image, by_hand};
use generate::build::*;
use generate::{Node, Rng, fill, ident, number};
use pack::{Limit, pack, unlike, unpack};
use quanta_ast::*;
use quanta_lexer::Span;

#[test]
fn images_come_back() {
    let generated = (0..2_000).map(|index| admitted_image(7, index));
    let by_hand = by_hand().into_iter().map(|(_, image)| image);
    for image in generated.chain(by_hand).filter(|i| reference::refusal(i) == 0) {
        let contract = unpack(&image).expect("admitted");
        assert_eq!(pack(&contract), Ok(image));
    }
}

#[test]
fn contracts_come_back() {
    for index in 0..2_000 {
        let contract = unpack(&admitted_image(8, index)).expect("admitted");
        let image = pack(&contract).expect("not too large");
        let again = unpack(&image).expect("packed");
        assert_eq!(unlike(&contract, &again), None);
        assert_eq!(again, contract);
    }
}

/// Two images that differ have contracts that differ, and the packer's check of itself says so.
#[test]
fn a_difference_shows() {
    let images: Vec<Vec<u8>> = (0..60).map(|index| admitted_image(9, index)).collect();
    for (k, left) in images.iter().enumerate() {
        for (j, right) in images.iter().enumerate() {
            let (left, right) = (unpack(left).expect("admitted"), unpack(right).expect("admitted"));
            assert_eq!(unlike(&left, &right).is_none(), k == j);
        }
    }
}

/// One word of one node changed: another kind, another name, another span.
#[test]
fn a_small_difference_shows() {
    let mut seen = 0;
    for index in 0..150 {
        let image = admitted_image(10, index);
        let contract = unpack(&image).expect("admitted");
        for at in (24..reference::admit(&image).expect("admitted").nodes.len() * 16).step_by(7) {
            let mut changed = image.clone();
            changed[at] ^= 1;
            if let Some(other) = unpack(&changed).filter(|_| reference::refusal(&changed) == 0) {
                assert!(unlike(&contract, &other).is_some(), "byte {at} of image {index}");
                seen += 1;
            }
        }
    }
    assert!(seen > 10_000, "{seen}");
}

/// What the image does not carry makes no difference, whatever it is.
#[test]
fn what_is_not_carried_makes_no_difference() {
    let mut others = 0;
    for index in 0..500 {
        let image = admitted_image(12, index);
        let bare = unpack(&image).expect("admitted");
        let mut filled = bare.clone();
        fill(&mut filled, &mut Rng::new(index));
        others += u32::from(filled != bare);
        assert_eq!(unlike(&filled, &bare), None);
        assert_eq!(pack(&filled), Ok(image));
    }
    assert!(others > 400, "{others}");
}

#[test]
fn judging_spans_are_places() {
    let image = generate::patterns::p2().image();
    let contract = compare::judge::contract(&image).ok().expect("admitted");
    let Item::Entry(entry) = &contract.items[0] else {
        panic!("an entry");
    };
    assert_eq!(entry.span, Span { start: 2, end: 2 });
    assert_eq!(entry.params[0].name.span, Span { start: 5, end: 5 });
}

#[test]
fn no_image_has_no_contract() {
    assert_eq!(unpack(&[]), None);
}

/// What the image does not carry: two contracts that differ in nothing else have one image.
#[test]
fn operators_and_literals_are_not_carried() {
    let span = Span { start: 3, end: 4 };
    let of = |op, text: &str, assign| {
        let int = || Expr::Int(IntLit { text: text.to_string(), span });
        let value = Expr::Binary { op, left: Box::new(int()), right: Box::new(int()), span };
        let body = vec![Stmt::Assign { target: int(), op: assign, value, span }];
        let name = Ident { text: "c".to_string(), span };
        Contract { name, items: vec![Item::Genesis(GenesisBlock { body, span })], span }
    };
    let (one, other) = (of(BinOp::Add, "1", AssignOp::Set), of(BinOp::Rem, "23", AssignOp::Sub));
    assert!(pack(&one).is_ok());
    assert_eq!(pack(&one), pack(&other));
    assert_eq!(unlike(&one, &other), None);
}

/// The page's maxima as the packer and as the plain reading have them.
#[test]
fn both_have_the_same_maxima() {
    use reference::image as read;
    assert_eq!(form::image::HEADER, read::HEADER);
    assert_eq!(form::image::NODE, read::NODE);
    assert_eq!(form::image::MAX_NODES, read::MAX_NODES);
    assert_eq!(form::image::MAX_NAMES, read::MAX_NAMES);
    assert_eq!(form::image::MAX_TEXT, read::MAX_TEXT);
    assert_eq!(form::image::MAX_NAME, read::MAX_NAME);
    assert_eq!(form::image::MAX_ANCESTORS, read::MAX_ANCESTORS);
    assert_eq!((form::image::MAX_LENGTH, read::MAX_LENGTH), (51_226, 51_226));
}

/// A contract whose one Genesis guards an expression like the tree, of any size.
fn contract_with(tree: &Node) -> Contract {
    let span = Span { start: 0, end: 0 };
    fn expr(tree: &Node, span: Span) -> Expr {
        match &tree.text {
            Some(text) => Expr::Ident(Ident { text: text.clone(), span }),
            None => Expr::Call {
                callee: Box::new(expr(&tree.children[0], span)),
                args: tree.children[1..].iter().map(|c| expr(c, span)).collect(),
                span,
            },
        }
    }
    let body = vec![Stmt::Guard { expr: expr(tree, span), span }];
    let name = Ident { text: "c".to_string(), span };
    Contract { name, items: vec![Item::Genesis(GenesisBlock { body, span })], span }
}

/// The limit that a tree of Calls passes, whose number must be the refusal that the plain reading
/// gives the same tree.
fn limit_of(tree: Node) -> Option<Limit> {
    let packed = pack(&contract_with(&tree));
    let image = contract("c", vec![genesis(vec![guard(tree)])]).image();
    let number = packed.as_ref().err().map_or(0, |error| error.number());
    assert_eq!(number, reference::refusal(&image));
    assert!(packed.is_err() || packed.as_ref() == Ok(&image));
    packed.err().map(|error| error.limit())
}

#[test]
fn a_contract_too_large_says_by_which_limit() {
    let arguments = |texts: Vec<String>| apply("c", texts.iter().map(|t| ident(t)).collect());
    let numbered = |count: usize| (0..count).map(|k| format!("n{k:04}")).collect::<Vec<_>>();
    // contract, Name, Genesis, Guard, Call, callee, then the arguments
    let with_nodes = |count: usize| arguments(vec!["c".to_string(); count - 6]);
    assert_eq!(limit_of(with_nodes(2_048)), None);
    assert_eq!(limit_of(with_nodes(2_049)), Some(Limit::Nodes));
    assert_eq!(limit_of(arguments(numbered(1_023))), None);
    assert_eq!(limit_of(arguments(numbered(1_024))), Some(Limit::Names));
    let long = |count: usize| arguments((0..count).map(|k| format!("n{k:0>127}")).collect());
    assert_eq!(limit_of(long(127)), None);
    assert_eq!(limit_of(long(128)), Some(Limit::Text));
    assert_eq!(limit_of(ident(&"n".repeat(128))), None);
    assert_eq!(limit_of(ident(&"n".repeat(129))), Some(Limit::NameLength));
    assert_eq!(limit_of(ident("")), Some(Limit::NameLength));
    assert_eq!(limit_of(ident("é")), Some(Limit::NameForm));
    assert_eq!(limit_of(ident("1")), Some(Limit::OtherForm));
    assert_eq!(limit_of(ident("3mg")), Some(Limit::OtherForm));
    // the expression in a Guard has three ancestors
    let deep = |levels| (0..levels).fold(ident("c"), |inner, _| call(inner, vec![]));
    assert_eq!(limit_of(deep(61)), None);
    assert_eq!(limit_of(deep(62)), Some(Limit::Ancestors));
}

/// A number of a type that is an identifier: the other form.
#[test]
fn a_number_of_a_type_begins_with_a_digit() {
    let of = |text: &str| contract("c", vec![state(vec![field_decl("f", ty_of("T", vec![number(text)]))])]);
    assert_eq!(reference::refusal(&of("3mg").image()), 0);
    assert_eq!(reference::refusal(&of("mg").image()), 6);
}
