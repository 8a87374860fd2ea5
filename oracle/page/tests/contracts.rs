//! Contracts made of generated images: what the packer says of them, and what an offence is about.

use generate::{Node, Rng, admitted, fill, ident, name, node};
use isonkaypu::{check, check_image};

/// What an image does not carry makes no difference to the report.
#[test]
fn generated_contracts() {
    for index in 0..3_000 {
        let mut rng = Rng::of_image(59, index);
        let image = admitted(&mut rng);
        let mut contract = pack::unpack(&image).expect("admitted");
        fill(&mut contract, &mut rng);
        assert_eq!(check(&contract).ok(), check_image(&image).ok());
    }
}

/// Texts that no image can have at every place, or at none.
const ODD: [&str; 12] = ["", "é", "3mg", "0", "a-b", " ", "1-", "n\0", "\u{202e}x", "Ω", "_", "a9"];

/// Gives another text to the first node from `from` on that has one.
fn spoil(tree: &mut Node, from: usize, text: &str) {
    let (mut place, mut spoilt) = (0, false);
    tree.for_each_mut(&mut |node| {
        if place >= from && node.text.is_some() && !spoilt {
            node.text = Some(text.to_string());
            spoilt = true;
        }
        place += 1;
    });
}

/// One text of a generated contract is another: what the packer says of it is what the plain reading
/// says of the tree.
#[test]
fn a_spoilt_text_has_the_number_of_document_01() {
    let mut refused = 0;
    for index in 0..2_000 {
        let mut rng = Rng::of_image(61, index);
        let mut tree = generate::tree(&mut rng);
        let long = "n".repeat(rng.between(120, 140));
        let text = if rng.one_in(6) { &long } else { *rng.pick(&ODD) };
        let from = rng.below(tree.size());
        spoil(&mut tree, from, text);
        let image = tree.image();
        let contract = pack::unpack(&image).expect("only a text is odd");
        let number = check(&contract).map_or_else(|error| error.number(), |_| 0);
        assert_eq!(number, reference::refusal(&image), "{text:?}");
        refused += u32::from(number != 0);
    }
    assert!(refused > 1_000, "{refused}");
}

/// The codes of a contract's offences with the names that they are about.
fn about(tree: Node) -> Vec<(u16, Option<String>)> {
    let report = check_image(&tree.image()).expect("admitted");
    report.offences().iter().map(|offence| (offence.code, offence.name.clone())).collect()
}

fn with_name(code: u16, text: &str) -> (u16, Option<String>) {
    (code, Some(text.to_string()))
}

#[test]
fn an_offence_says_which_name_it_is_about() {
    use generate::build::*;
    let stock = || state(vec![field_decl("stock", ty("Map"))]);
    let entry_of = |parts| about(contract("c", vec![stock(), entry("e", parts)]));
    let field_of = |base| field(checked(base), "part");
    let target = wrapping(field_of(wrapping(ident("stock"))));
    assert_eq!(entry_of(vec![assign(target, int())]), [with_name(51, "stock")]);
    let set = method(field_of(ident("stock")), "set", vec![]);
    assert_eq!(entry_of(vec![does(set)]), [with_name(51, "stock")]);
    assert_eq!(entry_of(vec![does(apply("fly", vec![]))]), [with_name(34, "fly")]);
    assert_eq!(entry_of(vec![does(method(ident("stock"), "fly", vec![]))]), [with_name(34, "fly")]);
    // what a wrapped callee is called would mislead: `send` itself may be called
    assert_eq!(entry_of(vec![does(call(checked(ident("send")), vec![]))]), [(34, None)]);
    let lot = || param("lot", ty("Q_Asset"));
    assert_eq!(entry_of(vec![lot()]), [with_name(61, "lot")]);
    let aliased = entry_of(vec![lot(), local("other", ident("lot"))]);
    assert_eq!(aliased, [with_name(60, "other"), with_name(61, "lot")]);
    assert_eq!(entry_of(vec![emit("Gone", vec![])]), [with_name(30, "Gone")]);
    assert_eq!(entry_of(vec![node(form::kind::READS, vec![name("x")])]), [with_name(36, "x")]);
    let in_genesis = |statement| about(contract("c", vec![genesis(vec![statement])]));
    assert_eq!(in_genesis(assign(field(ident("x"), "y"), int())), [with_name(33, "x")]);
}

#[test]
fn a_report_is_shown() {
    let of = |tree: Node| check_image(&tree.image()).expect("admitted").to_string();
    assert_eq!(of(generate::patterns::p2()), "refused\n[61] `x` at bytes 50 to 51");
    assert_eq!(of(generate::build::contract("c", vec![])), "accepted");
}
