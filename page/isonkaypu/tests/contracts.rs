//! Contracts as the parser gives them: which have no image, and that none is too deep.

use isonkaypu::{Doubt, ImageRefusal, Limit, Lot, Offence, PackError, Report, WhyError, check, check_image};
use quanta_ast::*;
use quanta_lexer::Span;

const HERE: Span = Span { start: 3, end: 8 };

fn named(text: &str) -> Ident {
    Ident { text: text.to_string(), span: HERE }
}

fn of_item(item: Item) -> Contract {
    Contract { name: named("c"), items: vec![item], span: HERE }
}

/// A contract whose Genesis has a Guard of the expression.
fn guarding(expr: Expr) -> Contract {
    let body = vec![Stmt::Guard { expr, span: HERE }];
    of_item(Item::Genesis(GenesisBlock { body, span: HERE }))
}

/// Runs on a thread with a small stack.
fn on_a_small_stack<T: Send + 'static>(work: impl FnOnce() -> T + Send + 'static) -> T {
    let thread = std::thread::Builder::new().stack_size(256 * 1024).spawn(work).expect("a thread");
    thread.join().expect("no panic")
}

#[test]
fn a_contract_that_passes_a_limit_is_an_error() {
    let of = |text: &str| check(&guarding(Expr::Ident(named(text)))).expect_err("a limit");
    let said = |error: PackError| (error.limit(), error.number(), error.span());
    assert_eq!(said(of("3mg")), (Limit::OtherForm, 6, HERE));
    assert_eq!(said(of("")), (Limit::NameLength, 5, HERE));
    assert_eq!(said(of("é")), (Limit::NameForm, 5, HERE));
    let wide = vec![Expr::Now { span: HERE }; 3_000];
    let wide = Expr::Call { callee: Box::new(Expr::Ident(named("c"))), args: wide, span: HERE };
    assert_eq!(said(check(&guarding(wide)).expect_err("a limit")), (Limit::Nodes, 3, HERE));
}

/// Parts around an expression, by which a contract can be deep.
const WRAPS: [fn(Expr) -> Expr; 4] = [
    |expr| Expr::Checked { expr: Box::new(expr), span: HERE },
    |base| Expr::Field { base: Box::new(base), name: named("f"), span: HERE },
    |callee| Expr::Call { callee: Box::new(callee), args: vec![], span: HERE },
    |arg| Expr::Call { callee: Box::new(Expr::Now { span: HERE }), args: vec![arg], span: HERE },
];

fn deep(levels: usize, wrap: fn(Expr) -> Expr) -> Contract {
    guarding((0..levels).fold(Expr::Now { span: HERE }, |expr, _| wrap(expr)))
}

fn deep_type(levels: usize) -> Type {
    let nest = |args, _| vec![GenericArg::Type(Type { name: named("T"), args, span: HERE })];
    Type { name: named("T"), args: (0..levels).fold(Vec::new(), nest), span: HERE }
}

fn with_type(ty: Type) -> Contract {
    let field = FieldDecl { name: named("f"), ty, default: None, meta: false, span: HERE };
    of_item(Item::State(StateBlock { fields: vec![field], span: HERE }))
}

/// Checks on a thread with a small stack: the number of the error, 0 where there is none. The contract
/// is not dropped, since its parts drop each other, and how deep that goes is the AST's matter.
fn number_on_a_small_stack(make: impl FnOnce() -> Contract + Send + 'static) -> u8 {
    on_a_small_stack(move || {
        let contract = make();
        let number = check(&contract).map_or_else(|error| error.number(), |_| 0);
        std::mem::forget(contract);
        number
    })
}

/// As deep as an image can be, and far deeper: no stack is overflowed.
#[test]
fn no_contract_is_too_deep() {
    for levels in [60, 62, 20_000, 1_000_000] {
        let expected = if levels == 60 { 0 } else { 7 };
        for wrap in WRAPS {
            assert_eq!(number_on_a_small_stack(move || deep(levels, wrap)), expected);
        }
        assert_eq!(number_on_a_small_stack(move || with_type(deep_type(levels))), expected);
    }
}

/// The type of an event's parameter is in no image, and may be of any depth.
#[test]
fn what_an_image_does_not_carry_is_not_gone_into() {
    let event = || {
        let ty = deep_type(1_000_000);
        let param = Param { name: named("x"), sealed: true, ty, signed_by: None, span: HERE };
        of_item(Item::Event(EventDecl { name: named("E"), params: vec![param], span: HERE }))
    };
    assert_eq!(number_on_a_small_stack(event), 0);
}

#[test]
fn a_report_is_shown() {
    let of = |text: &str| check_image(&example::image(text)).expect("admitted").to_string();
    assert_eq!(of("contract c { entry e(x: Q_Asset) { } }"), "refused\n[61] `x` at bytes 21 to 22");
    assert_eq!(of("contract c { }"), "accepted");
}

/// Reports and errors may go from thread to thread.
#[test]
fn all_that_is_answered_is_send_and_sync() {
    fn holds<T: Send + Sync + 'static>() {}
    holds::<Report>();
    holds::<Offence>();
    holds::<Doubt>();
    holds::<PackError>();
    holds::<ImageRefusal>();
    holds::<Lot>();
    holds::<WhyError>();
}

#[test]
fn the_kit_is_named() {
    assert!(!isonkaypu::kit().is_empty());
}

/// The whole of the sum, for programs.
#[test]
fn the_library_is_named() {
    let digits = isonkaypu::library();
    assert!(digits.len() == 64 && digits.bytes().all(|byte| byte.is_ascii_hexdigit()), "{digits}");
}
