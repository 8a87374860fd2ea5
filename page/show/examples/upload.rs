//! What the upload page does with a contract that its parser has read: let it through, or show the uploader why not.

use quanta_ast::{Contract, Expr, Ident, InvariantDecl, Item};
use quanta_lexer::Span;
use show::Subject;

/// Lets the contract through, or gives the report on it: a page to show, and a text to send.
fn upload(label: &str, source: &str, contract: &Contract) -> Result<(), [String; 2]> {
    let checked = isonkaypu::check(contract);
    let subject = match &checked {
        Ok(report) if report.accepted() => return Ok(()),
        Ok(report) => Subject::checked(label, report),
        Err(error) => Subject::not_packed(label, *error),
    };
    let subject = subject.with_source(label, source.as_bytes());
    Err([show::html(&subject), show::text(&subject)])
}

/// What the page's parser gives for `contract Ward { invariant issued; }`.
fn parsed() -> Contract {
    let span = |start, end| Span { start, end };
    let ident = |text: &str, start, end| Ident { text: text.into(), span: span(start, end) };
    let invariant = InvariantDecl { expr: Expr::Ident(ident("issued", 26, 32)), span: span(16, 33) };
    let items = vec![Item::Invariant(invariant)];
    Contract { name: ident("Ward", 9, 13), items, span: span(0, 35) }
}

fn main() {
    match upload("ward.quanta", "contract Ward { invariant issued; }", &parsed()) {
        Ok(()) => println!("let through"),
        Err([_page, text]) => print!("{text}"),
    }
}
