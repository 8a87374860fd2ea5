//! Whether two contracts are the same up to what an image does not carry. Each part is taken apart
//! with all its fields named, so that none can be forgotten: `_` stands for what is not carried.
//!
//! Both are gone down together and no further than they agree, so that the second, which comes from
//! an image, says how deep this goes. Nothing of the packer is used here, since it is the packer that
//! this is to find out.

use quanta_ast::*;
use quanta_lexer::Span;

/// Where a contract differs from one that `unpack` gave: the span of the first part that does. `None`
/// where they are the same up to operators, the values of literals, durations, `sealed`, `meta`, and
/// the names and types of an event's parameters.
pub fn unlike(contract: &Contract, unpacked: &Contract) -> Option<Span> {
    let Contract { name, items, span } = contract;
    let same = same(*span == unpacked.span, *span)
        .and_then(|()| ident(name, &unpacked.name))
        .and_then(|()| each(*span, items, &unpacked.items, item));
    same.err()
}

/// The span of the part that differs, where one does.
type Same = Result<(), Span>;

fn same(are: bool, span: Span) -> Same {
    if are { Ok(()) } else { Err(span) }
}

/// As many on both sides, and each the same; `span` is that of the part they stand in.
fn each<T>(span: Span, left: &[T], right: &[T], one: fn(&T, &T) -> Same) -> Same {
    same(left.len() == right.len(), span)?;
    left.iter().zip(right).try_for_each(|(left, right)| one(left, right))
}

fn optional<T>(span: Span, left: &Option<T>, right: &Option<T>, one: fn(&T, &T) -> Same) -> Same {
    each(span, left.as_slice(), right.as_slice(), one)
}

/// Text and span.
fn ident(left: &Ident, right: &Ident) -> Same {
    same(left == right, left.span)
}

/// Text and span: a number of a type is carried.
fn number(left: &IntLit, right: &IntLit) -> Same {
    same(left == right, left.span)
}

fn item(left: &Item, right: &Item) -> Same {
    match (left, right) {
        (Item::Asset(AssetDecl { name, span }), Item::Asset(right)) => {
            same(*span == right.span, *span)?;
            ident(name, &right.name)
        }
        (Item::State(StateBlock { fields, span }), Item::State(right)) => {
            same(*span == right.span, *span)?;
            each(*span, fields, &right.fields, field)
        }
        (Item::Genesis(GenesisBlock { body, span }), Item::Genesis(right)) => {
            same(*span == right.span, *span)?;
            each(*span, body, &right.body, stmt)
        }
        (Item::Invariant(InvariantDecl { expr: value, span }), Item::Invariant(right)) => {
            same(*span == right.span, *span)?;
            expr(value, &right.expr)
        }
        (Item::Entry(left), Item::Entry(right)) => entry(left, right),
        (Item::Event(EventDecl { name, params, span }), Item::Event(right)) => {
            same(*span == right.span, *span)?;
            ident(name, &right.name)?;
            each(*span, params, &right.params, event_param)
        }
        _ => Err(item_span(left)),
    }
}

fn item_span(item: &Item) -> Span {
    match item {
        Item::Asset(AssetDecl { span, .. })
        | Item::State(StateBlock { span, .. })
        | Item::Genesis(GenesisBlock { span, .. })
        | Item::Invariant(InvariantDecl { span, .. })
        | Item::Entry(EntryDecl { span, .. })
        | Item::Event(EventDecl { span, .. }) => *span,
    }
}

fn field(left: &FieldDecl, right: &FieldDecl) -> Same {
    let FieldDecl { name, ty: of_type, default, meta: _, span } = left;
    same(*span == right.span, *span)?;
    ident(name, &right.name)?;
    ty(of_type, &right.ty)?;
    optional(*span, default, &right.default, expr)
}

/// Of an event's parameter an image has only that it is there, and its span. Its type may be of any
/// depth, and is not looked at.
fn event_param(left: &Param, right: &Param) -> Same {
    let Param { name: _, sealed: _, ty: _, signed_by: _, span } = left;
    same(*span == right.span, *span)
}

fn entry(left: &EntryDecl, right: &EntryDecl) -> Same {
    let EntryDecl { name, params, clauses, body, span } = left;
    same(*span == right.span, *span)?;
    ident(name, &right.name)?;
    each(*span, params, &right.params, param)?;
    each(*span, clauses, &right.clauses, clause)?;
    each(*span, body, &right.body, stmt)
}

fn param(left: &Param, right: &Param) -> Same {
    let Param { name, sealed: _, ty: of_type, signed_by, span } = left;
    same(*span == right.span, *span)?;
    ident(name, &right.name)?;
    ty(of_type, &right.ty)?;
    optional(*span, signed_by, &right.signed_by, ident)
}

fn ty(left: &Type, right: &Type) -> Same {
    let Type { name, args, span } = left;
    same(*span == right.span, *span)?;
    ident(name, &right.name)?;
    each(*span, args, &right.args, argument)
}

fn argument(left: &GenericArg, right: &GenericArg) -> Same {
    match (left, right) {
        (GenericArg::Type(left), GenericArg::Type(right)) => ty(left, right),
        (GenericArg::Int(left), GenericArg::Int(right)) => number(left, right),
        (GenericArg::MofN { m, n, span }, GenericArg::MofN { m: right_m, n: right_n, span: right }) => {
            same(span == right, *span)?;
            number(m, right_m)?;
            number(n, right_n)
        }
        (GenericArg::Type(Type { span, .. }), _)
        | (GenericArg::Int(IntLit { span, .. }), _)
        | (GenericArg::MofN { span, .. }, _) => Err(*span),
    }
}

fn clause(left: &Clause, right: &Clause) -> Same {
    let span = clause_span(left);
    same(span == clause_span(right), span)?;
    match (left, right) {
        (Clause::Writes { names: left, span }, Clause::Writes { names: right, .. })
        | (Clause::Reads { names: left, span }, Clause::Reads { names: right, .. }) => {
            each(*span, left, right, ident)
        }
        (Clause::Conserves { asset: left, span: _ }, Clause::Conserves { asset: right, .. })
        | (Clause::Mints { asset: left, span: _ }, Clause::Mints { asset: right, .. })
        | (Clause::Burns { asset: left, span: _ }, Clause::Burns { asset: right, .. }) => ident(left, right),
        (Clause::Limits { expr: left, span: _ }, Clause::Limits { expr: right, .. })
        | (Clause::Denies { expr: left, span: _ }, Clause::Denies { expr: right, .. }) => expr(left, right),
        (
            Clause::After { target: left, from: left_from, span },
            Clause::After { target: right, from: right_from, .. },
        ) => {
            after_target(*span, left, right)?;
            optional(*span, left_from, right_from, expr)
        }
        _ => Err(span),
    }
}

fn clause_span(clause: &Clause) -> Span {
    match clause {
        Clause::Writes { span, .. }
        | Clause::Reads { span, .. }
        | Clause::Conserves { span, .. }
        | Clause::Mints { span, .. }
        | Clause::Burns { span, .. }
        | Clause::Limits { span, .. }
        | Clause::Denies { span, .. }
        | Clause::After { span, .. } => *span,
    }
}

fn after_target(span: Span, left: &AfterTarget, right: &AfterTarget) -> Same {
    match (left, right) {
        (AfterTarget::Expr(left), AfterTarget::Expr(right)) => expr(left, right),
        (AfterTarget::Duration(Duration { value: _, unit: _, span }), AfterTarget::Duration(right)) => {
            same(*span == right.span, *span)
        }
        _ => Err(span),
    }
}

fn stmt(left: &Stmt, right: &Stmt) -> Same {
    let span = stmt_span(left);
    same(span == stmt_span(right), span)?;
    match (left, right) {
        (Stmt::Guard { expr: left, span: _ }, Stmt::Guard { expr: right, .. })
        | (Stmt::Expr { expr: left, span: _ }, Stmt::Expr { expr: right, .. }) => expr(left, right),
        (Stmt::Let { name: left, value, span: _ }, Stmt::Let { name: right, value: right_value, .. }) => {
            ident(left, right)?;
            expr(value, right_value)
        }
        (Stmt::Emit { name: left, args, span }, Stmt::Emit { name: right, args: right_args, .. }) => {
            ident(left, right)?;
            each(*span, args, right_args, expr)
        }
        (
            Stmt::Assign { target: left, op: _, value, span: _ },
            Stmt::Assign { target: right, value: right_value, .. },
        ) => {
            expr(left, right)?;
            expr(value, right_value)
        }
        _ => Err(span),
    }
}

fn stmt_span(stmt: &Stmt) -> Span {
    match stmt {
        Stmt::Guard { span, .. }
        | Stmt::Let { span, .. }
        | Stmt::Emit { span, .. }
        | Stmt::Assign { span, .. }
        | Stmt::Expr { span, .. } => *span,
    }
}

fn expr(left: &Expr, right: &Expr) -> Same {
    let span = left.span();
    same(span == right.span(), span)?;
    match (left, right) {
        (Expr::Ident(left), Expr::Ident(right)) => ident(left, right),
        (Expr::Unary { op: _, expr: left, span: _ }, Expr::Unary { expr: right, .. })
        | (Expr::Checked { expr: left, span: _ }, Expr::Checked { expr: right, .. })
        | (Expr::Wrapping { expr: left, span: _ }, Expr::Wrapping { expr: right, .. }) => expr(left, right),
        (
            Expr::Binary { op: _, left: first, right: second, span: _ },
            Expr::Binary { left: right_first, right: right_second, .. },
        ) => {
            expr(first, right_first)?;
            expr(second, right_second)
        }
        (Expr::Field { base, name, span: _ }, Expr::Field { base: right_base, name: right_name, .. }) => {
            expr(base, right_base)?;
            ident(name, right_name)
        }
        (Expr::Call { callee, args, span }, Expr::Call { callee: right_callee, args: right_args, .. }) => {
            expr(callee, right_callee)?;
            each(*span, args, right_args, expr)
        }
        _ => same(are_one_literal(left, right), span),
    }
}

/// Expressions of which an image has the kind and the span alone.
fn are_one_literal(left: &Expr, right: &Expr) -> bool {
    matches!(
        (left, right),
        (Expr::Int(_), Expr::Int(_))
            | (Expr::Date { .. }, Expr::Date { .. })
            | (Expr::Str(_), Expr::Str(_))
            | (Expr::Caller { .. }, Expr::Caller { .. })
            | (Expr::Native { .. }, Expr::Native { .. })
            | (Expr::InAsset { .. }, Expr::InAsset { .. })
            | (Expr::Now { .. }, Expr::Now { .. })
    )
}
