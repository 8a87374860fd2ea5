//! The parts of a contract that become nodes: document 01's table of children, read from the AST's
//! side. A part knows its kind, its span, its text and its own children, and looks no further.

use form::image::MAX_NODES;
use form::kind;
use quanta_ast::*;
use quanta_lexer::Span;

/// A part of a contract, one for each node of its image.
#[derive(Clone, Copy)]
pub enum Part<'a> {
    Contract(&'a Contract),
    Item(&'a Item),
    Field(&'a FieldDecl),
    EventParam(&'a Param),
    Param(&'a Param),
    Type(&'a Type),
    Number(&'a IntLit),
    MofN(&'a IntLit, &'a IntLit, Span),
    Clause(&'a Clause),
    Duration(&'a Duration),
    Name(&'a Ident),
    Stmt(&'a Stmt),
    Expr(&'a Expr),
}

use Part::{EventParam, Field, MofN, Name, Number};

impl<'a> Part<'a> {
    /// The kind of its node, and its span.
    pub fn kind_and_span(self) -> (u8, Span) {
        match self {
            Part::Contract(contract) => (kind::CONTRACT, contract.span),
            Part::Item(item) => of_item(item),
            Field(field) => (kind::FIELD_DECL, field.span),
            EventParam(param) => (kind::EVENT_PARAM, param.span),
            Part::Param(param) => (kind::PARAM, param.span),
            Part::Type(ty) => (kind::TYPE, ty.span),
            Number(int) => (kind::INT_OF_TYPE, int.span),
            MofN(_, _, span) => (kind::M_OF_N, span),
            Part::Clause(clause) => of_clause(clause),
            Part::Duration(duration) => (kind::DURATION, duration.span),
            Name(name) => (kind::NAME, name.span),
            Part::Stmt(stmt) => of_stmt(stmt),
            Part::Expr(expr) => (expr_kind(expr), expr.span()),
        }
    }

    /// The text that kinds 12, 23 and 35 carry.
    pub fn text(self) -> Option<&'a str> {
        match self {
            Number(int) => Some(&int.text),
            Name(name) | Part::Expr(Expr::Ident(name)) => Some(&name.text),
            _ => None,
        }
    }

    /// Puts its children behind what stands in `out`, first to last.
    pub fn children(self, out: &mut Vec<Part<'a>>) {
        match self {
            Part::Contract(contract) => {
                out.push(Name(&contract.name));
                each(out, &contract.items, Part::Item);
            }
            Part::Item(item) => item_children(item, out),
            Field(field) => {
                out.extend([Name(&field.name), Part::Type(&field.ty)]);
                out.extend(field.default.as_ref().map(Part::Expr));
            }
            Part::Param(param) => {
                out.extend([Name(&param.name), Part::Type(&param.ty)]);
                out.extend(param.signed_by.as_ref().map(Name));
            }
            Part::Type(ty) => {
                out.push(Name(&ty.name));
                each(out, &ty.args, argument);
            }
            MofN(m, n, _) => out.extend([Number(m), Number(n)]),
            Part::Clause(clause) => clause_children(clause, out),
            Part::Stmt(stmt) => stmt_children(stmt, out),
            Part::Expr(expr) => expr_children(expr, out),
            EventParam(_) | Number(_) | Part::Duration(_) | Name(_) => {}
        }
    }
}

/// As many as an image has nodes: behind these nothing is looked at, since the limit is passed.
fn each<'a, T>(out: &mut Vec<Part<'a>>, parts: &'a [T], part: impl Fn(&'a T) -> Part<'a>) {
    out.extend(parts.iter().take(MAX_NODES).map(part));
}

fn of_item(item: &Item) -> (u8, Span) {
    match item {
        Item::Asset(asset) => (kind::ASSET, asset.span),
        Item::State(state) => (kind::STATE, state.span),
        Item::Event(event) => (kind::EVENT, event.span),
        Item::Genesis(genesis) => (kind::GENESIS, genesis.span),
        Item::Invariant(invariant) => (kind::INVARIANT, invariant.span),
        Item::Entry(entry) => (kind::ENTRY, entry.span),
    }
}

fn item_children<'a>(item: &'a Item, out: &mut Vec<Part<'a>>) {
    match item {
        Item::Asset(asset) => out.push(Name(&asset.name)),
        Item::State(state) => each(out, &state.fields, Field),
        Item::Event(event) => {
            out.push(Name(&event.name));
            each(out, &event.params, EventParam);
        }
        Item::Genesis(genesis) => each(out, &genesis.body, Part::Stmt),
        Item::Invariant(invariant) => out.push(Part::Expr(&invariant.expr)),
        Item::Entry(entry) => {
            out.push(Name(&entry.name));
            each(out, &entry.params, Part::Param);
            each(out, &entry.clauses, Part::Clause);
            each(out, &entry.body, Part::Stmt);
        }
    }
}

fn argument(argument: &GenericArg) -> Part<'_> {
    match argument {
        GenericArg::Type(ty) => Part::Type(ty),
        GenericArg::Int(int) => Number(int),
        GenericArg::MofN { m, n, span } => MofN(m, n, *span),
    }
}

fn of_clause(clause: &Clause) -> (u8, Span) {
    match clause {
        Clause::Writes { span, .. } => (kind::WRITES, *span),
        Clause::Reads { span, .. } => (kind::READS, *span),
        Clause::Conserves { span, .. } => (kind::CONSERVES, *span),
        Clause::Mints { span, .. } => (kind::MINTS, *span),
        Clause::Burns { span, .. } => (kind::BURNS, *span),
        Clause::Limits { span, .. } => (kind::LIMITS, *span),
        Clause::Denies { span, .. } => (kind::DENIES, *span),
        Clause::After { span, .. } => (kind::AFTER, *span),
    }
}

fn clause_children<'a>(clause: &'a Clause, out: &mut Vec<Part<'a>>) {
    match clause {
        Clause::Writes { names, .. } | Clause::Reads { names, .. } => each(out, names, Name),
        Clause::Conserves { asset, .. } | Clause::Mints { asset, .. } | Clause::Burns { asset, .. } => {
            out.push(Name(asset));
        }
        Clause::Limits { expr, .. } | Clause::Denies { expr, .. } => out.push(Part::Expr(expr)),
        Clause::After { target, from, .. } => {
            out.push(match target {
                AfterTarget::Duration(duration) => Part::Duration(duration),
                AfterTarget::Expr(expr) => Part::Expr(expr),
            });
            out.extend(from.as_ref().map(Part::Expr));
        }
    }
}

fn of_stmt(stmt: &Stmt) -> (u8, Span) {
    match stmt {
        Stmt::Guard { span, .. } => (kind::GUARD, *span),
        Stmt::Let { span, .. } => (kind::LET, *span),
        Stmt::Emit { span, .. } => (kind::EMIT, *span),
        Stmt::Assign { span, .. } => (kind::ASSIGN, *span),
        Stmt::Expr { span, .. } => (kind::STMT_EXPR, *span),
    }
}

fn stmt_children<'a>(stmt: &'a Stmt, out: &mut Vec<Part<'a>>) {
    match stmt {
        Stmt::Guard { expr, .. } | Stmt::Expr { expr, .. } => out.push(Part::Expr(expr)),
        Stmt::Let { name, value, .. } => out.extend([Name(name), Part::Expr(value)]),
        Stmt::Emit { name, args, .. } => {
            out.push(Name(name));
            each(out, args, Part::Expr);
        }
        Stmt::Assign { target, value, .. } => out.extend([Part::Expr(target), Part::Expr(value)]),
    }
}

fn expr_kind(expr: &Expr) -> u8 {
    match expr {
        Expr::Int(_) => kind::INT,
        Expr::Date { .. } => kind::DATE,
        Expr::Str(_) => kind::STR,
        Expr::Ident(_) => kind::IDENT,
        Expr::Caller { .. } => kind::CALLER,
        Expr::Native { .. } => kind::NATIVE,
        Expr::InAsset { .. } => kind::IN_ASSET,
        Expr::Now { .. } => kind::NOW,
        Expr::Unary { .. } => kind::UNARY,
        Expr::Binary { .. } => kind::BINARY,
        Expr::Field { .. } => kind::FIELD,
        Expr::Call { .. } => kind::CALL,
        Expr::Checked { .. } => kind::CHECKED,
        Expr::Wrapping { .. } => kind::WRAPPING,
    }
}

fn expr_children<'a>(expr: &'a Expr, out: &mut Vec<Part<'a>>) {
    match expr {
        Expr::Unary { expr, .. } | Expr::Checked { expr, .. } | Expr::Wrapping { expr, .. } => {
            out.push(Part::Expr(expr));
        }
        Expr::Binary { left, right, .. } => out.extend([Part::Expr(left), Part::Expr(right)]),
        Expr::Field { base, name, .. } => out.extend([Part::Expr(base), Name(name)]),
        Expr::Call { callee, args, .. } => {
            out.push(Part::Expr(callee));
            each(out, args, Part::Expr);
        }
        Expr::Int(_)
        | Expr::Date { .. }
        | Expr::Str(_)
        | Expr::Ident(_)
        | Expr::Caller { .. }
        | Expr::Native { .. }
        | Expr::InAsset { .. }
        | Expr::Now { .. } => {}
    }
}
