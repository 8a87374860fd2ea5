//! What an image does not carry, put into a contract at random, with words that the rules know: the
//! packer leaves it behind, so no rule may look at it.

use crate::rng::Rng;
use crate::words::RULE_WORDS;
use quanta_ast::*;

const BINARY: [BinOp; 5] = [BinOp::Or, BinOp::Eq, BinOp::Sub, BinOp::Rem, BinOp::Shr];

/// Operators, the values of literals, durations, `sealed`, `meta`, and all of an event's parameters but
/// their spans.
pub fn fill(contract: &mut Contract, rng: &mut Rng) {
    for item in &mut contract.items {
        match item {
            Item::Asset(_) => {}
            Item::State(state) => state.fields.iter_mut().for_each(|field| fill_field(field, rng)),
            Item::Event(event) => event.params.iter_mut().for_each(|param| fill_event_param(param, rng)),
            Item::Genesis(genesis) => genesis.body.iter_mut().for_each(|stmt| fill_stmt(stmt, rng)),
            Item::Invariant(invariant) => fill_expr(&mut invariant.expr, rng),
            Item::Entry(entry) => fill_entry(entry, rng),
        }
    }
}

fn word(rng: &mut Rng) -> String {
    rng.word(RULE_WORDS).to_string()
}

fn fill_field(field: &mut FieldDecl, rng: &mut Rng) {
    field.meta = rng.one_in(2);
    fill_all(&mut field.default, rng);
}

fn fill_event_param(param: &mut Param, rng: &mut Rng) {
    let span = param.span;
    let ident = |text| Ident { text, span };
    let inner = Type { name: ident(word(rng)), args: Vec::new(), span };
    param.name.text = word(rng);
    param.sealed = rng.one_in(2);
    param.ty = Type { name: ident("Q_Asset".to_string()), args: vec![GenericArg::Type(inner)], span };
    param.signed_by = rng.one_in(2).then(|| ident("deployer".to_string()));
}

fn fill_entry(entry: &mut EntryDecl, rng: &mut Rng) {
    for param in &mut entry.params {
        param.sealed = rng.one_in(2);
    }
    for clause in &mut entry.clauses {
        fill_clause(clause, rng);
    }
    for stmt in &mut entry.body {
        fill_stmt(stmt, rng);
    }
}

fn fill_clause(clause: &mut Clause, rng: &mut Rng) {
    match clause {
        Clause::Limits { expr, .. } | Clause::Denies { expr, .. } => fill_expr(expr, rng),
        Clause::After { target, from, .. } => {
            fill_all(from, rng);
            match target {
                AfterTarget::Expr(expr) => fill_expr(expr, rng),
                AfterTarget::Duration(Duration { value, unit, .. }) => {
                    (value.text, unit.text) = (word(rng), word(rng));
                }
            }
        }
        _ => {}
    }
}

fn fill_stmt(stmt: &mut Stmt, rng: &mut Rng) {
    match stmt {
        Stmt::Guard { expr, .. } | Stmt::Expr { expr, .. } | Stmt::Let { value: expr, .. } => {
            fill_expr(expr, rng);
        }
        Stmt::Emit { args, .. } => fill_all(args, rng),
        Stmt::Assign { target, op, value, .. } => {
            *op = *rng.pick(&[AssignOp::Set, AssignOp::Add, AssignOp::Sub]);
            fill_expr(target, rng);
            fill_expr(value, rng);
        }
    }
}

fn fill_all<'a>(exprs: impl IntoIterator<Item = &'a mut Expr>, rng: &mut Rng) {
    exprs.into_iter().for_each(|expr| fill_expr(expr, rng));
}

fn fill_expr(expr: &mut Expr, rng: &mut Rng) {
    match expr {
        Expr::Int(IntLit { text, .. }) | Expr::Date { text, .. } | Expr::Str(StrLit { value: text, .. }) => {
            *text = word(rng);
        }
        Expr::Unary { op, expr, .. } => {
            *op = UnaryOp::Neg;
            fill_expr(expr, rng);
        }
        Expr::Binary { op, left, right, .. } => {
            *op = *rng.pick(&BINARY);
            fill_expr(left, rng);
            fill_expr(right, rng);
        }
        Expr::Field { base: expr, .. } | Expr::Checked { expr, .. } | Expr::Wrapping { expr, .. } => {
            fill_expr(expr, rng);
        }
        Expr::Call { callee, args, .. } => {
            fill_expr(callee, rng);
            fill_all(args, rng);
        }
        Expr::Ident(_)
        | Expr::Caller { .. }
        | Expr::Native { .. }
        | Expr::InAsset { .. }
        | Expr::Now { .. } => {}
    }
}
