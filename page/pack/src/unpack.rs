//! An image as a contract. What the image does not carry becomes a fixed filler: `=` for the operator
//! of an Assign, `!` and `+` for the operators of Unary and Binary, `0` for the value of an Int and a
//! Duration, an empty text for Date, Str and the unit, false for `sealed` and `meta`, an empty name
//! and type for an event's parameter.

use form::image::MAX_ANCESTORS;
use form::{Tree, kind};
use quanta_ast::*;
use quanta_lexer::Span;

/// The contract of an image, with the image's spans. Bytes whose nodes are not as document 01's table
/// of children says, or too deep, have none; every admitted image has one.
pub fn unpack(image: &[u8]) -> Option<Contract> {
    let tree = Tree::of(image).filter(|tree| tree.depth() <= MAX_ANCESTORS)?;
    Decoder { tree }.contract(0)
}

struct Decoder<'a> {
    tree: Tree<'a>,
}

/// Reads one node; `None` where it is not what the place needs.
type Read<'a, T> = fn(&Decoder<'a>, usize) -> Option<T>;

impl<'a> Decoder<'a> {
    fn span(&self, i: usize) -> Option<Span> {
        self.tree.nodes.get(i).map(|node| Span { start: node.from, end: node.to })
    }

    /// The kind of node i, its children and its span.
    fn node(&self, i: usize) -> Option<(u8, Vec<usize>, Span)> {
        Some((self.tree.kind(i), self.tree.children(i).collect(), self.span(i)?))
    }

    fn each<T>(&self, nodes: &[usize], read: Read<'a, T>) -> Option<Vec<T>> {
        nodes.iter().map(|i| read(self, *i)).collect()
    }

    /// What may stand once or not at all.
    fn optional<T>(&self, nodes: &[usize], read: Read<'a, T>) -> Option<Option<T>> {
        match nodes {
            [] => Some(None),
            [i] => read(self, *i).map(Some),
            _ => None,
        }
    }

    /// The text and the span of a node of this kind, which has no children.
    fn text(&self, i: usize, kind: u8) -> Option<(String, Span)> {
        let is_it = self.tree.kind(i) == kind && self.tree.children(i).next().is_none();
        let text = String::from_utf8(self.tree.text(i).to_vec()).ok()?;
        if is_it { Some((text, self.span(i)?)) } else { None }
    }

    fn name(&self, i: usize) -> Option<Ident> {
        self.text(i, kind::NAME).map(|(text, span)| Ident { text, span })
    }

    fn ident(&self, i: usize) -> Option<Ident> {
        self.text(i, kind::IDENT).map(|(text, span)| Ident { text, span })
    }

    fn number(&self, i: usize) -> Option<IntLit> {
        self.text(i, kind::INT_OF_TYPE).map(|(text, span)| IntLit { text, span })
    }

    fn contract(&self, i: usize) -> Option<Contract> {
        let (kind, children, span) = self.node(i)?;
        match (kind, children.as_slice()) {
            (kind::CONTRACT, [name, items @ ..]) => {
                Some(Contract { name: self.name(*name)?, items: self.each(items, Self::item)?, span })
            }
            _ => None,
        }
    }

    fn item(&self, i: usize) -> Option<Item> {
        let (kind, children, span) = self.node(i)?;
        let item = match (kind, children.as_slice()) {
            (kind::ASSET, [name]) => Item::Asset(AssetDecl { name: self.name(*name)?, span }),
            (kind::STATE, fields) => {
                Item::State(StateBlock { fields: self.each(fields, Self::field)?, span })
            }
            (kind::EVENT, [name, params @ ..]) => Item::Event(EventDecl {
                name: self.name(*name)?,
                params: self.each(params, Self::event_param)?,
                span,
            }),
            (kind::GENESIS, body) => Item::Genesis(GenesisBlock { body: self.each(body, Self::stmt)?, span }),
            (kind::INVARIANT, [expr]) => Item::Invariant(InvariantDecl { expr: self.expr(*expr)?, span }),
            (kind::ENTRY, [name, parts @ ..]) => Item::Entry(self.entry(*name, parts, span)?),
            _ => return None,
        };
        Some(item)
    }

    fn field(&self, i: usize) -> Option<FieldDecl> {
        let (kind, children, span) = self.node(i)?;
        match (kind, children.as_slice()) {
            (kind::FIELD_DECL, [name, ty, default @ ..]) => Some(FieldDecl {
                name: self.name(*name)?,
                ty: self.ty(*ty)?,
                default: self.optional(default, Self::expr)?,
                meta: false,
                span,
            }),
            _ => None,
        }
    }

    fn event_param(&self, i: usize) -> Option<Param> {
        let (_, span) = self.text(i, kind::EVENT_PARAM)?;
        let nameless = || Ident { text: String::new(), span };
        let ty = Type { name: nameless(), args: Vec::new(), span };
        Some(Param { name: nameless(), sealed: false, ty, signed_by: None, span })
    }

    /// "Name, Param*, clauses*, statements*"
    fn entry(&self, name: usize, parts: &[usize], span: Span) -> Option<EntryDecl> {
        let run = |parts: &[usize], belongs: fn(u8) -> bool| {
            parts.iter().take_while(|part| belongs(self.tree.kind(**part))).count()
        };
        let (params, rest) = parts.split_at_checked(run(parts, |kind| kind == kind::PARAM))?;
        let (clauses, body) = rest.split_at_checked(run(rest, kind::is_clause))?;
        Some(EntryDecl {
            name: self.name(name)?,
            params: self.each(params, Self::param)?,
            clauses: self.each(clauses, Self::clause)?,
            body: self.each(body, Self::stmt)?,
            span,
        })
    }

    fn param(&self, i: usize) -> Option<Param> {
        let (_, children, span) = self.node(i)?;
        let [name, ty, signer @ ..] = children.as_slice() else {
            return None;
        };
        let signed_by = self.optional(signer, Self::name)?;
        Some(Param { name: self.name(*name)?, sealed: false, ty: self.ty(*ty)?, signed_by, span })
    }

    fn ty(&self, i: usize) -> Option<Type> {
        let (kind, children, span) = self.node(i)?;
        match (kind, children.as_slice()) {
            (kind::TYPE, [name, args @ ..]) => {
                Some(Type { name: self.name(*name)?, args: self.each(args, Self::argument)?, span })
            }
            _ => None,
        }
    }

    fn argument(&self, i: usize) -> Option<GenericArg> {
        let (kind, children, span) = self.node(i)?;
        match (kind, children.as_slice()) {
            (kind::TYPE, _) => self.ty(i).map(GenericArg::Type),
            (kind::INT_OF_TYPE, _) => self.number(i).map(GenericArg::Int),
            (kind::M_OF_N, [m, n]) => {
                Some(GenericArg::MofN { m: self.number(*m)?, n: self.number(*n)?, span })
            }
            _ => None,
        }
    }

    fn clause(&self, i: usize) -> Option<Clause> {
        let (kind, children, span) = self.node(i)?;
        let clause = match (kind, children.as_slice()) {
            (kind::WRITES, names) => Clause::Writes { names: self.each(names, Self::name)?, span },
            (kind::READS, names) => Clause::Reads { names: self.each(names, Self::name)?, span },
            (kind::CONSERVES, [asset]) => Clause::Conserves { asset: self.name(*asset)?, span },
            (kind::MINTS, [asset]) => Clause::Mints { asset: self.name(*asset)?, span },
            (kind::BURNS, [asset]) => Clause::Burns { asset: self.name(*asset)?, span },
            (kind::LIMITS, [expr]) => Clause::Limits { expr: self.expr(*expr)?, span },
            (kind::DENIES, [expr]) => Clause::Denies { expr: self.expr(*expr)?, span },
            (kind::AFTER, [target, from @ ..]) => Clause::After {
                target: self.after_target(*target)?,
                from: self.optional(from, Self::expr)?,
                span,
            },
            _ => return None,
        };
        Some(clause)
    }

    fn after_target(&self, i: usize) -> Option<AfterTarget> {
        let Some((_, span)) = self.text(i, kind::DURATION) else {
            return self.expr(i).map(AfterTarget::Expr);
        };
        let unit = Ident { text: String::new(), span };
        Some(AfterTarget::Duration(Duration { value: zero(span), unit, span }))
    }

    fn stmt(&self, i: usize) -> Option<Stmt> {
        let (kind, children, span) = self.node(i)?;
        let stmt = match (kind, children.as_slice()) {
            (kind::GUARD, [expr]) => Stmt::Guard { expr: self.expr(*expr)?, span },
            (kind::LET, [name, value]) => {
                Stmt::Let { name: self.name(*name)?, value: self.expr(*value)?, span }
            }
            (kind::EMIT, [name, args @ ..]) => {
                Stmt::Emit { name: self.name(*name)?, args: self.each(args, Self::expr)?, span }
            }
            (kind::ASSIGN, [target, value]) => Stmt::Assign {
                target: self.expr(*target)?,
                op: AssignOp::Set,
                value: self.expr(*value)?,
                span,
            },
            (kind::STMT_EXPR, [expr]) => Stmt::Expr { expr: self.expr(*expr)?, span },
            _ => return None,
        };
        Some(stmt)
    }

    fn boxed(&self, i: usize) -> Option<Box<Expr>> {
        self.expr(i).map(Box::new)
    }

    fn expr(&self, i: usize) -> Option<Expr> {
        let (kind, children, span) = self.node(i)?;
        let expr = match (kind, children.as_slice()) {
            (_, []) => return self.leaf(i, kind, span),
            (kind::UNARY, [expr]) => Expr::Unary { op: UnaryOp::Not, expr: self.boxed(*expr)?, span },
            (kind::BINARY, [left, right]) => {
                Expr::Binary { op: BinOp::Add, left: self.boxed(*left)?, right: self.boxed(*right)?, span }
            }
            (kind::FIELD, [base, name]) => {
                Expr::Field { base: self.boxed(*base)?, name: self.name(*name)?, span }
            }
            (kind::CALL, [callee, args @ ..]) => {
                Expr::Call { callee: self.boxed(*callee)?, args: self.each(args, Self::expr)?, span }
            }
            (kind::CHECKED, [expr]) => Expr::Checked { expr: self.boxed(*expr)?, span },
            (kind::WRAPPING, [expr]) => Expr::Wrapping { expr: self.boxed(*expr)?, span },
            _ => return None,
        };
        Some(expr)
    }

    /// The expressions that have no children.
    fn leaf(&self, i: usize, kind: u8, span: Span) -> Option<Expr> {
        let expr = match kind {
            kind::INT => Expr::Int(zero(span)),
            kind::DATE => Expr::Date { text: String::new(), span },
            kind::STR => Expr::Str(StrLit { value: String::new(), span }),
            kind::IDENT => Expr::Ident(self.ident(i)?),
            kind::CALLER => Expr::Caller { span },
            kind::NATIVE => Expr::Native { span },
            kind::IN_ASSET => Expr::InAsset { span },
            kind::NOW => Expr::Now { span },
            _ => return None,
        };
        Some(expr)
    }
}

fn zero(span: Span) -> IntLit {
    IntLit { text: "0".to_string(), span }
}
