//! How an example is read, from a contract down to a name.

use crate::token::{Token, tokens};
use crate::tree::Node;
use form::kind;

/// The contract that a text holds.
pub fn contract(text: &str) -> Node {
    let mut reader = Reader { tokens: tokens(text), at: 0 };
    let contract = reader.contract();
    assert_eq!(reader.peek(), "", "after the contract");
    contract
}

struct Reader<'a> {
    tokens: Vec<Token<'a>>,
    at: usize,
}

/// Signs between two expressions. An image does not carry which one it is, so all bind alike.
const BINARY: &[&str] = &["+", "-", "*", "/", "%", "<", ">", "<=", ">=", "==", "!=", "&&", "||"];

impl<'a> Reader<'a> {
    fn peek(&self) -> &'a str {
        self.tokens.get(self.at).map_or("", |t| t.text)
    }

    fn take(&mut self) -> &'a str {
        let text = self.peek();
        assert!(!text.is_empty(), "the example ends too early");
        self.at += 1;
        text
    }

    /// Takes the next token where it is this one.
    fn taken(&mut self, text: &str) -> bool {
        let is = self.peek() == text;
        self.at += usize::from(is);
        is
    }

    fn expect(&mut self, text: &str) {
        assert!(self.taken(text), "`{}` stands where `{text}` should", self.peek());
    }

    /// A node from token `first` to the last one taken.
    fn node(&self, kind: u8, first: usize, children: Vec<Node>) -> Node {
        let place = self.tokens[first].place.start..self.tokens[self.at - 1].place.end;
        Node { kind, text: None, place, children }
    }

    fn carrier(&mut self, kind: u8) -> Node {
        let text = Some(self.take().to_string());
        Node { text, ..self.node(kind, self.at - 1, vec![]) }
    }

    fn name(&mut self) -> Node {
        self.carrier(kind::NAME)
    }

    /// One of these, then a comma and another, until `end`.
    fn listed(&mut self, end: &str, one: fn(&mut Reader<'a>) -> Node) -> Vec<Node> {
        let mut nodes = Vec::new();
        while !self.taken(end) {
            nodes.push(one(self));
            assert!(self.taken(",") || self.peek() == end, "`{}` in a list", self.peek());
        }
        nodes
    }

    /// These, until `end`.
    fn until(&mut self, end: &str, one: fn(&mut Reader<'a>) -> Node) -> Vec<Node> {
        let mut nodes = Vec::new();
        while !self.taken(end) {
            nodes.push(one(self));
        }
        nodes
    }

    fn contract(&mut self) -> Node {
        self.expect("contract");
        let mut children = vec![self.name()];
        self.expect("{");
        children.extend(self.until("}", Reader::item));
        self.node(kind::CONTRACT, 0, children)
    }

    fn item(&mut self) -> Node {
        let first = self.at;
        let (kind, children) = match self.take() {
            "asset" => (kind::ASSET, self.ended(Reader::name)),
            "state" => (kind::STATE, self.block(Reader::field_decl)),
            "event" => (kind::EVENT, self.event()),
            "genesis" => (kind::GENESIS, self.block(Reader::statement)),
            "invariant" => (kind::INVARIANT, self.ended(Reader::expression)),
            "entry" => (kind::ENTRY, self.entry()),
            other => panic!("`{other}` begins no item"),
        };
        self.node(kind, first, children)
    }

    /// One, and a semicolon.
    fn ended(&mut self, one: fn(&mut Reader<'a>) -> Node) -> Vec<Node> {
        let node = one(self);
        self.expect(";");
        vec![node]
    }

    fn block(&mut self, one: fn(&mut Reader<'a>) -> Node) -> Vec<Node> {
        self.expect("{");
        self.until("}", one)
    }

    fn field_decl(&mut self) -> Node {
        let first = self.at;
        let mut children = self.name_and_type();
        if self.taken("=") {
            children.push(self.expression());
        }
        self.expect(";");
        self.node(kind::FIELD_DECL, first, children)
    }

    fn name_and_type(&mut self) -> Vec<Node> {
        let name = self.name();
        self.expect(":");
        vec![name, self.ty()]
    }

    fn ty(&mut self) -> Node {
        let first = self.at;
        let mut children = vec![self.name()];
        if self.taken("<") {
            children.extend(self.listed(">", Reader::type_argument));
        }
        self.node(kind::TYPE, first, children)
    }

    fn type_argument(&mut self) -> Node {
        if !self.peek().starts_with(|c: char| c.is_ascii_digit()) {
            return self.ty();
        }
        let first = self.at;
        let number = self.carrier(kind::INT_OF_TYPE);
        if !self.taken("of") {
            return number;
        }
        let both = vec![number, self.carrier(kind::INT_OF_TYPE)];
        self.node(kind::M_OF_N, first, both)
    }

    fn event(&mut self) -> Vec<Node> {
        let mut children = vec![self.name()];
        self.expect("(");
        children.extend(self.listed(")", Reader::event_param));
        self.expect(";");
        children
    }

    fn event_param(&mut self) -> Node {
        let first = self.at;
        self.name_and_type();
        self.node(kind::EVENT_PARAM, first, vec![])
    }

    fn entry(&mut self) -> Vec<Node> {
        let mut children = vec![self.name()];
        self.expect("(");
        children.extend(self.listed(")", Reader::param));
        children.extend(self.until("{", Reader::clause));
        children.extend(self.until("}", Reader::statement));
        children
    }

    fn param(&mut self) -> Node {
        let first = self.at;
        let mut children = self.name_and_type();
        if self.taken("signed_by") {
            children.push(self.name());
        }
        self.node(kind::PARAM, first, children)
    }

    fn clause(&mut self) -> Node {
        let first = self.at;
        let (kind, children) = match self.take() {
            "writes" => (kind::WRITES, self.names()),
            "reads" => (kind::READS, self.names()),
            "conserves" => (kind::CONSERVES, vec![self.name()]),
            "mints" => (kind::MINTS, vec![self.name()]),
            "burns" => (kind::BURNS, vec![self.name()]),
            "limits" => (kind::LIMITS, vec![self.expression()]),
            "denies" => (kind::DENIES, vec![self.expression()]),
            "after" => (kind::AFTER, vec![self.expression()]),
            other => panic!("`{other}` begins no clause"),
        };
        self.node(kind, first, children)
    }

    fn names(&mut self) -> Vec<Node> {
        let mut names = vec![self.name()];
        while self.taken(",") {
            names.push(self.name());
        }
        names
    }

    fn statement(&mut self) -> Node {
        let first = self.at;
        let (kind, children) = match self.peek() {
            "guard" => (kind::GUARD, self.after_word(Reader::expression)),
            "let" => (kind::LET, self.bound()),
            "emit" => (kind::EMIT, self.emitted()),
            _ => self.assigned_or_done(),
        };
        self.expect(";");
        self.node(kind, first, children)
    }

    fn after_word(&mut self, one: fn(&mut Reader<'a>) -> Node) -> Vec<Node> {
        self.take();
        vec![one(self)]
    }

    fn bound(&mut self) -> Vec<Node> {
        let mut children = self.after_word(Reader::name);
        self.expect("=");
        children.push(self.expression());
        children
    }

    fn emitted(&mut self) -> Vec<Node> {
        let mut children = self.after_word(Reader::name);
        self.expect("(");
        children.extend(self.listed(")", Reader::expression));
        children
    }

    fn assigned_or_done(&mut self) -> (u8, Vec<Node>) {
        let expression = self.expression();
        if self.taken("=") {
            return (kind::ASSIGN, vec![expression, self.expression()]);
        }
        (kind::STMT_EXPR, vec![expression])
    }

    fn expression(&mut self) -> Node {
        let first = self.at;
        let mut left = self.chained();
        while BINARY.contains(&self.peek()) {
            self.take();
            let both = vec![left, self.chained()];
            left = self.node(kind::BINARY, first, both);
        }
        left
    }

    /// A term with its fields and calls.
    fn chained(&mut self) -> Node {
        let first = self.at;
        let mut base = self.term();
        loop {
            let (kind, children) = match self.peek() {
                "." => (kind::FIELD, self.after_word(Reader::name)),
                "(" => (kind::CALL, self.arguments()),
                _ => return base,
            };
            let all = std::iter::once(base).chain(children).collect();
            base = self.node(kind, first, all);
        }
    }

    fn arguments(&mut self) -> Vec<Node> {
        self.take();
        self.listed(")", Reader::expression)
    }

    fn term(&mut self) -> Node {
        let first = self.at;
        let wrapped = |reader: &mut Reader<'a>, kind| {
            reader.take();
            reader.expect("(");
            let inner = vec![reader.expression()];
            reader.expect(")");
            reader.node(kind, first, inner)
        };
        match self.peek() {
            "checked" => wrapped(self, kind::CHECKED),
            "wrapping" => wrapped(self, kind::WRAPPING),
            "caller" => self.leaf(kind::CALLER),
            "now" => self.leaf(kind::NOW),
            number if number.starts_with(|c: char| c.is_ascii_digit()) => self.leaf(kind::INT),
            _ => self.carrier(kind::IDENT),
        }
    }

    fn leaf(&mut self, kind: u8) -> Node {
        self.take();
        self.node(kind, self.at - 1, vec![])
    }
}
