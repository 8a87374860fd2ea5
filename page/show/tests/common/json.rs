//! A strict reader of JSON (RFC 8259), to read back what was written. It takes nothing that the
//! standard does not have: no floats here either, since no form writes any.

use std::collections::BTreeMap;

#[derive(Clone, Debug, PartialEq)]
pub enum Json {
    Null,
    Bool(bool),
    Number(u64),
    Text(String),
    List(Vec<Json>),
    Object(BTreeMap<String, Json>),
}

impl Json {
    /// The value of a whole text.
    pub fn read(text: &str) -> Json {
        let mut reader = Reader { rest: text };
        let value = reader.value();
        reader.blanks();
        assert_eq!(reader.rest, "", "after the value");
        value
    }

    /// The member at a path such as `runs/0/tool`; null where there is none.
    pub fn at(&self, path: &str) -> &Json {
        path.split('/').filter(|key| !key.is_empty()).fold(self, |value, key| value.member(key))
    }

    /// The member of this name; null where there is none.
    pub fn member(&self, key: &str) -> &Json {
        match self {
            Json::Object(members) => members.get(key).unwrap_or(&Json::Null),
            Json::List(items) => key.parse::<usize>().ok().and_then(|i| items.get(i)).unwrap_or(&Json::Null),
            _ => &Json::Null,
        }
    }

    pub fn list(&self) -> &[Json] {
        if let Json::List(items) = self { items } else { &[] }
    }

    pub fn text(&self) -> &str {
        if let Json::Text(text) = self { text } else { panic!("no text: {self:?}") }
    }

    pub fn number(&self) -> u64 {
        if let Json::Number(number) = self { *number } else { panic!("no number: {self:?}") }
    }
}

struct Reader<'a> {
    rest: &'a str,
}

impl Reader<'_> {
    fn blanks(&mut self) {
        self.rest = self.rest.trim_start_matches([' ', '\t', '\n', '\r']);
    }

    fn next(&mut self) -> char {
        let c = self.rest.chars().next().expect("the text ends too early");
        self.rest = &self.rest[c.len_utf8()..];
        c
    }

    fn taken(&mut self, text: &str) -> bool {
        let rest = self.rest.strip_prefix(text);
        self.rest = rest.unwrap_or(self.rest);
        rest.is_some()
    }

    fn value(&mut self) -> Json {
        self.blanks();
        match self.rest.chars().next() {
            Some('{') => self.object(),
            Some('[') => Json::List(self.items('[', ']', Reader::value)),
            Some('"') => Json::Text(self.string()),
            Some('0'..='9') => self.number(),
            _ if self.taken("null") => Json::Null,
            _ if self.taken("true") => Json::Bool(true),
            _ if self.taken("false") => Json::Bool(false),
            other => panic!("{other:?} begins no value"),
        }
    }

    fn items<T>(&mut self, open: char, close: char, one: fn(&mut Self) -> T) -> Vec<T> {
        assert_eq!(self.next(), open);
        let mut items = Vec::new();
        self.blanks();
        if self.rest.starts_with(close) {
            self.next();
            return items;
        }
        loop {
            items.push(one(self));
            self.blanks();
            match self.next() {
                ',' => {}
                c if c == close => return items,
                c => panic!("{c:?} between items"),
            }
        }
    }

    fn object(&mut self) -> Json {
        let members = self.items('{', '}', Reader::keyed);
        let count = members.len();
        let object: BTreeMap<_, _> = members.into_iter().collect();
        assert_eq!(object.len(), count, "a key stands twice");
        Json::Object(object)
    }

    fn keyed(&mut self) -> (String, Json) {
        self.blanks();
        let key = self.string();
        self.blanks();
        assert_eq!(self.next(), ':', "after a key");
        (key, self.value())
    }

    fn number(&mut self) -> Json {
        let end = self.rest.find(|c: char| !c.is_ascii_digit()).unwrap_or(self.rest.len());
        let (digits, rest) = self.rest.split_at(end);
        assert!(digits == "0" || !digits.starts_with('0'), "a number begins with 0");
        assert!(!rest.starts_with(['.', 'e', 'E']), "no whole number");
        self.rest = rest;
        Json::Number(digits.parse().expect("a number that fits"))
    }

    fn string(&mut self) -> String {
        assert_eq!(self.next(), '"', "where a string begins");
        let mut text = String::new();
        loop {
            match self.next() {
                '"' => return text,
                '\\' => text.push(self.escaped()),
                c if c < ' ' => panic!("a control stands bare in a string"),
                c => text.push(c),
            }
        }
    }

    fn escaped(&mut self) -> char {
        match self.next() {
            c @ ('"' | '\\' | '/') => c,
            'n' => '\n',
            'r' => '\r',
            't' => '\t',
            'b' => '\u{8}',
            'f' => '\u{c}',
            'u' => self.unit_pair(),
            c => panic!("\\{c} is no escape"),
        }
    }

    fn unit(&mut self) -> u16 {
        let digits: String = (0..4).map(|_| self.next()).collect();
        assert!(digits.chars().all(|c| c.is_ascii_hexdigit()), "\\u{digits}");
        u16::from_str_radix(&digits, 16).expect("four digits")
    }

    fn unit_pair(&mut self) -> char {
        let first = self.unit();
        let mut units = vec![first];
        if (0xd800..0xdc00).contains(&first) {
            assert!(self.taken("\\u"), "half of a pair");
            units.push(self.unit());
        }
        char::decode_utf16(units).next().and_then(Result::ok).expect("whole characters")
    }
}
