//! A small reader of JSON: it takes nothing that JSON does not. Not every test needs all of it.
#![allow(dead_code)]

use std::collections::BTreeMap;

#[derive(Clone, Debug, PartialEq)]
pub enum Value {
    Null,
    Truth(bool),
    Number(i64),
    Text(String),
    List(Vec<Value>),
    Object(BTreeMap<String, Value>),
}

impl Value {
    pub fn get(&self, key: &str) -> &Value {
        match self {
            Value::Object(fields) => fields.get(key).unwrap_or_else(|| panic!("no key {key} in {self:?}")),
            other => panic!("{other:?} has no keys"),
        }
    }

    pub fn number(&self, key: &str) -> i64 {
        match self.get(key) {
            Value::Number(value) => *value,
            other => panic!("{key} is {other:?}"),
        }
    }

    pub fn list(&self, key: &str) -> &[Value] {
        match self.get(key) {
            Value::List(values) => values,
            other => panic!("{key} is {other:?}"),
        }
    }
}

/// The one value of a text.
pub fn parse(text: &str) -> Value {
    let chars: Vec<char> = text.chars().collect();
    let mut reader = Reader { chars: &chars, at: 0 };
    let value = reader.value();
    reader.blanks();
    assert_eq!(reader.at, chars.len(), "nothing follows the value in {text}");
    value
}

struct Reader<'a> {
    chars: &'a [char],
    at: usize,
}

impl Reader<'_> {
    fn blanks(&mut self) {
        while self.chars.get(self.at).is_some_and(|c| " \t\r\n".contains(*c)) {
            self.at += 1;
        }
    }

    fn next(&mut self) -> char {
        let c = *self.chars.get(self.at).expect("the text goes on");
        self.at += 1;
        c
    }

    fn peek(&mut self) -> char {
        self.blanks();
        *self.chars.get(self.at).expect("the text goes on")
    }

    fn expect(&mut self, wanted: char) {
        self.blanks();
        assert_eq!(self.next(), wanted);
    }

    fn value(&mut self) -> Value {
        match self.peek() {
            '{' => self.object(),
            '[' => self.list(),
            '"' => Value::Text(self.text()),
            'n' => self.word("null", Value::Null),
            't' => self.word("true", Value::Truth(true)),
            'f' => self.word("false", Value::Truth(false)),
            _ => self.number(),
        }
    }

    fn word(&mut self, word: &str, value: Value) -> Value {
        word.chars().for_each(|c| assert_eq!(self.next(), c));
        value
    }

    fn number(&mut self) -> Value {
        let start = self.at;
        while self.chars.get(self.at).is_some_and(|c| c.is_ascii_digit() || *c == '-') {
            self.at += 1;
        }
        let text: String = self.chars[start..self.at].iter().collect();
        assert!(text == "0" || !text.trim_start_matches('-').starts_with('0'), "{text}");
        Value::Number(text.parse().unwrap_or_else(|_| panic!("`{text}` is no number")))
    }

    fn text(&mut self) -> String {
        self.expect('"');
        let mut text = String::new();
        loop {
            match self.next() {
                '"' => return text,
                '\\' => match self.next() {
                    'n' => text.push('\n'),
                    'u' => {
                        let code: String = (0..4).map(|_| self.next()).collect();
                        let code = u32::from_str_radix(&code, 16).expect("four hex digits");
                        text.push(char::from_u32(code).expect("a character"));
                    }
                    c @ ('"' | '\\') => text.push(c),
                    c => panic!("\\{c}"),
                },
                c => {
                    assert!((c as u32) >= 0x20, "a bare control character");
                    text.push(c);
                }
            }
        }
    }

    fn list(&mut self) -> Value {
        self.expect('[');
        let mut values = Vec::new();
        while self.peek() != ']' {
            if !values.is_empty() {
                self.expect(',');
            }
            values.push(self.value());
        }
        self.expect(']');
        Value::List(values)
    }

    fn object(&mut self) -> Value {
        self.expect('{');
        let mut fields = BTreeMap::new();
        while self.peek() != '}' {
            if !fields.is_empty() {
                self.expect(',');
            }
            self.blanks();
            let key = self.text();
            self.expect(':');
            assert!(fields.insert(key.clone(), self.value()).is_none(), "{key} is there twice");
        }
        self.expect('}');
        Value::Object(fields)
    }
}
