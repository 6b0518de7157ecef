//! A strict reader of JSON, for the objects that the command prints: whole numbers, no key twice, and nothing behind the value.

use std::collections::BTreeSet;

/// A value and where it begins, in bytes of the text.
#[derive(Clone, Debug, PartialEq, Eq)]
pub struct Node {
    pub at: usize,
    pub value: Value,
}

#[derive(Clone, Debug, PartialEq, Eq)]
pub enum Value {
    Null,
    Truth(bool),
    Number(i64),
    Text(String),
    List(Vec<Node>),
    Object(Vec<(String, Node)>),
}

/// What is wrong with a text, where, and what is expected.
#[derive(Clone, Debug, PartialEq, Eq)]
pub struct Fault {
    pub at: usize,
    pub wrong: String,
    pub expected: String,
}

/// No answer has as many values, or as many within one another.
const MOST_VALUES: usize = 10_000;
const DEEPEST: usize = 8;
const ANSWER: &str = "an answer of `office`, as it was printed";

/// The one value of a text.
pub fn parse(text: &str) -> Result<Node, Fault> {
    let mut reader = Reader { text, at: 0, values: 0 };
    let node = reader.value(0)?;
    reader.blanks();
    match reader.at < text.len() {
        true => Err(reader.fault("text follows the object", "nothing behind its last bracket")),
        false => Ok(node),
    }
}

struct Reader<'a> {
    text: &'a str,
    at: usize,
    values: usize,
}

impl Reader<'_> {
    fn rest(&self) -> &str {
        &self.text[self.at..]
    }

    fn peek(&self) -> Option<char> {
        self.rest().chars().next()
    }

    fn blanks(&mut self) {
        let rest = self.rest();
        self.at += rest.len() - rest.trim_start_matches([' ', '\t', '\r', '\n']).len();
    }

    fn fault(&self, wrong: impl Into<String>, expected: impl Into<String>) -> Fault {
        Fault { at: self.at, wrong: wrong.into(), expected: expected.into() }
    }

    /// What stands here where something else should.
    fn other(&self, expected: &str) -> Fault {
        match self.peek() {
            None => Fault { at: self.text.trim_end().len(), ..self.fault("the text ends too early", expected) },
            Some(c) => self.fault(format!("`{c}` stands here"), expected),
        }
    }

    /// Takes a character behind blanks, if it is this one.
    fn takes(&mut self, wanted: char) -> bool {
        self.blanks();
        let found = self.rest().starts_with(wanted);
        self.at += if found { wanted.len_utf8() } else { 0 };
        found
    }

    fn value(&mut self, depth: usize) -> Result<Node, Fault> {
        self.blanks();
        self.values += 1;
        if depth > DEEPEST {
            return Err(self.fault("values stand within one another deeper than in any answer", ANSWER));
        }
        if self.values > MOST_VALUES {
            return Err(self.fault("it has more values than any answer", ANSWER));
        }
        let at = self.at;
        let value = match self.peek() {
            Some('{') => self.object(depth)?,
            Some('[') => self.list(depth)?,
            Some('"') => Value::Text(self.string()?),
            Some(c) if c == '-' || c.is_ascii_digit() => self.number()?,
            _ => self.word()?,
        };
        Ok(Node { at, value })
    }

    fn word(&mut self) -> Result<Value, Fault> {
        let words = [("null", Value::Null), ("true", Value::Truth(true)), ("false", Value::Truth(false))];
        let Some((word, value)) = words.into_iter().find(|(word, _)| self.rest().starts_with(word)) else {
            return Err(self.other("a value"));
        };
        self.at += word.len();
        Ok(value)
    }

    /// A whole number. Answers have no others, and 0.71 may be m where cm are kept.
    fn number(&mut self) -> Result<Value, Fault> {
        let rest = self.rest();
        let end = rest.find(|c: char| !c.is_ascii_alphanumeric() && !"+-.".contains(c)).unwrap_or(rest.len());
        let text = &rest[..end];
        let digits = text.strip_prefix('-').unwrap_or(text);
        let plain = !digits.is_empty() && digits.bytes().all(|b| b.is_ascii_digit());
        if !plain || (digits.starts_with('0') && text != "0") {
            let text: String = text.chars().take(40).collect();
            return Err(self.fault(format!("`{text}` is no whole number of an answer"), "a whole number, as 71"));
        }
        // What does not fit is out of every key's range, as the number in its place is.
        let value = text.parse().unwrap_or(i64::MAX);
        self.at += end;
        Ok(Value::Number(value))
    }

    fn list(&mut self, depth: usize) -> Result<Value, Fault> {
        let mut values = Vec::new();
        self.takes('[');
        while !self.takes(']') {
            if !values.is_empty() && !self.takes(',') {
                return Err(self.other("a comma or the list's end"));
            }
            values.push(self.value(depth + 1)?);
        }
        Ok(Value::List(values))
    }

    fn object(&mut self, depth: usize) -> Result<Value, Fault> {
        let (mut fields, mut keys) = (Vec::new(), BTreeSet::new());
        self.takes('{');
        while !self.takes('}') {
            if !fields.is_empty() && !self.takes(',') {
                return Err(self.other("a comma or the object's end"));
            }
            self.blanks();
            let at = self.at;
            let key = self.string()?;
            if !keys.insert(key.clone()) {
                return Err(Fault { at, ..self.fault(format!("the key `{key}` is there twice"), "each key once") });
            }
            if !self.takes(':') {
                return Err(self.other("a colon"));
            }
            fields.push((key, self.value(depth + 1)?));
        }
        Ok(Value::Object(fields))
    }

    fn string(&mut self) -> Result<String, Fault> {
        if !self.takes('"') {
            return Err(self.other("a quotation mark"));
        }
        let mut text = String::new();
        loop {
            match self.peek() {
                Some('"') => break,
                Some('\\') => text.push(self.escaped()?),
                Some(c) if c >= ' ' => {
                    text.push(c);
                    self.at += c.len_utf8();
                }
                _ => return Err(self.other("the text's closing quotation mark")),
            }
        }
        self.at += 1;
        Ok(text)
    }

    /// A character that is written out behind a backslash.
    fn escaped(&mut self) -> Result<char, Fault> {
        let known = [('"', '"'), ('\\', '\\'), ('/', '/'), ('n', '\n'), ('t', '\t'), ('r', '\r'), ('b', '\u{8}')];
        let sign = self.rest().chars().nth(1);
        if let Some((_, c)) = known.iter().chain(&[('f', '\u{c}')]).find(|(own, _)| Some(*own) == sign) {
            self.at += 2;
            return Ok(*c);
        }
        let expected = "a character's four hex digits";
        let first = self.unit().ok_or_else(|| self.fault("a backslash stands here", expected))?;
        let second = if (0xd800..0xdc00).contains(&first) { self.unit() } else { None };
        let units = [first].into_iter().chain(second);
        let whole = char::decode_utf16(units).next().and_then(Result::ok);
        whole.ok_or_else(|| self.fault("half a character stands before this", expected))
    }

    /// A unit of UTF-16 as `\u0041`.
    fn unit(&mut self) -> Option<u16> {
        let digits = self.rest().strip_prefix("\\u")?.get(..4)?;
        let unit = u16::from_str_radix(digits, 16).ok().filter(|_| !digits.starts_with('+'))?;
        self.at += 6;
        Some(unit)
    }
}

#[cfg(test)]
mod tests {
    use super::*;

    #[test]
    fn whole_values_are_read() {
        let node = parse(" {\"a\":[1,-2,0],\"\\u0062\\n\":\"\\ud83d\\ude00\\/\",\"c\":{},\"d\":[ ],\"e\":null} \r\n")
            .expect("read");
        let Value::Object(fields) = node.value else { panic!("an object") };
        let keys: Vec<&str> = fields.iter().map(|(key, _)| key.as_str()).collect();
        assert_eq!((node.at, keys), (1, vec!["a", "b\n", "c", "d", "e"]));
        let numbers = [1, -2, 0].map(Value::Number);
        let Value::List(values) = &fields[0].1.value else { panic!("a list") };
        assert!(values.iter().map(|node| &node.value).eq(&numbers));
        assert_eq!(fields[1].1.value, Value::Text("\u{1f600}/".to_string()));
        assert_eq!(parse("[true,false]").map(|node| node.at), Ok(0));
        let large = parse("18446744073709551616").expect("read");
        assert_eq!(large.value, Value::Number(i64::MAX), "out of every range");
    }

    #[test]
    fn all_else_is_refused_where_it_stands() {
        for (text, at, wrong) in [
            ("", 0, "ends too early"),
            ("{\"a\":1,\"a\":1}", 7, "the key `a` is there twice"),
            ("{\"a\":1,\"\\u0061\":1}", 7, "the key `a` is there twice"),
            ("{} {}", 3, "text follows"),
            ("{\"a\":1,}", 7, "`}` stands here"),
            ("{\"a\" 1}", 5, "`1` stands here"),
            ("{a:1}", 1, "`a` stands here"),
            ("[1 2]", 3, "`2` stands here"),
            ("[1,,2]", 3, "`,` stands here"),
            ("[0.71]", 1, "`0.71` is no whole number"),
            ("[7e1]", 1, "`7e1` is no whole number"),
            ("[071]", 1, "`071` is no whole number"),
            ("[+7]", 1, "`+` stands here"),
            ("[-]", 1, "`-` is no whole number"),
            ("[-0]", 1, "`-0` is no whole number"),
            ("[\"a\nb\"]", 3, "stands here"),
            ("[\"a", 3, "ends too early"),
            ("[\"\\x\"]", 2, "a backslash"),
            ("[\"\\u+041\"]", 2, "a backslash"),
            ("[\"\\ud800\"]", 8, "half a character"),
            ("nul", 0, "`n` stands here"),
            ("[1", 2, "ends too early"),
        ] {
            let fault = parse(text).expect_err(text);
            assert!(fault.at == at && fault.wrong.contains(wrong), "{text}: {fault:?}");
        }
        let many = parse(&format!("[{}1]", "1,".repeat(20_000))).expect_err("too many");
        assert!(many.wrong.contains("more values than any answer"), "{many:?}");
        // Eight within one another are read, as the innermost of nine brackets is no value within a value.
        let deep = parse(&"[".repeat(1_000_000)).expect_err("too deep");
        assert!(deep.at == 9 && deep.wrong.contains("deeper than in any answer"), "{deep:?}");
        assert!(parse(&format!("{}{}", "[".repeat(9), "]".repeat(9))).is_ok());
    }
}
