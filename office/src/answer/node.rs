//! The keys of an answer.

use super::EXPECTED;
use super::json::{Fault, Node, Value};

impl Node {
    pub fn fault(&self, wrong: impl Into<String>, expected: impl Into<String>) -> Fault {
        Fault { at: self.at, wrong: wrong.into(), expected: expected.into() }
    }

    /// The value of a key, if there is one.
    pub fn find(&self, key: &str) -> Option<&Node> {
        let Value::Object(fields) = &self.value else { return None };
        fields.iter().find(|(own, _)| own == key).map(|(_, node)| node)
    }

    /// The value of a key that an answer has.
    pub fn key(&self, key: &str) -> Result<&Node, Fault> {
        if !matches!(self.value, Value::Object(_)) {
            return Err(self.fault("no object stands here", EXPECTED));
        }
        self.find(key).ok_or_else(|| self.fault(format!("the object has no key `{key}`"), EXPECTED))
    }

    pub fn text(&self, key: &str) -> Result<String, Fault> {
        match self.key(key)? {
            Node { value: Value::Text(text), .. } => Ok(text.clone()),
            other => Err(other.fault(format!("`{key}` is no text"), EXPECTED)),
        }
    }

    pub fn list(&self, key: &str) -> Result<&[Node], Fault> {
        match self.key(key)? {
            Node { value: Value::List(list), .. } => Ok(list),
            other => Err(other.fault(format!("`{key}` is no list"), EXPECTED)),
        }
    }

    pub fn truth(&self, key: &str) -> Result<bool, Fault> {
        match self.key(key)? {
            Node { value: Value::Truth(truth), .. } => Ok(*truth),
            other => Err(other.fault(format!("`{key}` is neither true nor false"), EXPECTED)),
        }
    }

    /// The number of a key, 0 or more.
    pub fn number(&self, key: &str, most: i64) -> Result<i64, Fault> {
        let node = self.key(key)?;
        let wrong = match node.value {
            Value::Number(value) if (0..=most).contains(&value) => return Ok(value),
            Value::Number(_) => format!("`{key}` is out of range"),
            _ => format!("`{key}` is no number"),
        };
        Err(node.fault(wrong, format!("a whole number, 0 to {most}")))
    }

    /// What a key has, or nothing where it has `null`.
    pub fn or_null<T>(&self, key: &str, value: fn(&Node, &str) -> Result<T, Fault>) -> Result<Option<T>, Fault> {
        match self.key(key)?.value {
            Value::Null => Ok(None),
            _ => value(self, key).map(Some),
        }
    }
}
