//! A small reader of XML: elements with attributes and text, properly nested.

use std::collections::BTreeMap;

#[derive(Clone, Debug)]
pub struct Element {
    pub name: String,
    pub attributes: BTreeMap<String, String>,
    /// The text directly in it.
    pub text: String,
}

impl Element {
    pub fn number(&self, attribute: &str) -> i64 {
        let text = self.attributes.get(attribute).unwrap_or_else(|| panic!("no {attribute} in {self:?}"));
        text.parse().unwrap_or_else(|_| panic!("{attribute} is {text}"))
    }
}

/// All elements of a document in the order in which they begin; it panics where the document is not well formed.
pub fn elements(document: &str) -> Vec<Element> {
    let mut found: Vec<Element> = Vec::new();
    let mut open: Vec<usize> = Vec::new();
    let mut rest = document.strip_prefix("<?xml version=\"1.0\" encoding=\"UTF-8\"?>\n").expect("a declaration");
    while let Some(start) = rest.find('<') {
        let text = &rest[..start];
        assert!(!text.contains('>'), "{text}");
        match open.last() {
            Some(at) => found[*at].text.push_str(&plain(text)),
            None => assert!(text.trim().is_empty(), "text outside of the root: {text}"),
        }
        let end = rest.find('>').expect("a tag ends");
        let tag = &rest[start + 1..end];
        rest = &rest[end + 1..];
        match tag.strip_prefix('/') {
            Some(name) => {
                let at = open.pop().expect("an element is open");
                assert_eq!(found[at].name, name);
            }
            None => {
                assert!(!open.is_empty() || found.is_empty(), "one root");
                let bare = tag.strip_suffix('/');
                found.push(element(bare.unwrap_or(tag)));
                if bare.is_none() {
                    open.push(found.len() - 1);
                }
            }
        }
    }
    assert!(open.is_empty() && rest.trim().is_empty() && !found.is_empty());
    found
}

fn element(tag: &str) -> Element {
    let (name, mut rest) = tag.split_once(' ').unwrap_or((tag, ""));
    assert!(!name.is_empty() && name.chars().all(char::is_alphanumeric), "<{tag}>");
    let mut attributes = BTreeMap::new();
    while !rest.trim().is_empty() {
        let (attribute, after) = rest.split_once("=\"").expect("an attribute has a value");
        let (value, after) = after.split_once('"').expect("a value ends");
        let attribute = attribute.trim();
        assert!(!value.contains('<') && attributes.insert(attribute.to_string(), plain(value)).is_none(), "{tag}");
        rest = after;
    }
    Element { name: name.to_string(), attributes, text: String::new() }
}

/// Text with its references resolved; an ampersand begins one of the four that are written.
fn plain(text: &str) -> String {
    let mut parts = text.split('&');
    let mut plain = parts.next().unwrap_or("").to_string();
    for part in parts {
        let (name, after) = part.split_once(';').expect("a reference ends");
        plain.push(match name {
            "amp" => '&',
            "lt" => '<',
            "gt" => '>',
            "quot" => '"',
            other => panic!("&{other};"),
        });
        plain.push_str(after);
    }
    plain
}
