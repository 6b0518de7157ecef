//! The losses of an answer that the command has printed with `--json`, and whether they are of a house.
//!
//! Such an answer says of each section what its loss was worked out from, so that losses of another house, or of this one before
//! a change, are told from the house's own.

mod house;
mod json;
mod node;

use crate::mistake::{Mistake, Mistakes};
use crate::places::Place;
use crate::readable::Saved;
use crate::service::{self, TOTAL};
pub use house::of_another_line;
use json::{Fault, Node, Value};

/// The commands whose answers have a loss for each section, which is the section's own.
const TAKEN: [&str; 4] = ["losses", "rate", "choose", HEADS];
/// The one of them that works no loss out, but shows those that it was given.
const HEADS: &str = "heads";
const EXPECTED: &str = "an answer of `office losses`, `rate`, `choose` or `heads` with `--json`";
/// The key of a section that says if its flow is under the first row of its size.
const MARK: &str = "under_first_row";
/// What the command calls the meaning of its keys: it changes when a key changes its meaning or goes; a new key changes nothing.
pub const SCHEMA: i64 = 1;

/// What the command has printed: an answer with losses, or a refusal in its place.
#[derive(Clone, Debug, PartialEq, Eq)]
pub enum Printed {
    Answer(Answer),
    Refusal(Refused),
}

/// What an answer says of a section.
#[derive(Clone, Copy, Debug, PartialEq, Eq)]
struct Stated {
    parent: i64,
    /// dm
    length: i64,
    /// ml/s
    flow: i64,
    /// mm/s; an answer of `heads` has none.
    velocity: Option<i64>,
    /// Whether it says if its flow is under the first row of its size.
    marked: bool,
    /// cm
    loss: u32,
}

#[derive(Clone, Debug, PartialEq, Eq)]
pub struct Answer {
    /// The command that printed it.
    pub command: String,
    pub warnings: Vec<Said>,
    /// None in an answer from before there were services.
    service: Option<u8>,
    /// Local losses of the house in tenths.
    tenths: i64,
    /// Section 1 is at place 0.
    sections: Vec<Stated>,
}

/// A refusal as it was printed.
#[derive(Clone, Debug, PartialEq, Eq)]
pub struct Refused {
    pub command: String,
    pub warnings: Vec<Said>,
    pub number: i64,
    pub text: String,
    pub places: Vec<Said>,
}

/// A place or a warning as it was printed.
#[derive(Clone, Debug, PartialEq, Eq)]
pub struct Said {
    pub at: String,
    pub why: String,
    pub file: Option<String>,
    pub line: Option<i64>,
}

impl Said {
    /// Whether it says the same of the same place.
    pub fn is(&self, place: &Place) -> bool {
        self.at == place.at.to_string() && self.why == place.why
    }
}

/// Whether bytes are an answer of the command: no readable file begins with its bracket.
pub fn is_answer(bytes: &[u8]) -> bool {
    let blank = |byte: &&u8| b" \t\r\n".contains(byte);
    Saved::of(bytes).is_ok_and(|saved| saved.bytes.iter().find(|byte| !blank(byte)) == Some(&b'{'))
}

/// What was printed, or what is wrong with it and where.
pub fn read(bytes: &[u8]) -> Result<Printed, Mistakes> {
    let saved = Saved::of(bytes)?;
    let text = String::from_utf8(saved.bytes).map_err(|_| {
        Mistakes::from(Mistake::lacking("the file is no UTF-8", format!("{EXPECTED}, as it was printed")))
    })?;
    json::parse(&text).and_then(|node| printed(&node)).map_err(|fault| located(&text, fault).into())
}

/// Characters before and behind a fault that a message repeats.
const AROUND: usize = 60;

/// A fault with its line and the text around it.
fn located(text: &str, fault: Fault) -> Mistake {
    let front = &text[..fault.at];
    let line = front.rsplit('\n').next().unwrap_or("");
    let behind = text[fault.at..].lines().next().unwrap_or("");
    let before: Vec<char> = line.chars().rev().take(AROUND).collect();
    let cut = |rest: usize| if rest > AROUND { "..." } else { "" };
    let (start, end) = (cut(line.chars().count()), cut(behind.chars().count()));
    let around: String = before.into_iter().rev().chain(behind.chars().take(AROUND)).collect();
    let number = 1 + front.matches('\n').count();
    let wrong = format!("at character {}: {}", line.chars().count() + 1, fault.wrong);
    Mistake::on(number, &format!("{start}{around}{end}"), wrong, fault.expected)
}

/// What the text's value is.
fn printed(node: &Node) -> Result<Printed, Fault> {
    let schema = node.key("schema")?;
    if schema.value != Value::Number(SCHEMA) {
        return Err(schema.fault(format!("`schema` is not {SCHEMA}"), EXPECTED));
    }
    let command = node.text("command")?;
    if !TAKEN.contains(&command.as_str()) {
        return Err(node.key("command")?.fault(format!("it is an answer of `office {command}`"), EXPECTED));
    }
    let warnings = said(node, "warnings")?;
    let refusal = node.key("refusal")?;
    if refusal.value != Value::Null {
        let (number, text) = (refusal.number("number", u32::MAX.into())?, refusal.text("text")?);
        return Ok(Printed::Refusal(Refused { command, warnings, number, text, places: said(refusal, "places")? }));
    }
    let list = sections(node, &warnings)?;
    let service = service(node)?;
    let tenths = node.number("local_losses_tenths", u8::MAX.into())?;
    let fast = command != HEADS;
    let sections = (1..).zip(list).map(|(place, node)| stated(place, node, fast)).collect::<Result<_, Fault>>()?;
    Ok(Printed::Answer(Answer { command, warnings, service, tenths, sections }))
}

/// The service, where the answer names it.
fn service(node: &Node) -> Result<Option<u8>, Fault> {
    let Some(own) = node.find("service") else { return Ok(None) };
    let name = node.text("service")?;
    service::named(&name).map(Some).ok_or_else(|| own.fault(format!("`service` is `{name}`"), service::TAKEN))
}

/// The entries of `sections`. Where mistakes or `--strict` left no answer there are none.
fn sections<'a>(node: &'a Node, warnings: &[Said]) -> Result<&'a [Node], Fault> {
    if node.find("sections").is_none() && node.find("mistakes").is_some() {
        return Err(node.fault("it has mistakes of a file, and no losses", EXPECTED));
    }
    if node.find("sections").is_none() && !warnings.is_empty() {
        return Err(node.fault("it has warnings of which `--strict` made a refusal, and no losses", EXPECTED));
    }
    match node.list("sections")? {
        [] => Err(node.key("sections")?.fault("`sections` is empty", EXPECTED)),
        list => Ok(list),
    }
}

/// What an entry of `sections` says; the entries stand in the order of the sections.
fn stated(place: i64, node: &Node, fast: bool) -> Result<Stated, Fault> {
    let section = node.number("section", u8::MAX.into())?;
    if section != place {
        let wrong = format!("entry {place} of `sections` is section {section}");
        return Err(node.fault(wrong, "the sections in their order, from 1 without a gap"));
    }
    Ok(Stated {
        parent: node.number("parent", u8::MAX.into())?,
        length: node.number("length_dm", u16::MAX.into())?,
        flow: node.number("flow_ml_per_s", u32::MAX.into())?,
        velocity: if fast { Some(node.number("velocity_mm_per_s", u16::MAX.into())?) } else { None },
        marked: fast && is_marked(node)?,
        loss: node.number("loss_cm", u32::MAX.into())? as u32,
    })
}

/// Whether an entry says if its flow is under the first row of its size.
fn is_marked(node: &Node) -> Result<bool, Fault> {
    match node.find(MARK) {
        Some(_) => node.truth(MARK).map(|_| true),
        None => Ok(false),
    }
}

/// The places or warnings of a key.
fn said(node: &Node, key: &str) -> Result<Vec<Said>, Fault> {
    let one = |node: &Node| {
        Ok(Said {
            at: node.text("at")?,
            why: node.text("why")?,
            file: node.or_null("file", Node::text)?,
            line: node.or_null("line", |node, key| node.number(key, u32::MAX.into()))?,
        })
    };
    node.list(key)?.iter().map(one).collect()
}

impl Answer {
    /// The sections' losses in cm; section 1 is at place 0.
    pub fn losses(&self) -> Vec<u32> {
        self.sections.iter().map(|section| section.loss).collect()
    }

    /// What of the house's water the losses are of. Answers from before there were services are of all water.
    pub fn service(&self) -> u8 {
        self.service.unwrap_or(TOTAL)
    }

    /// Whether the losses were worked out from a table, so that they are each section's own and in cm.
    pub fn is_worked_out(&self) -> bool {
        self.command != HEADS
    }

    /// Whether the losses may go by whole first rows: an answer that reads a flow under the first row by the line from zero says of
    /// each section whether it is one.
    pub fn is_by_whole_first_rows(&self) -> bool {
        self.is_worked_out() && self.sections.iter().any(|section| !section.marked)
    }
}
