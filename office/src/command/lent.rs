//! The losses that a file has: a readable list, its record, or what the command has printed with `--json`.

use super::input::{Content, File, Source, is_of_sizes};
use super::outcome::Misuse;
use office::answer::{self, Answer, Printed, Refused};
use office::which::Which;
use office::{loss, losses, readable};

/// A list of losses; a readable one may say what of the house's water they are of, and one that the command has printed says what
/// it was worked out from.
pub struct Losses {
    pub source: Source,
    pub service: Option<u8>,
    pub answer: Option<Answer>,
}

/// A refusal that a file has in place of losses.
pub struct Handed {
    /// The file's name for messages.
    pub name: String,
    pub refusal: Refused,
}

/// What is wrong with a list in place of an answer.
pub const LISTED: &str = "it begins with `[`, as a list does";

pub enum Lent {
    Losses(Losses),
    Refusal(Handed),
}

impl File<'_> {
    /// A list of losses: a readable one is packed, a record is taken as it is, and so are the losses of an answer.
    pub fn losses(&self) -> Result<Lent, Misuse> {
        match self.content()? {
            Content::Record(bytes) => {
                Ok(Lent::Losses(Losses { source: self.as_it_is(bytes), service: None, answer: None }))
            }
            Content::Meters(_) => Err(self.another(Which::Meters, Which::Losses)),
            Content::Answer(bytes) => self.printed(&bytes),
            Content::Text(text) => {
                let header = losses::FORM.header(',');
                self.is_no_object(&text)?;
                self.is_for_people(&text)?;
                if is_of_sizes(&text) {
                    let why = "has nothing but numbers, as a list of sizes has; a list of losses has a header,";
                    return Err(Misuse::Words(format!("{} {why} `{header}`", self.name())));
                }
                self.is_list(&text, Which::Losses, header)?;
                Ok(Lent::Losses(self.loss_list(&text)?))
            }
        }
    }

    /// What the command has printed with `--json`.
    pub fn printed(&self, bytes: &[u8]) -> Result<Lent, Misuse> {
        let name = self.name();
        match answer::read(bytes).map_err(|mistakes| Misuse::Mistakes(name.clone(), mistakes))? {
            Printed::Refusal(refusal) => Ok(Lent::Refusal(Handed { name, refusal })),
            Printed::Answer(answer) => {
                let source = self.as_it_is(loss::bytes(&answer.losses()));
                Ok(Lent::Losses(Losses { source, service: Some(answer.service()), answer: Some(answer) }))
            }
        }
    }

    /// JSON that is not one object from its first character on, as where standard error was written into the same file.
    pub fn is_no_object(&self, text: &str) -> Result<(), Misuse> {
        let first = readable::lines(text).next().map_or("", |line| line.content);
        let object = || text.lines().any(|line| line.trim_start().starts_with('{'));
        let why = match first.contains("{\"schema\":") || (Which::of(text) == Which::House && object()) {
            _ if first.starts_with('[') => LISTED,
            true => "text stands before its `{`",
            false => return Ok(()),
        };
        Err(self.no_object(why))
    }

    pub fn no_object(&self, why: &str) -> Misuse {
        let name = self.name();
        Misuse::Words(format!(
            "{name} is no answer of `office` as JSON: {why}; one object is expected, as `--json` prints it on standard output"
        ))
    }

    /// What the command prints without `--json`.
    fn is_for_people(&self, text: &str) -> Result<(), Misuse> {
        let first = readable::lines(text).next().map_or("", |line| line.content);
        let begins = ["sizes  ", "pump set: ", "refused "].iter().any(|words| first.starts_with(words));
        let table = first.split_whitespace().take(3).eq(["section", "from", "kind"]);
        match begins || table {
            true => Err(Misuse::Words(format!(
                "{} is what `office` prints for people; the losses are taken from what `office losses` or `rate` prints with `--json`",
                self.name()
            ))),
            false => Ok(()),
        }
    }
}
