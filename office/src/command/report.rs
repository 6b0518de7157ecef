//! The JSON object of an answer: what every one has, and beside it the answer's own keys.

use super::arguments::Arguments;
use super::help;
use super::input::{behind_at, name};
use super::json::Json;
use super::lent::Handed;
use super::outcome::{Misuse, Outcome};
use super::refused::{self, Given};
use office::Refusal;
use office::answer::SCHEMA;
use office::mistake::{Mistake, Mistakes};

pub type Fields = Vec<(&'static str, Json)>;

/// The object on its line.
fn object(arguments: &Arguments, refusal: Json, warnings: Json, rest: Fields) -> String {
    let sizes = |place: usize| place == 2 && behind_at(&arguments.words[place]).is_none();
    let words = if help::reads(&arguments.command) { arguments.words.len() } else { 0 };
    let files = (0..words).filter(|place| !sizes(*place)).map(|place| {
        let file = &arguments.words[place];
        Json::text(name(behind_at(file).as_ref().filter(|_| place == 2).unwrap_or(file)))
    });
    let mut fields = vec![
        ("schema", Json::Number(SCHEMA)),
        ("command", Json::text(arguments.command.as_str())),
        ("files", Json::List(files.collect())),
        ("refusal", refusal),
        ("warnings", warnings),
    ];
    fields.extend(rest);
    Json::Object(fields).line()
}

/// An answer, in JSON with its keys or in words. Where `--strict` is given a warning leaves no answer.
pub fn answer(
    arguments: &Arguments,
    given: &Given,
    fields: impl FnOnce() -> Fields,
    words: impl FnOnce() -> Vec<u8>,
) -> Result<Outcome, Misuse> {
    let warned = given.warned();
    if arguments.strict && !warned.is_empty() {
        let json = || object(arguments, Json::Null, given.warned_json(), Vec::new());
        return Err(Misuse::Strict(warned, if arguments.json { json() } else { String::new() }));
    }
    Ok(match arguments.json {
        true => Outcome::answer(object(arguments, Json::Null, given.warned_json(), fields())),
        false => Outcome::answer(words()),
    }
    .with(warned))
}

/// Why the library's answer is not shown.
#[derive(Debug, PartialEq, Eq)]
pub enum Unanswered {
    Refused(Refusal),
    /// What the command works out beside the answer does not go with it: either of the two is wrong.
    Differs(String),
}

impl From<Refusal> for Unanswered {
    fn from(why: Refusal) -> Unanswered {
        Unanswered::Refused(why)
    }
}

/// What is said in place of an answer.
pub fn unanswered(arguments: &Arguments, why: &Unanswered, given: &Given) -> Result<Outcome, Misuse> {
    match why {
        Unanswered::Refused(why) => Ok(refusal(arguments, why, given)),
        Unanswered::Differs(why) => Err(Misuse::Words(format!(
            "library and command differ: {why}; there is no answer, please report it with the files"
        ))),
    }
}

/// A refusal as the answer, in words or as JSON. Behind `-o -` the next program of a pipe would take the words for the answer.
pub fn refusal(arguments: &Arguments, refusal: &Refusal, given: &Given) -> Outcome {
    let outcome = match arguments.json {
        true => {
            let object = object(arguments, refused::json(refusal, given), given.warned_json(), Vec::new());
            Outcome::refusal(object)
        }
        false if arguments.is_piped() => Outcome::refusal(String::new()).with(refused::words(refusal, given)),
        false => Outcome::refusal(refused::words(refusal, given)),
    };
    outcome.with(given.warned())
}

/// A refusal that a file has in place of losses, as it stands there.
pub fn handed_on(arguments: &Arguments, handed: &Handed) -> Outcome {
    let (words, warned) = (handed.words(), handed.warned());
    let outcome = match arguments.json {
        true => Outcome::refusal(object(arguments, handed.json(), handed.warned_json(), Vec::new())),
        false if arguments.is_piped() => Outcome::refusal(String::new()).with(words),
        false => Outcome::refusal(words),
    };
    outcome.with(warned)
}

/// Work that is done all the same where the library refuses: the refusal stands on standard error, or in the object.
pub fn all_the_same(
    arguments: &Arguments,
    given: &Given,
    refusal: &Refusal,
    fields: Fields,
    words: Vec<u8>,
) -> Outcome {
    let refused = format!("warning: the library will not take this\n{}", refused::words(refusal, given));
    let outcome = match arguments.json {
        true => Outcome::answer(object(arguments, refused::json(refusal, given), given.warned_json(), fields)),
        false => Outcome::answer(words).with(refused),
    };
    outcome.with(given.warned()).refused_all_the_same()
}

/// What `--json` says where there is no answer: the mistakes of a text, or nothing.
pub fn misuse(arguments: &Arguments, misuse: &Misuse) -> String {
    match misuse {
        Misuse::Mistakes(name, mistakes) if arguments.json => mistaken(arguments, name, mistakes),
        Misuse::AnotherHouse(name, why) if arguments.json => {
            let expected = "losses of this house as it is; `office losses` works them out again";
            let mistake = Mistake::lacking(format!("it is not of this house: {why}"), expected);
            mistaken(arguments, name, &mistake.into())
        }
        Misuse::Strict(_, json) => json.clone(),
        _ => String::new(),
    }
}

fn mistaken(arguments: &Arguments, name: &str, mistakes: &Mistakes) -> String {
    let rest = vec![("mistakes", listed(name, mistakes)), ("more_mistakes", Json::Number(mistakes.more as i64))];
    object(arguments, Json::Null, Json::List(Vec::new()), rest)
}

fn listed(name: &str, mistakes: &Mistakes) -> Json {
    let one = |mistake: &Mistake| {
        let (line, text) = match &mistake.line {
            Some((number, text)) => (Json::Number(*number as i64), Json::text(text.as_str())),
            None => (Json::Null, Json::Null),
        };
        Json::Object(vec![
            ("file", Json::text(name)),
            ("line", line),
            ("text", text),
            ("wrong", Json::text(mistake.wrong.as_str())),
            ("expected", Json::text(mistake.expected.as_str())),
        ])
    };
    Json::List(mistakes.list.iter().map(one).collect())
}
