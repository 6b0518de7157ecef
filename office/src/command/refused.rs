//! A refusal in words: the library's number and sentence, and the places found beside it.

use super::input::Source;
use super::json::Json;
use super::lent::{Handed, Losses};
use super::report::Fields;
use office::answer::{self, Answer, Said};
use office::at::At;
use office::catalogue::Catalogue;
use office::echo;
use office::loss::{self, LOSS};
use office::meter;
use office::places::{Asked, Heating, Place, places};
use office::readable;
use office::record::Record;
use office::warnings::{
    by_whole_first_rows, commented_out, of_no_line, off_heat, off_hours, off_losses, off_service, off_velocity,
    warnings,
};
use office::which::Which;
use office::{Flow, Refusal, calls};

/// What the refused call was given.
#[derive(Clone, Copy, Default)]
pub struct Given<'a> {
    pub job: Option<&'a Source>,
    pub cat: Option<&'a Source>,
    pub sizes: &'a [u8],
    pub meters: Option<&'a Source>,
    pub losses: Option<&'a Source>,
    /// What of the house's water the losses are of, where the list says it.
    pub service: Option<u8>,
    pub heating: Option<Heating>,
    /// What the command has printed, where the losses come from that.
    pub answer: Option<&'a Answer>,
}

impl<'a> Given<'a> {
    pub fn of_losses(list: &'a Losses) -> Given<'a> {
        let (losses, answer) = (Some(&list.source), list.answer.as_ref());
        Given { losses, service: list.service, answer, ..Given::default() }
    }
}

impl Given<'_> {
    fn places(&self, refusal: &Refusal) -> Vec<Place> {
        let bytes = |source: Option<&Source>| source.map_or(Vec::new(), |source| source.bytes.clone());
        let [job, cat, meters, losses] = [self.job, self.cat, self.meters, self.losses].map(bytes);
        let heating = self.heating;
        let asked = Asked { job: &job, cat: &cat, sizes: self.sizes, meters: &meters, losses: &losses, heating };
        let found = places(refusal, &asked);
        match refusal {
            Refusal::LossList => in_bytes(&losses, Record::read(&job).ok(), found),
            _ => found,
        }
    }

    /// The file that a place lies in, and its line where the file is readable.
    fn file(&self, at: At) -> Option<(&str, Option<usize>)> {
        let source = match at {
            At::Catalogue | At::Size(_) | At::Row(..) => self.cat,
            At::List | At::Entry(_) | At::ColdWater | At::HeatLoss => None,
            At::Meters | At::Meter(_) => self.meters,
            At::Losses | At::Loss(_) => self.losses,
            _ => self.job,
        }?;
        Some((source.name.as_str(), source.lines.of(at)))
    }
}

/// More places than this are counted and not listed.
const LISTED: usize = 20;

impl Given<'_> {
    /// A place in words, with its file and line.
    fn located(&self, place: &Place) -> String {
        match self.file(place.at) {
            Some((name, Some(line))) => format!("{name} line {line}, {place}"),
            Some((name, None)) => format!("{name}, {place}"),
            None => place.to_string(),
        }
    }

    /// A place for machines.
    fn place_json(&self, place: &Place) -> Json {
        let (file, line) = match self.file(place.at) {
            Some((name, line)) => (Some(name), line.map(|line| line as i64)),
            None => (None, None),
        };
        Json::Object(place_fields(&place.at.to_string(), &place.why, file, line))
    }

    /// What is nearly always a slip in the lists and in the numbers beside them. Losses that were worked out from a table are none
    /// that somebody wrote; of them it is looked at by which reading.
    fn of_lists(&self) -> Vec<Place> {
        let record = self.job.and_then(|job| Record::read(&job.bytes).ok());
        // Bytes that are no list of meters have a refusal, and nothing that they hold is a slip.
        let meters = self.meters.filter(|meters| meter::is_list(&meters.bytes));
        let meters = meters.and_then(|meters| meter::read(&meters.bytes).ok());
        let mut found: Vec<Place> = meters.as_deref().map(off_service).unwrap_or_default();
        let written = self.losses.filter(|_| !self.answer.is_some_and(Answer::is_worked_out));
        let losses = written.and_then(|losses| loss::read(&losses.bytes).ok()).unwrap_or_default();
        let unsaid = record.iter().filter(|_| self.service.is_none());
        found.extend(unsaid.filter_map(|record| of_no_line(record, &losses)));
        found.extend(record.iter().flat_map(|record| off_losses(record, &losses)));
        found.extend(self.answer.and_then(by_whole_first_rows));
        let mean_hour = || self.flow().map(|flow| flow.mean_hour);
        found.extend(self.heating.and_then(|heating| off_heat(heating, mean_hour())));
        found
    }

    /// The house's flows, where the library gives them.
    fn flow(&self) -> Option<Flow> {
        self.job.and_then(|job| calls::flow(&job.bytes).ok())
    }

    /// What is nearly always a slip in the house or the table.
    fn of_house(&self) -> Vec<Place> {
        let record = self.job.and_then(|job| Record::read(&job.bytes).ok());
        let catalogue = self.cat.and_then(|cat| Catalogue::read(&cat.bytes).ok());
        let mut found: Vec<Place> = self.job.and_then(|job| commented_out(&job.lines)).into_iter().collect();
        found.extend(record.iter().flat_map(warnings));
        found.extend(record.iter().zip(self.flow()).filter_map(|(record, flow)| off_hours(record, &flow)));
        found.extend(catalogue.as_ref().and_then(off_velocity));
        found
    }

    /// All warnings, although the library takes what they warn of. A house may have more than are listed; those of the meters, eight
    /// at most, are never left out, those of the losses come next, since nobody has looked at them before, and then those that came
    /// with an answer and are not this run's own.
    fn warnings(&self) -> Vec<Warning<'_>> {
        let (lists, house) = (self.of_lists(), self.of_house());
        let said = self.answer.map_or(&[][..], |answer| &answer.warnings);
        let new = |said: &&Said| !lists.iter().chain(&house).any(|place| said.is(place));
        let handed: Vec<Warning> = said.iter().filter(new).map(Warning::Handed).collect();
        lists.into_iter().map(Warning::Own).chain(handed).chain(house.into_iter().map(Warning::Own)).collect()
    }

    /// The name of the file that an answer is in.
    fn answered(&self) -> &str {
        self.losses.map_or("", |losses| &losses.name)
    }

    /// The warnings for people.
    pub fn warned(&self) -> String {
        let lines = self.warnings().into_iter().map(|warning| match warning {
            Warning::Own(place) => self.located(&place),
            Warning::Handed(said) => handed_words(said, self.answered()),
        });
        warned(lines.collect())
    }

    /// The warnings for machines.
    pub fn warned_json(&self) -> Json {
        let one = |warning| match warning {
            Warning::Own(place) => self.place_json(&place),
            Warning::Handed(said) => said_json(said, Some(self.answered())),
        };
        Json::List(self.warnings().into_iter().map(one).collect())
    }
}

/// A warning of this run, or one that came with an answer.
enum Warning<'a> {
    Own(Place),
    Handed(&'a Said),
}

/// Warnings on a line each, as far as they are listed.
fn warned(lines: Vec<String>) -> String {
    let mut text: String = lines.iter().take(LISTED).map(|line| format!("warning: {line}\n")).collect();
    if lines.len() > LISTED {
        text.push_str(&format!("warning: and {} more warnings\n", lines.len() - LISTED));
    }
    text
}

fn place_fields(at: &str, why: &str, file: Option<&str>, line: Option<i64>) -> Fields {
    vec![
        ("at", Json::text(at)),
        ("why", Json::text(why)),
        ("file", file.map_or(Json::Null, Json::text)),
        ("line", line.map_or(Json::Null, Json::Number)),
    ]
}

/// A place of an answer as it stands there, in words.
fn said_words(said: &Said) -> String {
    let file = match (&said.file, said.line) {
        (Some(file), Some(line)) => format!("{file} line {line}, "),
        (Some(file), None) => format!("{file}, "),
        _ => String::new(),
    };
    echo::escaped(format!("{file}{}: {}", said.at, said.why).chars())
}

/// A warning that came with an answer, whose file is named.
fn handed_words(said: &Said, answer: &str) -> String {
    format!("{answer} comes with this warning: {}", said_words(said))
}

/// A place of an answer for machines; a warning that came with one names its file.
fn said_json(said: &Said, answer: Option<&str>) -> Json {
    let mut fields = place_fields(&said.at, &said.why, said.file.as_deref(), said.line);
    fields.extend(answer.map(|answer| ("answer", Json::text(answer))));
    Json::Object(fields)
}

/// The places of 19 where the bytes themselves say more than their last loss: a readable list is no record, and bytes that make no
/// whole losses are held against what the house's sections need.
fn in_bytes(losses: &[u8], record: Option<Record>, mut found: Vec<Place>) -> Vec<Place> {
    let text = readable::text(losses).ok().filter(|text| Which::of(text) == Which::Losses);
    if text.is_some() || answer::is_answer(losses) {
        let why = "these bytes are a text and no record; leave `--record` out, and the file is read as what it is";
        return vec![Place { at: At::Losses, why: why.to_string() }];
    }
    let (given, cut) = (losses.len(), At::Loss(losses.len() / LOSS + 1));
    let whole = given.is_multiple_of(LOSS);
    if let (Some(record), false, Some(place)) = (record, whole, found.iter_mut().find(|place| place.at == cut)) {
        let sections = record.sections.len();
        let needed = LOSS * sections;
        let off = if given > needed { "too many" } else { "too few" };
        let why =
            format!("{given} bytes; the house's {sections} sections need {needed}: {} {off}", given.abs_diff(needed));
        *place = Place { at: At::Losses, why };
    }
    found
}

impl Handed {
    /// The refusal for people.
    pub fn words(&self) -> String {
        let refusal = &self.refusal;
        let text = echo::escaped(refusal.text.chars());
        let from =
            format!("  it stands in {}, an answer of `office {}`, in place of losses", self.name, refusal.command);
        let mut lines = vec![format!("refused {}: {text}", refusal.number), from];
        lines.extend(refusal.places.iter().take(LISTED).map(|said| format!("  {}", said_words(said))));
        if refusal.places.len() > LISTED {
            lines.push(format!("  and {} more places", refusal.places.len() - LISTED));
        }
        lines.join("\n") + "\n"
    }

    /// The refusal for machines.
    pub fn json(&self) -> Json {
        let places = self.refusal.places.iter().map(|said| said_json(said, None));
        Json::Object(vec![
            ("number", self.refusal.number.into()),
            ("text", Json::text(self.refusal.text.as_str())),
            ("places", Json::List(places.collect())),
            ("answer", Json::text(self.name.as_str())),
        ])
    }

    /// Its warnings for people.
    pub fn warned(&self) -> String {
        warned(self.refusal.warnings.iter().map(|said| handed_words(said, &self.name)).collect())
    }

    /// Its warnings for machines.
    pub fn warned_json(&self) -> Json {
        Json::List(self.refusal.warnings.iter().map(|said| said_json(said, Some(&self.name))).collect())
    }
}

impl Given<'_> {
    /// A line for each file that has no bytes at all: what was meant is a file to fill in, and no record of no bytes.
    fn empty(&self) -> String {
        let sources = [
            (self.job, "house", "a house"),
            (self.cat, "table", "a table"),
            (self.meters, "meters", "a list of meters"),
            (self.losses, "losses", "a list of losses"),
        ];
        let empty = |(source, what, one): &(Option<&Source>, &str, &str)| {
            let name = &source.filter(|own| own.bytes.is_empty())?.name;
            Some(format!("{name} is empty; `office new {what}` gives {one} to start from\n"))
        };
        sources.iter().filter_map(empty).collect()
    }
}

/// The refusal for people.
pub fn words(refusal: &Refusal, given: &Given) -> String {
    let found = given.places(refusal);
    let mut text = format!("{}{refusal}\n", given.empty());
    if found.is_empty() {
        text.push_str("  no place was found for it; the number is the library's and stands\n");
    }
    for place in found.iter().take(LISTED) {
        text.push_str(&format!("  {}\n", given.located(place)));
    }
    if found.len() > LISTED {
        text.push_str(&format!("  and {} more places\n", found.len() - LISTED));
    }
    text
}

/// The refusal for machines.
pub fn json(refusal: &Refusal, given: &Given) -> Json {
    let found = given.places(refusal);
    let places = found.iter().map(|place| given.place_json(place));
    Json::Object(vec![
        ("number", refusal.number().into()),
        ("text", Json::text(refusal.text())),
        ("places", Json::List(places.collect())),
    ])
}
