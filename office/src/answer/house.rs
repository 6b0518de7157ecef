//! An answer held against a house: whether the losses are of that house as it is now.

use super::Answer;
use crate::measure::{LENGTH, TENTHS};
use crate::record::Record;
use crate::service;

/// In which line of the house it is not the one that losses are of, in words. A house of version 1 is of all water.
pub fn of_another_line(stated: u8, record: &Record) -> Option<String> {
    let fact = of_service(stated, record);
    fact.differs().then(|| format!("{}; give {} with it", fact.words(), house_of(stated)))
}

/// The house that losses are of, in words.
fn house_of(stated: u8) -> String {
    match stated {
        service::TOTAL => "the house for all its water".to_string(),
        line => format!("the house of {}", service::words(line)),
    }
}

fn of_service(stated: u8, record: &Record) -> Fact {
    Fact::new("the house", "as its service", stated.into(), record.service, service)
}

impl Answer {
    /// The first thing in which a house is not the one that the losses were worked out for, in words. What was written comes before
    /// what the library works out from it.
    pub fn difference(&self, record: &Record, flows: &[u32]) -> Option<String> {
        let own = || record.numbered().zip(&self.sections);
        if let Some(line) = of_another_line(self.service(), record) {
            let unnamed = if self.service.is_none() { "it names no service, so that it is of all water: " } else { "" };
            return Some(format!("{unnamed}{line}"));
        }
        let house = [Fact::new("the house", "local losses of", self.tenths, record.tenths, tenths)];
        let shape = own().flat_map(|((number, section), stated)| {
            let whose = format!("section {number}");
            [
                Fact::new(&whose, "its start at", stated.parent, section.parent, parent),
                Fact::new(&whose, "a length of", stated.length, section.length, length),
            ]
        });
        let mut flowing = own().zip(flows).map(|(((number, _), stated), flow)| {
            Fact::new(&format!("section {number}"), "a flow of", stated.flow, *flow, flow_in_words)
        });
        let written = house.into_iter().chain(shape).find(Fact::differs).map(|fact| fact.words());
        let flow = || flowing.find(Fact::differs).map(|fact| fact.words() + OF_A_FLOW);
        written.or_else(flow).or_else(|| self.too_fast(record))
    }

    /// The first velocity that the house's limit does not let through: with these sizes the library would refuse the house.
    fn too_fast(&self, record: &Record) -> Option<String> {
        let mut known = (1..).zip(&self.sections).filter_map(|(number, stated)| Some((number, stated.velocity?)));
        let (number, velocity): (usize, i64) = known.find(|(_, velocity)| *velocity > record.limit.into())?;
        let limit = record.limit;
        Some(format!("section {number} has a velocity of {velocity} mm/s there, over the limit of {limit} mm/s here"))
    }
}

/// What another flow comes of, where the pipes are the same.
const OF_A_FLOW: &str = ", which comes of other residents, fixtures or kinds";

/// What a loss was worked out from, as an answer has it and as the house has it.
struct Fact {
    whose: String,
    what: &'static str,
    there: i64,
    here: i64,
    show: fn(i64) -> String,
}

impl Fact {
    fn new(whose: &str, what: &'static str, there: i64, here: impl Into<i64>, show: fn(i64) -> String) -> Fact {
        Fact { whose: whose.to_string(), what, there, here: here.into(), show }
    }

    fn differs(&self) -> bool {
        self.there != self.here
    }

    fn words(&self) -> String {
        let Fact { whose, what, there, here, show } = self;
        format!("{whose} has {what} {} there and {} here", show(*there), show(*here))
    }
}

fn service(service: i64) -> String {
    service::name(service as u8)
}

fn tenths(tenths: i64) -> String {
    TENTHS.show(tenths)
}

fn parent(parent: i64) -> String {
    if parent == 0 { "the pump".to_string() } else { format!("the end of section {parent}") }
}

fn length(length: i64) -> String {
    LENGTH.show(length)
}

fn flow_in_words(flow: i64) -> String {
    format!("{flow} ml/s")
}
