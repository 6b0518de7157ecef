//! A readable job file and the job record, both ways.
//!
//! Packing refuses only what is no line of the format and what can't be written as bytes. Whether a house is acceptable is
//! the library's judgement and nobody else's, so [`show`] shows a refused record as readily as an accepted one, and
//! [`pack`] packs what it showed into the same bytes. `docs/FILES.md` describes the format.

mod head;
mod meter_loss;
mod sections;

use crate::at::{At, Field, Lines};
use crate::line::Line;
use crate::measure::Quantity;
use crate::mistake::{Mistake, Mistakes};
use crate::readable;
use crate::record::{NoRecord, Record};
use crate::service;
pub use head::lacks;
pub use meter_loss::with_meter_loss;

/// A readable house as bytes, with the lines that its fields came from.
#[derive(Clone, Debug, PartialEq, Eq)]
pub struct Packed {
    pub bytes: Vec<u8>,
    pub lines: Lines,
}

/// The record of a readable house.
pub fn pack(text: &str) -> Result<Vec<u8>, Mistakes> {
    read(text).map(|packed| packed.bytes)
}

/// The record of a readable house, and where each field stands in the text; or all that is wrong with it.
pub fn read(text: &str) -> Result<Packed, Mistakes> {
    let mut head = head::Head::default();
    let mut given = sections::Given::default();
    let mut places = Lines::default();
    let mut mistakes = Mistakes::default();
    if readable::lines(text).next().is_none() {
        let expected = "the lines of a house; `office new house` gives one to start from";
        return Err(Mistake::lacking("the file is empty, or has nothing but comments", expected).into());
    }
    for source in readable::lines(text) {
        let mut line = Line::of(&source);
        // A line that is cut off by a doubtful # is there, and not to be called missing; what else is wrong with it may come
        // of the cut.
        let (fault, mut of_the_cut) = (source.fault(), Mistakes::default());
        let found = if fault.is_some() { &mut of_the_cut } else { &mut mistakes };
        if line.begins("section") {
            given.take(&mut line, &mut places, found);
        } else if let Err(mistake) = head.take(&mut line, &mut places) {
            found.add(mistake);
        }
        fault.into_iter().for_each(|fault| mistakes.add(fault));
    }
    if places.of(At::Field(Field::Service)).is_none() {
        note_commented_out(text, &mut places);
    }
    let lacking = head.contradiction(&places).into_iter().chain(head.missing(&places));
    lacking.for_each(|mistake| mistakes.add(mistake));
    let mut record = head.record();
    record.sections = given.sections(&mut mistakes);
    if let Some((last, _)) = record.numbered().last()
        && let Some(line) = places.of(At::Section(last))
    {
        places.note(At::Field(Field::Sections), line);
    }
    if head.stated().is_none() {
        record.stated = record.len() as u32;
    }
    mistakes.none(Packed { bytes: record.bytes(), lines: places })
}

/// Notes the comments that are lines `service cold` or `service hot` in themselves: without its `#` the house would be that line.
fn note_commented_out(text: &str, places: &mut Lines) {
    for (number, comment) in readable::comments(text) {
        let comment = comment.replace([':', ';'], " ").to_lowercase();
        let line = match comment.split_whitespace().collect::<Vec<_>>()[..] {
            ["service", word] => service::named(word).filter(|service| *service != service::TOTAL),
            _ => None,
        };
        line.into_iter().for_each(|line| places.note(At::Comment(line), number));
    }
}

/// What a house's lines measure.
pub fn quantities() -> Vec<Quantity> {
    head::quantities().chain(sections::quantities()).collect()
}

/// The canonical text of a record of the length that its version and section count ask for, whatever its other fields hold. Bytes
/// of another length have no sections to show: they are given back as [`NoRecord`], which says how many bytes there are and how
/// many are asked for.
pub fn show(bytes: &[u8]) -> Result<String, NoRecord> {
    let record = Record::read(bytes)?;
    let mut text = head::show(&record);
    if !record.sections.is_empty() {
        text.push('\n');
        text.push_str(&sections::show(&record));
    }
    Ok(text)
}
