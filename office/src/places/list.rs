//! Refusals 12 and 13: the list of sizes, and sizes that are too small for their section.

use super::flows::Flows;
use super::{Asked, Place, pipe};
use crate::at::At;
use crate::catalogue::Catalogue;
use crate::record::Record;

/// 12: the list's length, and numbers that are no size's.
pub fn names(asked: &Asked) -> Vec<Place> {
    let (Ok(record), Ok(catalogue)) = (Record::read(asked.job), Catalogue::read(asked.cat)) else { return Vec::new() };
    let (sections, sizes) = (record.sections.len(), catalogue.sizes.len());
    let mut found = Vec::new();
    if asked.sizes.len() != sections {
        let given = asked.sizes.len();
        found.push(Place::new(At::List, format!("size numbers given: {given}; sections of the house: {sections}")));
    }
    // A list may be far longer than any house; what is behind that says nothing new.
    for (place, number) in asked.sizes.iter().enumerate().take(255) {
        if *number == 0 || usize::from(*number) > sizes {
            found.push(Place::new(At::Entry(place + 1), format!("{number} is none of sizes 1 to {sizes}")));
        }
    }
    found
}

/// 13: for each section its flow against its size's last row, or its velocity against the limit.
pub fn too_small(asked: &Asked) -> Vec<Place> {
    let (Ok(record), Ok(catalogue)) = (Record::read(asked.job), Catalogue::read(asked.cat)) else { return Vec::new() };
    let Some(flows) = Flows::of(asked.job) else { return Vec::new() };
    let mut found = Vec::new();
    for ((section, flow, words), number) in flows.sections().zip(asked.sizes) {
        let Some(size) = catalogue.size(*number) else { continue };
        let limit = u64::from(record.limit);
        let why = match pipe::read(size, flow) {
            None => format!("flow {words} is over the last row of size {number}, {} ml/s", size.last_flow()),
            Some(reading) if reading.velocity > limit => {
                let velocity = reading.velocity;
                let mark = pipe::first_row_mark(flow, size.first_flow()).map(|mark| format!(" ({mark})"));
                let mark = mark.unwrap_or_default();
                format!("velocity {velocity} mm/s at {words} in size {number}{mark} passes the limit of {limit} mm/s")
            }
            Some(_) => continue,
        };
        found.push(Place::new(At::Section(section), why));
    }
    found
}
