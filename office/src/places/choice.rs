//! Refusal 16: what is missing. Either some section has no size at all, or even the least losses ask for too much head.

use super::flows::Flows;
use super::{Asked, Place, pipe};
use crate::at::{At, Field};
use crate::calls;
use crate::catalogue::{Catalogue, Size};
use crate::record::Record;

pub fn none_suits(asked: &Asked) -> Vec<Place> {
    let (Ok(record), Ok(catalogue)) = (Record::read(asked.job), Catalogue::read(asked.cat)) else { return Vec::new() };
    let Some(flows) = Flows::of(asked.job) else { return Vec::new() };
    let sizes = gentlest(&record, &catalogue, &flows.flows);
    let unserved = flows.sections().zip(&sizes).filter(|(_, size)| size.is_none());
    let found: Vec<Place> = unserved
        .map(|((section, flow, words), _)| {
            Place::new(At::Section(section), why_unserved(&catalogue, (flow, &words), record.limit))
        })
        .collect();
    match found.is_empty() {
        true => short_of_head(asked, &record, &sizes.into_iter().flatten().collect::<Vec<u8>>()),
        false => found,
    }
}

/// For each section the allowed size with the least slope, and so with the least loss: a section's loss depends on nothing
/// else that may be chosen. None where no size serves it.
pub fn gentlest(record: &Record, catalogue: &Catalogue, flows: &[u32]) -> Vec<Option<u8>> {
    let allowed = |flow: u32| {
        (1..=255)
            .zip(&catalogue.sizes)
            .filter_map(move |(number, size)| Some((number, pipe::read(size, flow)?)))
            .filter(|(_, reading)| reading.velocity <= u64::from(record.limit))
    };
    flows.iter().map(|flow| allowed(*flow).min_by_key(|(_, reading)| reading.slope).map(|(number, _)| number)).collect()
}

/// Why no size will do for a section of this flow, which is given in words too, and the bore that would.
fn why_unserved(catalogue: &Catalogue, (flow, words): (u32, &str), limit: u16) -> String {
    let sizes = (1_u8..=255).zip(&catalogue.sizes);
    let readings = sizes.filter_map(|(number, size)| Some((number, size, pipe::read(size, flow)?)));
    let needed = bore(flow, limit).max(catalogue.sizes.iter().map(|size| u64::from(size.bore) + 1).max().unwrap_or(1));
    let would = format!("and the limit is {limit} mm/s; a bore of about {needed} mm would do");
    match readings.min_by_key(|(_, _, reading)| reading.velocity) {
        Some((number, size, reading)) => {
            let mark = pipe::first_row_mark(flow, size.first_flow()).map(|mark| format!("; {mark}"));
            let (velocity, bore, mark) = (reading.velocity, size.bore, mark.unwrap_or_default());
            format!(
                "no size serves it: at {words} the least velocity is {velocity} mm/s, in size {number} ({bore} mm{mark}), {would}"
            )
        }
        None => {
            let last = catalogue.sizes.iter().map(Size::last_flow).max().unwrap_or(0);
            format!("no size serves its flow of {words}; the greatest flow in the table is {last} ml/s, {would}")
        }
    }
}

/// The least bore in mm through which a flow in ml/s keeps a velocity in mm/s: a circle of 1,000 x flow / velocity square
/// mm. The ratio of a circle is taken as 355 / 113.
fn bore(flow: u32, limit: u16) -> u64 {
    let square = (4_000 * u64::from(flow) * 113).div_ceil(355 * u64::from(limit.max(1)));
    let root = square.isqrt();
    root + u64::from(root * root < square)
}

/// The least required head there is, from the library's own rating of the list with the least losses.
fn short_of_head(asked: &Asked, record: &Record, sizes: &[u8]) -> Vec<Place> {
    let Ok(rating) = calls::rate(asked.job, asked.cat, sizes) else { return Vec::new() };
    let delivered = i32::from(record.delivered);
    if rating.required <= delivered {
        return Vec::new();
    }
    let least = rating.required;
    let list: Vec<String> = sizes.iter().map(u8::to_string).collect();
    vec![
        Place::new(
            At::Field(Field::Delivered),
            format!("it is {delivered} cm; no list of sizes needs less than {least} cm, {} cm more", least - delivered),
        ),
        Place::new(
            At::Section(rating.dictating),
            format!("its end asks for that head even with the least losses, sizes {}", list.join(",")),
        ),
    ]
}
