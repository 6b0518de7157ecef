//! Refusals 20 and 21: heat of a house that is no hot line, and the numbers that are given beside it.

use super::{Heating, Place};
use crate::at::{At, Field};
use crate::record::Record;
use crate::service::{self, HOT, TOTAL};

/// The greatest temperature of cold water in degrees C and the greatest heat loss in watts that the library takes.
pub const MOST_COLD: u32 = 30;
pub const MOST_LOSS: u32 = 1_000_000;

/// 20: which service the house has, and what a hot line has.
pub fn not_hot(job: &[u8]) -> Vec<Place> {
    let Ok(record) = Record::read(job) else { return Vec::new() };
    if record.service == HOT {
        return Vec::new();
    }
    let why = match record.stated_service() {
        // A readable house may say `service total` in version 1 too, so that it is not said that none is given.
        None => format!("it is total, {}, as where none is given", service::words(TOTAL)),
        Some(TOTAL) => format!("it is total, {}", service::words(TOTAL)),
        Some(line) => format!("it is {}", service::name(line)),
    };
    let why =
        format!("{why}; a hot line has a house of its own, with `service hot` and the pipes and fixtures of that line");
    vec![Place::new(At::Field(Field::Service), why)]
}

/// 21: each number that is out of range.
pub fn ranges(heating: Option<Heating>) -> Vec<Place> {
    let Some(Heating { cold, loss }) = heating else { return Vec::new() };
    let rows = [(At::ColdWater, cold, MOST_COLD, "degrees C"), (At::HeatLoss, loss, MOST_LOSS, "W")];
    let wrong = rows.into_iter().filter(|(_, value, most, _)| value > most);
    wrong.map(|(at, value, most, unit)| Place::new(at, format!("{value} is outside 0 to {most} {unit}"))).collect()
}
