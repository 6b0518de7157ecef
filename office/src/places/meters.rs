//! Refusals 17 and 18: the list of meters, and which limits each meter of it breaks in the house.

use super::{Asked, Place, shape};
use crate::at::At;
use crate::calls;
use crate::measure::RESISTANCE;
use crate::meter::{self, Fit, METER, MOST, Meter};

/// 17: the list's length, and every field of a meter that is none.
pub fn rules(list: &[u8]) -> Vec<Place> {
    if let Some(why) = another(list) {
        return vec![Place::new(At::Meters, why)];
    }
    let mut found = Vec::new();
    let (given, rest) = (list.len(), list.len() % METER);
    let whole = given / METER;
    if given == 0 {
        found.push(Place::new(At::Meters, format!("the file is empty: it has 0 bytes; a meter has {METER}")));
    } else if rest != 0 {
        let why = format!("the list has {given} bytes, {METER} for each meter: {}", shape::missing(given, METER));
        found.push(Place::new(At::Meter(whole + 1), why));
    }
    // A list may be far longer than any that is taken; what is behind that says nothing new.
    for (place, five) in (1..=MOST).zip(list.chunks_exact(METER)) {
        found.extend(of_meter(&Meter::of(five)).into_iter().map(|why| Place::new(At::Meter(place), why)));
    }
    if whole > MOST {
        let why = format!("it is one too many: the list has {whole} meters, and the most is {MOST}");
        found.push(Place::new(At::Meter(MOST + 1), why));
    }
    found
}

/// The fields of a meter that are none.
fn of_meter(meter: &Meter) -> Vec<String> {
    let types: Vec<String> =
        (1..).zip(meter::types()).map(|(number, (name, _))| format!("{number} ({name})")).collect();
    let Meter { design, resistance, service } = meter;
    let faults = [
        (meter.limit().is_none(), format!("type {design} is none of {}", types.join(" and "))),
        (*resistance == 0, format!("resistance 0; the least is {} m/(l/s)2", RESISTANCE.show(1))),
        (*service == 0, "service flow 0 l/h; the least is 1".to_string()),
    ];
    faults.into_iter().filter(|(wrong, _)| *wrong).map(|(_, why)| why).collect()
}

/// A house, a table of pipes or a list of losses lent as the list: what else is wrong with it says nothing. The job was accepted,
/// so the two files are not swapped.
fn another(list: &[u8]) -> Option<String> {
    let what = shape::stated(list).or_else(|| shape::of_losses(list))?;
    Some(format!("these bytes {what}; a list of meters is expected"))
}

/// 18: for each meter the limits that it breaks, and what would do for the house.
pub fn none_qualifies(asked: &Asked) -> Vec<Place> {
    let Ok(meters) = meter::read(asked.meters) else { return Vec::new() };
    // Design flow and mean hour are the library's own.
    let (Ok(duty), Ok(flow)) = (calls::duty(asked.job), calls::flow(asked.job)) else { return Vec::new() };
    let mut found = Vec::new();
    for (place, meter) in (1..=MOST).zip(meters) {
        let fit = Fit::of(meter, duty, flow.mean_hour);
        if !fit.qualifies() {
            found.push(Place::new(At::Meter(place), why(&fit, duty, flow.mean_hour)));
        }
    }
    if !found.is_empty() {
        found.push(Place::new(At::House, would_do(duty, flow.mean_hour)));
    }
    found
}

/// The limits that a meter breaks, with the figures.
fn why(fit: &Fit, duty: u32, mean_hour: u32) -> String {
    let Fit { meter, loss, limit, over_limit, over_service } = fit;
    let mut broken = Vec::new();
    // One tap never sets this flow: it is at most 300 ml/s, at which no meter of a list loses more than 59 cm.
    if *over_limit > 0 {
        let name = meter::name(meter.design);
        broken
            .push(format!("at {duty} ml/s it loses {loss} cm, {over_limit} cm over the {limit} cm of a {name} meter"));
    }
    if *over_service > 0 {
        let service = meter.service;
        broken.push(format!(
            "the mean hour of {mean_hour} l/h is {over_service} l/h over its service flow of {service} l/h"
        ));
    }
    broken.join("; ")
}

/// Which meters qualify in a house, or that no list can hold one.
fn would_do(duty: u32, mean_hour: u32) -> String {
    let most = u16::MAX;
    if mean_hour > u32::from(most) {
        return format!(
            "its mean hour is {mean_hour} l/h, and a list holds service flows to {most} l/h: no list can hold a meter for it"
        );
    }
    // Resistance × flow × flow / 100,000,000 is at most the limit.
    let square = u64::from(duty) * u64::from(duty);
    let most = |limit: u16| (u64::from(limit) * 100_000_000).checked_div(square).unwrap_or(0).min(most.into());
    let known = meter::types().map(|(name, limit)| (name, RESISTANCE.show(most(limit) as i64)));
    let known: Vec<String> = known.map(|(name, most)| format!("a {name} meter of at most {most} m/(l/s)2")).collect();
    format!("{} with a service flow of at least {mean_hour} l/h would do", known.join(" or "))
}
