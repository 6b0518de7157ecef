//! Refusals 5, 6 and 7: the sections' own rules, childless junctions, residents without fixtures and the reverse.

use super::Place;
use crate::at::At;
use crate::kinds;
use crate::record::{Record, Section};

/// 5: every rule that a section breaks.
pub fn rules(job: &[u8]) -> Vec<Place> {
    let Ok(record) = Record::read(job) else { return Vec::new() };
    let mut found = Vec::new();
    for (number, section) in record.numbered() {
        let mut broken: Vec<String> = parent(&record, number, section).into_iter().collect();
        broken.extend(taps(section));
        broken.extend(outside("length", i64::from(section.length), 1, 5_000, "dm"));
        broken.extend(outside("elevation", i64::from(section.elevation), -1_000, 6_000, "cm"));
        broken.extend(outside("free head", i64::from(section.free), 0, 1_000, "cm"));
        found.extend(broken.into_iter().map(|why| Place::new(At::Section(number), why)));
    }
    found
}

fn outside(what: &str, value: i64, least: i64, most: i64, unit: &str) -> Option<String> {
    (value < least || value > most).then(|| format!("{what} {value} {unit} is outside {least} to {most} {unit}"))
}

/// The rule of parents: a lower number, or the pump.
fn parent(record: &Record, number: u8, section: &Section) -> Option<String> {
    if section.parent < number {
        return None;
    }
    let parent = section.parent;
    if parent == number {
        return Some("it hangs from itself".to_string());
    }
    if usize::from(parent) > record.sections.len() {
        let last = record.sections.len();
        return Some(format!("it hangs from section {parent}, but the last section is {last}"));
    }
    Some(match circle(record, number) {
        Some(circle) => format!("it hangs from section {parent}, and sections {circle} hang in a circle"),
        None => format!("it hangs from section {parent}; a parent has a lower number, so number from the pump outward"),
    })
}

/// The sections met from parent to parent until the first one comes again, if it does.
fn circle(record: &Record, number: u8) -> Option<String> {
    let mut met = vec![number.to_string()];
    let mut at = number;
    for _ in 0..record.sections.len() {
        let section = record.sections.get(usize::from(at).checked_sub(1)?)?;
        at = section.parent;
        if at == number {
            return Some(met.join(", "));
        }
        met.push(at.to_string());
    }
    None
}

/// The rules that tie kind, fixtures and free head.
fn taps(section: &Section) -> Vec<String> {
    let mut broken = Vec::new();
    let Section { kind, fixtures, free, .. } = *section;
    if kind > kinds::KINDS {
        broken.push(format!("kind {kind} is none of 0 to {}", kinds::KINDS));
    }
    if kind == 0 && fixtures != 0 {
        broken.push(format!("kind none goes with no fixtures, and it has {fixtures}"));
    }
    if kind == 0 && free != 0 {
        broken.push(format!("kind none goes with free head 0, and it has {free} cm"));
    }
    if kind != 0 && fixtures == 0 {
        broken.push(format!("kind {} goes with at least one fixture", kinds::name(kind)));
    }
    broken
}

/// 6: junctions at which nothing hangs.
pub fn childless(job: &[u8]) -> Vec<Place> {
    let Ok(record) = Record::read(job) else { return Vec::new() };
    let childless = |number: u8| record.sections.iter().all(|section| section.parent != number);
    let why = "no section hangs from it, and it has kind none: a pipe's last end needs fixtures";
    let ends = record.numbered().filter(|(number, section)| section.kind == 0 && childless(*number));
    ends.map(|(number, _)| Place::new(At::Section(number), why)).collect()
}

/// 7: kinds with residents and no fixtures, or the reverse.
pub fn residents(job: &[u8]) -> Vec<Place> {
    let Ok(record) = Record::read(job) else { return Vec::new() };
    let mut found = Vec::new();
    for (kind, residents) in (1..).zip(record.residents) {
        let fixtures = record.fixtures(kind);
        if residents != 0 && fixtures == 0 {
            let why = format!("{residents} given, but no section has fixtures of this kind");
            found.push(Place::new(At::Residents(kind), why));
        }
        if residents == 0 && fixtures != 0 {
            let ends: Vec<String> =
                record.numbered().filter(|(_, s)| s.kind == kind).map(|(number, _)| number.to_string()).collect();
            let why = format!("none given, but the house has {fixtures} of its fixtures (section {})", ends.join(", "));
            found.push(Place::new(At::Residents(kind), why));
        }
    }
    found
}
