//! Refusals 1 to 4: the record's length, its version and the house's own fields.

use super::{Asked, Place};
use crate::at::{At, Field};
use crate::catalogue::Catalogue;
use crate::loss;
use crate::record::{self, HEAD, Record, SERVED};
use crate::service::{self, HOT};

/// 1: too short, or the stated length is another.
pub fn length(job: &[u8]) -> Vec<Place> {
    let mut found = Vec::new();
    let given = job.len();
    if given < HEAD {
        let empty = if given == 0 { "the file is empty: " } else { "" };
        found.push(Place::new(At::Job, format!("{empty}it has {given} bytes; the least is {HEAD}")));
    }
    if let Some(four) = job.first_chunk::<4>() {
        let stated = u32::from_be_bytes(*four);
        if u64::from(stated) != given as u64 {
            found.push(Place::new(
                At::Field(Field::Stated),
                format!("the record states {stated} bytes and has {given}"),
            ));
        }
    }
    found
}

/// 2: the version's byte.
pub fn version(job: &[u8]) -> Vec<Place> {
    let mut found = Vec::new();
    if let Some(version) = job.get(4).filter(|version| ![1, SERVED].contains(*version)) {
        found.push(Place::new(At::Field(Field::Version), format!("it is {version}, neither 1 nor {SERVED}")));
    }
    found
}

/// 3: each field of the house that is out of range.
pub fn ranges(job: &[u8]) -> Vec<Place> {
    if job.len() < HEAD {
        return Vec::new();
    }
    let two = |at: usize| u16::from_be_bytes([job[at], job[at + 1]]);
    let rows = [
        (Field::Losses, u16::from(job[5]), 2, 3, "tenths (0.2 or 0.3)"),
        (Field::Sections, u16::from(job[6]), 1, 63, "sections"),
        (Field::Hours, u16::from(job[7]), 1, 24, "hours a day"),
        (Field::Meter, two(8), 0, 1_000, "cm"),
        (Field::Guaranteed, two(10), 0, 6_000, "cm"),
        (Field::Delivered, two(12), 0, 6_000, "cm"),
        (Field::Limit, two(14), 1, 3_000, "mm/s"),
    ];
    let wrong = rows.iter().filter(|(_, value, least, most, _)| value < least || value > most);
    let found = wrong.map(|(field, value, least, most, unit)| {
        Place::new(At::Field(*field), format!("{value} is outside {least} to {most} {unit}"))
    });
    found.chain(no_service(job)).collect()
}

/// A service that there is not. In version 1 the byte is the first section's.
fn no_service(job: &[u8]) -> Option<Place> {
    let service = job.get(HEAD).filter(|service| job[4] == SERVED && **service > HOT)?;
    let known: Vec<String> = (0..=HOT).map(|known| format!("{known} ({})", service::name(known))).collect();
    let why = format!("{service} is none of {}", known.join(", "));
    Some(Place::new(At::Field(Field::Service), why))
}

/// 4: the length against the version and the count.
pub fn count(job: &[u8]) -> Vec<Place> {
    let mut found = Vec::new();
    if let Some(count) = job.get(6) {
        let (given, version) = (job.len(), job[4]);
        let (asked, of) = (record::length(version, *count), record::in_version(version));
        if asked != given {
            let other = the_other(version, *count, given);
            let why = format!("the record has {given} bytes; section count {count} asks for {asked}{of}{other}");
            found.push(Place::new(At::Field(Field::Sections), why));
        }
    }
    found
}

/// What is said of a length that the other version has: the service's byte is missing, or one too many is there.
fn the_other(version: u8, count: u8, given: usize) -> &'static str {
    match version {
        SERVED if given == record::length(1, count) => ", and version 1 has as many: is the service's byte missing?",
        1 if given == record::length(SERVED, count) => ", and version 2, which has a service, has as many",
        _ => "",
    }
}

/// What bytes are that state their own length, as a job record and a catalogue do: by which of them it is.
pub fn stated(bytes: &[u8]) -> Option<&'static str> {
    let whole = bytes.first_chunk::<4>().is_some_and(|four| u32::from_be_bytes(*four) as usize == bytes.len());
    match (Record::read(bytes), Catalogue::read(bytes)) {
        (Ok(_), _) if whole => Some("have the length of a job record"),
        (_, Ok(_)) if whole => Some("have the length of a catalogue"),
        _ => None,
    }
}

/// What bytes are that are the record of a list of losses.
pub fn of_losses(bytes: &[u8]) -> Option<&'static str> {
    loss::is_list(bytes).then_some("are a list of losses")
}

/// How many bytes the last of equally long parts lacks, in words.
pub fn missing(given: usize, each: usize) -> String {
    match each - given % each {
        1 => "1 is missing here".to_string(),
        lacking => format!("{lacking} are missing here"),
    }
}

/// A catalogue or a list of losses lent as a job: this place is named before the others. The layouts of a job and a catalogue never
/// have the same length for the same counts, so it is no guess. Only where a job is lent as the catalogue are the two swapped.
pub fn another(asked: &Asked) -> Option<Place> {
    if let Some(what) = of_losses(asked.job).filter(|_| Record::read(asked.job).is_err()) {
        return Some(Place::new(At::Job, format!("these bytes {what}; a job record is expected")));
    }
    let table = Catalogue::read(asked.job).is_ok_and(|table| table.stated as usize == asked.job.len());
    let what = match Record::read(asked.cat).is_ok() {
        true => "are the two files swapped?",
        false => "a job record is expected",
    };
    let why = format!("these bytes have the length of a catalogue; {what}");
    (table && Record::read(asked.job).is_err()).then(|| Place::new(At::Job, why))
}
