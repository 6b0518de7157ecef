//! Refusal 19: the list of losses against the house, and losses that no table can give.

use super::{Asked, Place, shape};
use crate::at::At;
use crate::calls::MOST_SECTIONS;
use crate::loss::{self, LOSS, MOST};
use crate::meter;
use crate::record::Record;

/// 19: the list's length, and every loss that is too great.
pub fn rules(asked: &Asked) -> Vec<Place> {
    let list = asked.losses;
    // The job was accepted; a list that is packed or shown has none beside it.
    let sections = Record::read(asked.job).ok().map(|record| record.sections.len());
    if let Some(why) = another(list, sections) {
        return vec![Place::new(At::Losses, why)];
    }
    let mut found: Vec<Place> = length(list, sections).into_iter().collect();
    // A list may be far longer than any house; what is behind that says nothing new.
    for (section, four) in (1..=MOST_SECTIONS).zip(list.chunks_exact(LOSS)) {
        let loss = u32::from_be_bytes([four[0], four[1], four[2], four[3]]);
        if loss > MOST {
            let why = format!("{loss} cm is {} cm over {MOST} cm, the most that any table can give", loss - MOST);
            found.push(Place::new(At::Loss(section), why));
        }
    }
    found
}

/// What is wrong with a list's length.
fn length(list: &[u8], sections: Option<usize>) -> Option<Place> {
    let (given, whole) = (list.len(), list.len() / LOSS);
    let rest = given % LOSS;
    if given == 0 {
        return Some(Place::new(At::Losses, format!("the file is empty: it has 0 bytes; a section's loss has {LOSS}")));
    }
    if rest != 0 {
        let why = format!("the list has {given} bytes, {LOSS} for each section: {}", shape::missing(given, LOSS));
        return Some(Place::new(At::Loss(whole + 1), why));
    }
    let counted = |sections: usize| format!("losses given: {whole}; sections of the house: {sections}");
    match sections {
        Some(sections) if whole < sections => {
            let why = format!("{}; that of section {} is the first that is missing", counted(sections), whole + 1);
            Some(Place::new(At::Losses, why))
        }
        Some(sections) if whole > sections => {
            Some(Place::new(At::Loss(sections + 1), format!("{}; there is no such section", counted(sections))))
        }
        None if whole > MOST_SECTIONS => {
            let why = format!("losses given: {whole}; a house has at most {MOST_SECTIONS} sections");
            Some(Place::new(At::Loss(MOST_SECTIONS + 1), why))
        }
        _ => None,
    }
}

/// Another file lent as the list: what else is wrong with it says nothing.
fn another(list: &[u8], sections: Option<usize>) -> Option<String> {
    let size = |byte: &u8| (1..=12).contains(byte);
    let what = match shape::stated(list) {
        _ if loss::is_list(list) => return None,
        Some(what) => what,
        None if meter::is_list(list) => "are a list of meters",
        None if sections == Some(list.len()) && list.iter().all(size) => "are a size number for each section",
        None => return None,
    };
    Some(format!("these bytes {what}; a list of losses is expected"))
}
