//! A readable list of meters (one line a meter, as spreadsheets save them) and its record, both ways.
//!
//! As with houses and tables: packing refuses only what is no line of the format, what could mean two things, and what can't
//! be written as bytes; the rules of document 02 are the library's. `docs/FILES.md` describes the format.

mod rows;

use crate::at::Lines;
use crate::cells::{self, Cells, SEPARATORS};
use crate::header::{self, Column, Form};
use crate::measure::{self, Quantity};
use crate::meter::{self, Meter, NoMeters};
use crate::mistake::{Mistake, Mistakes};
use crate::{readable, table};

/// The columns of a list; a file may have them in another order. Resistances have decimals and service flows have none, so
/// that the one can't be taken for the other.
pub const FORM: Form = Form {
    what: "list of meters",
    columns: &[
        Column::words("type"),
        Column::of("resistance m/(l/s)2", "m/(l/s)2", &measure::RESISTANCE),
        Column::of("service flow l/h", "l/h", &measure::SERVICE),
    ],
    name: Some("name"),
    service: None,
};

/// A readable list as bytes, with the lines of its meters and the names that it has for them, empty where there is none.
#[derive(Clone, Debug, PartialEq, Eq)]
pub struct Packed {
    pub bytes: Vec<u8>,
    pub lines: Lines,
    pub names: Vec<String>,
}

/// Whether a readable file is a list of meters: its first line has more cells that begin as a list's columns than as a table's,
/// or a meter's type among its cells.
pub fn is_list(text: &str) -> bool {
    let Some(line) = cells::first_line(text) else { return false };
    let house = readable::begins_a_house(line.content);
    SEPARATORS.iter().map(|(separator, _)| Cells::of(&line, *separator)).filter(|line| line.cells.len() > 1).any(
        |line| {
            let own = likeness(&line) + usize::from(has_type(&line));
            own > header::likeness(&line, &table::FORM) + usize::from(house)
        },
    )
}

/// How many cells of a line begin as the list's columns do. A `service` without its flow is none where it stands alone: a list of
/// losses has such a column, and a house such a line.
pub fn likeness(line: &Cells) -> usize {
    let bare = |cell: &String| cell.strip_prefix("service").is_some_and(|rest| !rest.trim_start().starts_with("flow"));
    match header::likeness(line, &FORM) {
        1 if line.cells.iter().any(bare) => 0,
        alike => alike,
    }
}

/// Whether a cell of a line is a meter's type, as in a row and not in a header.
fn has_type(line: &Cells) -> bool {
    line.cells.iter().any(|cell| meter::design(cell).is_some())
}

/// The record of a readable list.
pub fn pack(text: &str) -> Result<Vec<u8>, Mistakes> {
    read(text).map(|packed| packed.bytes)
}

/// The record of a readable list, and where each meter stands in the text; or all that is wrong with it.
pub fn read(text: &str) -> Result<Packed, Mistakes> {
    let mut lines = cells::lines(text, &FORM, |_| false)?;
    let expected = format!("`{}`, and below it a line for each meter, 1 to {}", FORM.header(','), meter::MOST);
    let Some(header) = lines.next() else {
        return Err(Mistake::lacking("the file has no header line", expected).into());
    };
    if has_type(&header) {
        return Err(header.mistake("a meter stands where the header should be", expected).into());
    }
    let (columns, mut mistakes) = header::read(text, &header, &FORM)?;
    let mut given = rows::Given::default();
    for line in lines {
        given.take(&line, &columns, &mut mistakes);
    }
    if given.is_empty() && mistakes.is_empty() {
        mistakes.add(Mistake::lacking("the list has no meter", expected));
    }
    mistakes.none(given.packed())
}

/// What a list's columns measure.
pub fn quantities() -> Vec<Quantity> {
    FORM.quantities().collect()
}

/// The canonical text of a list of whole meters, whatever their fields hold. Other bytes are given back as [`NoMeters`].
pub fn show(bytes: &[u8]) -> Result<String, NoMeters> {
    let meters = meter::read(bytes)?;
    Ok(format!("{}\n{}", FORM.header(','), meters.iter().map(shown).collect::<String>()))
}

/// The line of a meter.
fn shown(meter: &Meter) -> String {
    let resistance = measure::RESISTANCE.show(meter.resistance.into());
    format!("{},{resistance},{}\n", meter::name(meter.design), meter.service)
}
