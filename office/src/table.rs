//! A readable table of pipe sizes (one line a row, as spreadsheets save them) and the catalogue, both ways.
//!
//! As with houses: packing refuses only what is no line of the format and what can't be written as bytes; the rules of
//! document 01 are the library's. `docs/FILES.md` describes the format.

mod odd;
mod sizes;

use crate::at::Lines;
use crate::catalogue::{Catalogue, NoCatalogue};
use crate::cells::{self, Cells};
use crate::header::{self, Column, Form};
use crate::measure::{self, Quantity};
use crate::mistake::{Mistake, Mistakes};
use crate::readable;
use odd::Odd;

/// The columns of a table; a file may have them in another order.
pub const FORM: Form = Form {
    what: "table",
    columns: &[
        Column::of("size", "", &measure::SIZE),
        Column::of("bore mm", "mm", &measure::BORE),
        Column::of("price", "", &measure::PRICE),
        Column::of("flow ml/s", "ml/s", &measure::FLOW),
        Column::of("velocity mm/s", "mm/s", &measure::SPEED),
        Column::of("slope mm/m", "mm/m", &measure::SLOPE),
    ],
    name: None,
    service: None,
};

/// A readable table as bytes, with the lines that its rows came from.
#[derive(Clone, Debug, PartialEq, Eq)]
pub struct Packed {
    pub bytes: Vec<u8>,
    pub lines: Lines,
}

/// Whether a readable file is a table: the first line that is no odd catalogue's has cells, and does not begin
/// as a house's.
pub fn is_table(text: &str) -> bool {
    let mut first = true;
    for line in readable::lines(text) {
        if first && cells::named_separator(&line).is_some() {
            return true;
        }
        first = false;
        let parted = |separator: char| Cells::of(&line, separator);
        if [',', ';', '\t'].iter().any(|separator| odd::knows(&parted(*separator))) {
            continue;
        }
        let words = line.content.trim().to_lowercase();
        return !readable::begins_a_house(&words) && words.split([',', ';', '\t']).count() > 2;
    }
    false
}

/// The catalogue of a readable table.
pub fn pack(text: &str) -> Result<Vec<u8>, Mistakes> {
    read(text).map(|packed| packed.bytes)
}

/// The catalogue of a readable table, and where each row stands in the text; or all that is wrong with it.
pub fn read(text: &str) -> Result<Packed, Mistakes> {
    let mut lines = cells::lines(text, &FORM, odd::knows)?.peekable();
    let mut odd = Odd::default();
    while let Some(line) = lines.next_if(odd::knows) {
        odd.take(&line)?;
    }
    let Some(header) = lines.next() else {
        return Err(Mistake::lacking("the file has no header line", format!("`{}`", FORM.header(','))).into());
    };
    let (columns, mut mistakes) = header::read(text, &header, &FORM)?;
    let mut given = sizes::Given::default();
    for line in lines {
        given.take(&line, &columns, &mut mistakes);
    }
    // A row that can't be read may be the one that a size lacks.
    let given = mistakes.none(given)?;
    let (sizes, rows, places) = given.sizes()?;
    let rows = odd.rows_of(&sizes, rows)?;
    let mut catalogue = Catalogue { stated: 0, version: odd.version.unwrap_or(1), rows, sizes };
    catalogue.stated = odd.stated.unwrap_or(catalogue.len() as u32);
    Ok(Packed { bytes: catalogue.bytes(), lines: places })
}

/// What a table's columns measure, and how many rows a size has.
pub fn quantities() -> Vec<Quantity> {
    sizes::quantities().collect()
}

/// The canonical text of a catalogue whose length is what its counts ask for, whatever its fields hold. Other bytes are given
/// back as [`NoCatalogue`], which says how many bytes there are and how many the counts ask for.
pub fn show(bytes: &[u8]) -> Result<String, NoCatalogue> {
    let catalogue = Catalogue::read(bytes)?;
    let mut text = odd::show(&catalogue);
    text.push_str(&FORM.header(','));
    text.push('\n');
    for (number, size) in (1..).zip(&catalogue.sizes) {
        text.push_str(&sizes::show(number, size));
    }
    Ok(text)
}
