//! A readable list of losses (one line a section, as spreadsheets save them) and its record, both ways.
//!
//! As with the other files: packing refuses only what is no line of the format, what could mean two things, and what can't be
//! written as bytes; the rules of document 02 are the library's. `docs/FILES.md` describes the format.

mod rows;

use crate::at::Lines;
use crate::calls::MOST_SECTIONS;
use crate::cells::{self, Cells, SEPARATORS};
use crate::header::{self, Column, Form};
use crate::loss::{self, NoLosses};
use crate::measure::{self, Quantity};
use crate::mistake::{Mistake, Mistakes};
use crate::{meters, service, table};

/// The column that says what the losses are of.
const SERVICE: &str = "service";

const IN_METRES: Column = Column::of("loss m", "m", &measure::LOSS_IN_METRES);

/// The columns of a list; a file may have them in another order.
pub const FORM: Form = Form {
    what: "list of losses",
    columns: &[
        Column::of("section", "", &measure::OF_SECTION),
        Column::of("loss cm", "cm", &measure::LOSS).or(&IN_METRES),
    ],
    name: None,
    service: Some(SERVICE),
};

/// A readable list as bytes, with the lines of its losses, and what of the house's water they are of, where it says that: the
/// bytes have no place for it.
#[derive(Clone, Debug, PartialEq, Eq)]
pub struct Packed {
    pub bytes: Vec<u8>,
    pub lines: Lines,
    pub service: Option<u8>,
}

/// Whether a readable file is a list of losses: cells of its first line begin as both of the list's columns do, and fewer as a
/// table's or as those of a list of meters.
pub fn is_list(text: &str) -> bool {
    let Some(line) = cells::first_line(text) else { return false };
    SEPARATORS.iter().map(|(separator, _)| Cells::of(&line, *separator)).any(|line| {
        let own = header::likeness(&line, &FORM);
        own > 1 && own > header::likeness(&line, &table::FORM) && own > meters::likeness(&line)
    })
}

/// The record of a readable list.
pub fn pack(text: &str) -> Result<Vec<u8>, Mistakes> {
    read(text).map(|packed| packed.bytes)
}

/// The record of a readable list, and where each loss stands in the text; or all that is wrong with it.
pub fn read(text: &str) -> Result<Packed, Mistakes> {
    let mut lines = cells::lines(text, &FORM, |_| false)?;
    let header = FORM.header(',');
    let expected = format!("`{header}`, and below it a line for each section of the house, 1 to {MOST_SECTIONS}");
    let Some(header) = lines.next() else {
        return Err(Mistake::lacking("the file has no header line", expected).into());
    };
    let (columns, mut mistakes) = header::read(text, &header, &FORM)?;
    let mut given = rows::Given::default();
    for line in lines {
        given.take(&line, &columns, &mut mistakes);
    }
    if given.is_empty() && mistakes.is_empty() {
        mistakes.add(Mistake::lacking("the list has no loss", expected));
    }
    let packed = given.packed(&mut mistakes);
    mistakes.none(packed)
}

/// What a list's columns measure.
pub fn quantities() -> Vec<Quantity> {
    FORM.quantities().collect()
}

/// The canonical text of a list of whole losses, whatever they are. Other bytes are given back as [`NoLosses`].
pub fn show(bytes: &[u8]) -> Result<String, NoLosses> {
    show_of(bytes, None)
}

/// The same, with the line of a house that the losses are of in each row, where there is one.
pub fn show_of(bytes: &[u8], line: Option<u8>) -> Result<String, NoLosses> {
    let losses = loss::read(bytes)?;
    let [title, own] = match line {
        Some(line) => [format!(",{SERVICE}"), format!(",{}", service::name(line))],
        None => Default::default(),
    };
    let rows: String = (1..).zip(losses).map(|(section, loss): (u8, u32)| format!("{section},{loss}{own}\n")).collect();
    Ok(format!("{}{title}\n{rows}", FORM.header(',')))
}
