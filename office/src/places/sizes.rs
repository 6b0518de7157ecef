//! Refusals 10 and 11: the catalogue's shape, its sizes and rows.

use super::{Place, shape};
use crate::at::At;
use crate::catalogue::{Catalogue, HEAD, Row, Size, length};
use crate::record::Record;

/// 10: length, version and counts.
pub fn shape(cat: &[u8]) -> Vec<Place> {
    if let Some(what) = shape::of_losses(cat).filter(|_| Catalogue::read(cat).is_err()) {
        return vec![Place::new(At::Catalogue, format!("these bytes {what}; a catalogue is expected"))];
    }
    let given = cat.len();
    if given < HEAD {
        let empty = if given == 0 { "the file is empty: " } else { "" };
        return vec![Place::new(At::Catalogue, format!("{empty}it has {given} bytes; the least is {HEAD}"))];
    }
    let (version, sizes, rows) = (cat[4], cat[5], cat[6]);
    let stated = u32::from_be_bytes([cat[0], cat[1], cat[2], cat[3]]);
    let asked = length(sizes, rows);
    let faults = [
        (version != 1, format!("version {version} is not 1")),
        (!(1..=12).contains(&sizes), format!("size count {sizes} is outside 1 to 12")),
        (!(2..=64).contains(&rows), format!("row count {rows} is outside 2 to 64")),
        (u64::from(stated) != given as u64, format!("it states {stated} bytes and has {given}")),
        (asked != given, format!("it has {given} bytes; size count {sizes} and row count {rows} ask for {asked}")),
        (
            asked != given && Record::read(cat).is_ok(),
            "these bytes have the length of a job record; a catalogue is expected".to_string(),
        ),
    ];
    faults.into_iter().filter(|(wrong, _)| *wrong).map(|(_, why)| Place::new(At::Catalogue, why)).collect()
}

/// 11: every rule that a size or a row breaks.
pub fn rules(cat: &[u8]) -> Vec<Place> {
    let Ok(catalogue) = Catalogue::read(cat) else { return Vec::new() };
    let mut found = Vec::new();
    let mut before: Option<&Size> = None;
    for (number, size) in (1..=255).zip(&catalogue.sizes) {
        found.extend(own(size, before).into_iter().map(|why| Place::new(At::Size(number), why)));
        let mut above: Option<&Row> = None;
        for (place, row) in (1..=255).zip(&size.rows) {
            found.extend(of_row(row, above).into_iter().map(|why| Place::new(At::Row(number, place), why)));
            above = Some(row);
        }
        before = Some(size);
    }
    found
}

/// Bore and price.
fn own(size: &Size, before: Option<&Size>) -> Vec<String> {
    let Size { bore, price, .. } = size;
    let mut broken = Vec::new();
    if *bore == 0 {
        broken.push("bore 0 mm; the least is 1".to_string());
    }
    if let Some(before) = before.filter(|before| before.bore >= *bore) {
        broken.push(format!("bore {bore} mm is not over the size before's {} mm", before.bore));
    }
    if !(1..=10_000).contains(price) {
        broken.push(format!("price {price} is outside 1 to 10000"));
    }
    broken
}

/// A row on its own and against the row above it.
fn of_row(row: &Row, above: Option<&Row>) -> Vec<String> {
    let mut broken = Vec::new();
    if !(1..=1_000_000).contains(&row.flow) {
        broken.push(format!("flow {} ml/s is outside 1 to 1000000", row.flow));
    }
    let columns = [("velocity", row.velocity, "mm/s"), ("slope", row.slope, "mm/m")];
    for (what, value, unit) in columns {
        if value == 0 {
            broken.push(format!("{what} 0 {unit}; the least is 1"));
        }
    }
    let Some(above) = above else { return broken };
    if row.flow <= above.flow {
        broken.push(format!("flow {} ml/s is not over the row before's {} ml/s", row.flow, above.flow));
    }
    for ((what, value, unit), before) in columns.into_iter().zip([above.velocity, above.slope]) {
        if value < before {
            broken.push(format!("{what} {value} {unit} is below the row before's {before} {unit}"));
        }
    }
    broken
}
