//! Lines above the header that only an odd catalogue has: those that are not what packing would write.

use crate::catalogue::{Catalogue, Size};
use crate::cells::Cells;
use crate::measure;
use crate::mistake::Mistake;

const NAMES: [&str; 3] = ["stated length", "version", "rows"];

#[derive(Default)]
pub struct Odd {
    pub stated: Option<u32>,
    pub version: Option<u8>,
    rows: Option<(u8, usize)>,
}

/// A name of such a line and one number, with nothing else but empty cells behind them.
pub fn knows(line: &Cells) -> bool {
    let filled = line.cells.iter().rposition(|cell| !cell.is_empty()).map_or(0, |last| last + 1);
    filled == 2 && NAMES.contains(&line.cells[0].as_str())
}

impl Odd {
    pub fn take(&mut self, line: &Cells) -> Result<(), Mistake> {
        let name = line.cells[0].as_str();
        let given = [self.stated.is_some(), self.version.is_some(), self.rows.is_some()];
        if NAMES.iter().zip(given).any(|(known, given)| *known == name && given) {
            return Err(line.mistake(format!("`{name}` is given twice"), "one such line"));
        }
        match name {
            "stated length" => self.stated = Some(line.number(1, name, &measure::STATED)? as u32),
            "version" => self.version = Some(line.number(1, name, &measure::VERSION)? as u8),
            _ => self.rows = Some((line.number(1, name, &measure::ROWS)? as u8, line.line)),
        }
        Ok(())
    }

    /// A table without sizes has no rows to count, so only there a line may say what the count's byte holds.
    pub fn rows_of(&self, sizes: &[Size], counted: u8) -> Result<u8, Mistake> {
        match self.rows {
            Some((given, _)) if sizes.is_empty() => Ok(given),
            Some((given, line)) if given != counted => Err(Mistake::on(
                line,
                &format!("rows,{given}"),
                format!("the line `rows` says {given}, but each size has {counted} rows"),
                "no line `rows`: the rows are counted",
            )),
            _ => Ok(counted),
        }
    }
}

/// The lines of a catalogue that is not what packing would write.
pub fn show(catalogue: &Catalogue) -> String {
    let mut text = String::new();
    if catalogue.stated as usize != catalogue.len() {
        text.push_str(&format!("stated length,{}\n", catalogue.stated));
    }
    if catalogue.version != 1 {
        text.push_str(&format!("version,{}\n", catalogue.version));
    }
    if catalogue.sizes.is_empty() && catalogue.rows != 0 {
        text.push_str(&format!("rows,{}\n", catalogue.rows));
    }
    text
}
