//! The rows of a table, gathered into sizes.

use super::FORM;
use crate::at::{At, Lines};
use crate::catalogue::{Row, Size};
use crate::cells::Cells;
use crate::commas;
use crate::header::Columns;
use crate::measure::{self, Quantity};
use crate::mistake::{Mistake, Mistakes};
use std::collections::BTreeMap;

/// The quantities of the columns, and the count of rows that a size has.
pub fn quantities() -> impl Iterator<Item = Quantity> {
    FORM.quantities().chain([Quantity::new("rows of a size", &measure::ROWS)])
}

/// The sizes read so far, with the lines of their rows and, for messages, the first line.
#[derive(Default)]
pub struct Given {
    sizes: BTreeMap<u8, Part>,
    /// The size of the row before, which a row without one goes on with.
    last: Option<u8>,
}

struct Part {
    size: Size,
    /// Bore and price of the first line, where they can be read; the rows below are compared with them.
    stated: [Option<i64>; 2],
    lines: Vec<usize>,
    text: String,
}

/// Sizes from 1 on, rows of each, and the lines.
type Gathered = (Vec<Size>, u8, Lines);

/// A line of the table under its columns.
struct Under<'a, 'b> {
    line: &'a Cells<'b>,
    columns: &'a Columns,
}

impl Under<'_, '_> {
    fn empty(&self, column: usize) -> bool {
        self.line.at(self.columns.places[column]).is_empty()
    }

    fn number(&self, column: usize) -> Result<i64, Mistake> {
        self.columns.number(self.line, column)
    }

    /// The number, or a mistake that is noted.
    fn noted(&self, column: usize, mistakes: &mut Mistakes) -> Option<i64> {
        self.number(column).map_err(|mistake| mistakes.add(mistake)).ok()
    }
}

impl Given {
    /// Takes one row. Rows of a size keep their order; the sizes may come in any.
    pub fn take(&mut self, line: &Cells, columns: &Columns, mistakes: &mut Mistakes) {
        let row = Under { line, columns };
        mistakes.extend(columns.stray(line));
        mistakes.extend(commas::doubtful(line, columns));
        let size = match self.size(&row) {
            Ok(size) => size,
            Err(mistake) => {
                mistakes.add(mistake);
                (1..6).filter(|column| !row.empty(*column)).for_each(|column| {
                    row.noted(column, mistakes);
                });
                return;
            }
        };
        self.last = Some(size);
        self.start(&row, size, mistakes);
        let part = self.sizes.get_mut(&size).expect("the size was started");
        part.lines.push(line.line);
        if let Err(mistake) = part.takes_row(&row, size, mistakes) {
            mistakes.add(mistake);
        }
    }

    /// The row's size: its own, or where the cell is empty that of the row before.
    fn size(&self, row: &Under) -> Result<u8, Mistake> {
        match self.last {
            Some(last) if row.empty(0) => Ok(last),
            _ => match row.number(0)? {
                0 => Err(row.line.mistake("sizes number from 1", "a size from 1 to 12")),
                size => Ok(size as u8),
            },
        }
    }

    /// Bore and price stand on a size's first line; further lines may leave them out, and if not they must agree.
    fn start(&mut self, row: &Under, size: u8, mistakes: &mut Mistakes) {
        let Some(part) = self.sizes.get(&size) else {
            let stated = [1, 2].map(|column| row.noted(column, mistakes));
            let [bore, price] = stated.map(|value| value.unwrap_or(0) as u16);
            let kept = Size { bore, price, rows: Vec::new() };
            self.sizes.insert(size, Part { size: kept, stated, lines: Vec::new(), text: row.line.text() });
            return;
        };
        for (column, stated) in (1..).zip(part.stated).filter(|(column, _)| !row.empty(*column)) {
            let Some((value, kept)) = row.noted(column, mistakes).zip(stated) else { continue };
            if value != kept {
                let name = FORM.columns[column].title;
                let wrong = format!("size {size} has another {name} here than on line {}", part.lines[0]);
                let expected = format!("{kept}, or the cell left empty; another size has its own number");
                mistakes.add(row.line.mistake(wrong, expected));
            }
        }
    }

    /// The sizes from 1 on, without a gap and with equally many rows: the record has one count of rows for all.
    pub fn sizes(self) -> Result<Gathered, Mistakes> {
        let last = self.sizes.keys().last().copied().unwrap_or(0);
        let rows = self.sizes.values().next().map_or(0, |part| part.size.rows.len());
        let mut mistakes = Mistakes::default();
        let mut sizes = Vec::new();
        let mut places = Lines::default();
        for (wanted, (number, part)) in (1..=255).zip(self.sizes) {
            let mistake = |wrong: String, expected: String| Mistake::on(part.lines[0], &part.text, wrong, expected);
            if number != wanted {
                let wrong = format!("size {wanted} is missing: this line is size {number}");
                mistakes.add(mistake(wrong, format!("sizes number from 1 to {last} without a gap")));
                return Err(mistakes);
            }
            if part.size.rows.len() != rows {
                let wrong =
                    format!("size {number} has {}, but size 1 has {}", counted(part.size.rows.len()), counted(rows));
                mistakes.add(mistake(wrong, "equally many rows for each size".to_string()));
            }
            for (row, line) in (1..=255).zip(&part.lines) {
                places.note(At::Row(number, row), *line);
            }
            sizes.push(part.size);
        }
        mistakes.none((sizes, rows as u8, places))
    }
}

impl Part {
    /// Takes flow, velocity and slope. A size without rows has one line without them.
    fn takes_row(&mut self, row: &Under, size: u8, mistakes: &mut Mistakes) -> Result<(), Mistake> {
        let bare = (3..6).all(|column| row.empty(column));
        if bare && self.lines.len() == 1 {
            return Ok(());
        }
        if self.size.rows.len() == 255 {
            let wrong = format!("size {size} has more rows than the count's byte holds");
            return Err(row.line.mistake(wrong, "2 to 64 rows"));
        }
        if self.size.rows.len() + 1 != self.lines.len() {
            let wrong = format!("size {size} has a line without flow, velocity and slope before this one");
            return Err(row.line.mistake(wrong, "a size without rows has one line only"));
        }
        let [flow, velocity, slope] = [3, 4, 5].map(|column| row.noted(column, mistakes).unwrap_or(0));
        self.size.rows.push(Row { flow: flow as u32, velocity: velocity as u16, slope: slope as u16 });
        Ok(())
    }
}

fn counted(rows: usize) -> String {
    if rows == 1 { "1 row".to_string() } else { format!("{rows} rows") }
}

/// The lines of a size. A size without rows has one line with its last cells empty.
pub fn show(number: u8, size: &Size) -> String {
    let front = format!("{number},{},{}", size.bore, size.price);
    if size.rows.is_empty() {
        return format!("{front},,,\n");
    }
    size.rows.iter().map(|row| format!("{front},{},{},{}\n", row.flow, row.velocity, row.slope)).collect()
}
