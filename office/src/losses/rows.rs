//! The rows of a list of losses.

use super::Packed;
use crate::at::{At, Lines};
use crate::calls::MOST_SECTIONS;
use crate::cells::Cells;
use crate::commas;
use crate::header::Columns;
use crate::loss;
use crate::measure;
use crate::mistake::{Mistake, Mistakes};
use crate::numbered::Numbered;
use crate::service;

/// The places of the columns in `FORM`.
const SECTION: usize = 0;
const LOSS: usize = 1;

/// The losses read so far, with their lines. One with a mistake in it counts too, so that it is not called missing.
#[derive(Default)]
pub struct Given {
    losses: Numbered<u32>,
    lines: Lines,
    /// What the rows so far are of, and the line of the first of them.
    service: Option<(u8, usize)>,
}

impl Given {
    pub fn is_empty(&self) -> bool {
        self.losses.is_empty()
    }

    /// Takes one row.
    pub fn take(&mut self, row: &Cells, columns: &Columns, mistakes: &mut Mistakes) {
        mistakes.extend(columns.stray(row));
        mistakes.extend(commas::doubtful(row, columns));
        mistakes.extend(columns.service.and_then(|place| self.take_service(row, place)));
        let loss = columns.number(row, LOSS).map_err(|mistake| mistakes.add(mistake)).unwrap_or(0) as u32;
        let section = section(row, columns).and_then(|section| {
            let once = self.lines.once(At::Loss(section.into()), row.line);
            once.map_err(|(wrong, expected)| row.mistake(wrong, expected)).map(|()| section)
        });
        match section {
            Ok(section) => self.losses.put(section, loss, row.line, &row.text()),
            Err(mistake) => {
                self.losses.put_unnumbered();
                mistakes.add(mistake);
            }
        }
    }

    /// Takes what a row says that its loss is of. A list is of one set's pipes, so that all rows say the same.
    fn take_service(&mut self, row: &Cells, place: usize) -> Option<Mistake> {
        let word = row.at(place);
        let Some(service) = service::named(word) else {
            let wrong = if word.is_empty() { "`service` is empty".into() } else { format!("`{word}` is no service") };
            return Some(row.mistake(wrong, format!("{}, the same in every row", service::TAKEN)));
        };
        let (first, line) = *self.service.get_or_insert((service, row.line));
        let first_name = service::name(first);
        let wrong = format!("`service` is {word} here and {first_name} in line {line}");
        (first != service)
            .then(|| row.mistake(wrong, "one service in all rows; each line of a house has a list of its own"))
    }

    /// The losses from section 1 on.
    pub fn packed(self, mistakes: &mut Mistakes) -> Packed {
        let service = self.service.map(|(service, _)| service);
        Packed { bytes: loss::bytes(&self.losses.in_order(mistakes)), lines: self.lines, service }
    }
}

/// The row's section.
fn section(row: &Cells, columns: &Columns) -> Result<u8, Mistake> {
    let number = columns.number(row, SECTION)?;
    match u8::try_from(number).ok().filter(|number| (1..=MOST_SECTIONS).contains(&usize::from(*number))) {
        Some(section) => Ok(section),
        None => {
            let expected = format!("a number from {}", measure::OF_SECTION.taken);
            Err(row.mistake(format!("`{number}` is no section's number"), expected))
        }
    }
}
