//! Names and notes that may be parts of numbers: where commas part the cells, a comma within a number makes two cells of it, and
//! the number would be another without a word.

use crate::cells::Cells;
use crate::header::Columns;
use crate::measure::Measure;
use crate::mistake::Mistake;

/// A name or a note of a row that may be a part of a number.
pub fn doubtful(row: &Cells, columns: &Columns) -> Option<Mistake> {
    let places = columns.words().filter(|_| row.separator == ',');
    places.map(|place| Words { row, columns, place }).find_map(|words| words.pushed().or_else(|| words.joined()))
}

/// A name or a note.
struct Words<'a, 'b> {
    row: &'a Cells<'b>,
    columns: &'a Columns,
    place: usize,
}

impl Words<'_, '_> {
    fn cell(&self) -> &str {
        self.row.at(self.place)
    }

    /// A number alone behind a column of numbers: a comma in one of these may have pushed the cells on.
    fn pushed(&self) -> Option<Mistake> {
        let behind = self.columns.measures().any(|(place, _)| place < self.place);
        let wrong = format!(
            "`{}` stands where words are expected, behind numbers: a comma may stand in one of these",
            self.cell()
        );
        let expected = "a point before decimals and nothing between thousands; a name or note with a letter in it";
        (behind && is_number(self.cell())).then(|| self.row.mistake(wrong, expected))
    }

    /// Digits right behind or right before a whole number: with the comma between them the two may be one. Quotation marks hold
    /// a cell together.
    fn joined(&self) -> Option<Mistake> {
        let cell = self.cell();
        let (one, side, words) = match (self.with_the_number_before(), self.with_the_number_behind()) {
            _ if self.row.is_quoted(self.place) => return None,
            (Some(one), _) => (one, "behind", format!("a letter before its digits, as `no {cell}`")),
            (None, Some(one)) => (one, "before", format!("a letter behind its digits, as `{cell} a`")),
            (None, None) => return None,
        };
        let wrong = format!("`{cell}` stands right {side} a number without a point: the two may be one, {one}");
        let expected = format!(
            "a point before decimals and nothing between thousands; in a name or a note {words}, or quotation marks around \
             it; or cells parted by semicolons"
        );
        Some(self.row.mistake(wrong, expected))
    }

    /// The cell at a place that has a number without a point, and what is measured there.
    fn whole(&self, place: Option<usize>) -> Option<(&str, &'static Measure)> {
        let (_, measure) = self.columns.measures().find(|(of, _)| Some(*of) == place)?;
        let number = self.row.at(place?);
        (!number.is_empty() && !number.contains('.')).then_some((number, measure))
    }

    fn with_the_number_before(&self) -> Option<String> {
        let (number, _) = self.whole(self.place.checked_sub(1))?;
        let digits: String = behind_signs(self.cell()).chars().take_while(char::is_ascii_digit).collect();
        (!digits.is_empty()).then(|| format!("{number},{digits}"))
    }

    /// A name such as `DN 32` is no part of a resistance, which would be over what a list holds.
    fn with_the_number_behind(&self) -> Option<String> {
        let (number, measure) = self.whole(Some(self.place + 1))?;
        if is_number(self.cell()) {
            return Some(format!("{},{number}", behind_signs(self.cell())));
        }
        let (_, digits) = self.cell().split_at(self.cell().trim_end_matches(|c: char| c.is_ascii_digit()).len());
        let joined = measure.number(&format!("{digits}.{number}"), measure.decimals());
        let held = measure.decimals() > 0 && joined.is_ok_and(|value| measure.holds(value));
        held.then(|| format!("{digits},{number}"))
    }
}

/// A cell from its first letter or digit on.
fn behind_signs(cell: &str) -> &str {
    cell.trim_start_matches(|c: char| !c.is_alphanumeric())
}

/// Whether a cell is a number alone, signs before it left aside.
fn is_number(cell: &str) -> bool {
    let number = behind_signs(cell);
    number.starts_with(|c: char| c.is_ascii_digit())
        && number.chars().all(|c| c.is_ascii_digit() || c == '.' || c.is_whitespace())
}
