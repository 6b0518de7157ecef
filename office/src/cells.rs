//! The lines of a table or of a list, cell by cell.

mod no_number;

use crate::header::{self, Form};
use crate::measure::{Fault, Measure};
use crate::mistake::{Mistake, Mistakes};
use crate::readable::{self, TextLine};
use no_number::Remark;
use std::borrow::Cow;

/// A line that is not blank, parted at its separators.
pub struct Cells<'a> {
    pub line: usize,
    text: &'a str,
    content: &'a str,
    pub separator: char,
    pub cells: Vec<String>,
}

/// What may part cells, and how a message names it.
pub const SEPARATORS: [(char, &str); 3] = [(';', "semicolons"), (',', "commas"), ('\t', "tabs")];

/// The separator that a spreadsheet names in the file's first line, `sep=;`; `None` in it where it is no separator.
pub fn named_separator(line: &TextLine) -> Option<Option<char>> {
    let words = line.content.trim_matches([' ', '\r', '"']).to_lowercase();
    let named = words.strip_prefix("sep=")?;
    let mut rest = named.chars();
    let separator = rest.next().filter(|c| SEPARATORS.iter().any(|(known, _)| known == c));
    Some(separator.filter(|_| rest.as_str().is_empty()))
}

/// The first line of a text, one that names a separator left aside.
pub fn first_line(text: &str) -> Option<TextLine<'_>> {
    readable::lines(text).find(|line| named_separator(line).is_none())
}

/// The one separator of a file, and how many lines stand before its cells. The separator is what a first line `sep=;` names, or
/// what parts the header into the columns of the form: with two separators in one file a number could be read as two. `above`
/// knows the lines that may stand above the header.
fn separator(text: &str, form: &Form, above: fn(&Cells) -> bool) -> Result<(char, usize), Mistake> {
    if let Some(first) = readable::lines(text).next()
        && let Some(named) = named_separator(&first)
    {
        let line = Cells::of(&first, ',');
        let expected = "`sep=;`, `sep=,` or `sep=` and a tab, or no such line";
        return named.map(|c| (c, 1)).ok_or_else(|| line.mistake("`sep=` names no separator of a table", expected));
    }
    let known = |line: &TextLine| {
        !SEPARATORS.iter().any(|(c, _)| above(&Cells::of(line, *c)) || !Cells::of(line, *c).is_filled())
    };
    let Some(line) = readable::lines(text).find(known) else { return Ok((',', 0)) };
    let whole = SEPARATORS.iter().find(|(c, _)| header::complete(&Cells::of(&line, *c), form));
    // A header with a mistake in it is read by the first separator that it has, so that the mistake can be named.
    let found = whole.or_else(|| SEPARATORS.iter().find(|(c, _)| line.content.contains(*c)));
    Ok((found.map_or(',', |(c, _)| *c), 0))
}

/// The lines of a file that hold something, cell by cell; or what is wrong with them whatever their columns are.
pub fn lines<'a>(
    text: &'a str,
    form: &Form,
    above: fn(&Cells) -> bool,
) -> Result<impl Iterator<Item = Cells<'a>> + use<'a>, Mistakes> {
    let mut mistakes = Mistakes::default();
    mistakes.extend(readable::lines(text).filter_map(|line| line.fault()));
    mistakes.none(())?;
    let (separator, from) = separator(text, form, above)?;
    let lines = move || readable::lines(text).skip(from).map(move |line| Cells::of(&line, separator));
    let mut mistakes = Mistakes::default();
    mistakes.extend(lines().filter_map(|line| line.unclosed()));
    // A line of nothing but separators is empty: spreadsheets fill short lines up with empty cells.
    mistakes.none(lines().filter(Cells::is_filled))
}

/// The cells of a line. A separator between quotation marks parts nothing. A quotation mark counts in a cell that begins with
/// one, and within it is written twice; elsewhere it may be an inch.
fn parts(line: &str, separator: char) -> Vec<&str> {
    let mut found = Vec::new();
    let (mut start, mut begun, mut quoted) = (0, false, false);
    for (at, c) in line.char_indices() {
        if c == '"' && (begun || line[start..at].trim().is_empty()) {
            (begun, quoted) = (true, !quoted);
        } else if c == separator && !quoted {
            found.push(&line[start..at]);
            (start, begun) = (at + c.len_utf8(), false);
        }
    }
    found.push(&line[start..]);
    found
}

/// The rows below a header whose first cell is none of the form's own columns, if they begin with `#`: a comment to the format, a
/// row to its author.
pub fn hidden<'a>(text: &'a str, header: &Cells) -> impl Iterator<Item = Mistake> + use<'a> {
    let (from, separator) = (header.line, header.separator);
    let row = move |line: &str| {
        let nothing = |front: &str| front.chars().all(|c| c.is_whitespace() || c == '"' || c == separator);
        line.split_once('#').is_some_and(|(front, behind)| nothing(front) && behind.contains(separator))
    };
    let mistake = |line: usize, text: &str| {
        let wrong = "`#` begins a comment here, and the header's first cell is for words or empty: it may be a row";
        Mistake::on(line, text, wrong, "no # at the start of a row; a comment without the separator of cells")
    };
    text.lines().zip(1..).skip(from).filter(move |(text, _)| row(text)).map(move |(text, line)| mistake(line, text))
}

/// No cell that is read is as long; one that is longer is cut for messages and is no number any more.
const LONGEST_CELL: usize = 60;

/// A cell without the blanks and the quotation marks around it, and with one for each two within them.
fn bare(text: &str) -> Cow<'_, str> {
    let text = text.trim();
    match text.strip_prefix('"').and_then(|text| text.strip_suffix('"')) {
        Some(within) => within.trim().replace("\"\"", "\"").into(),
        None => text.into(),
    }
}

/// A cell as it is read, in lower case.
fn cell(text: &str) -> String {
    let bare = bare(text);
    match bare.char_indices().nth(LONGEST_CELL) {
        Some((at, _)) => format!("{}...", &bare[..at]).to_lowercase(),
        None => bare.to_lowercase(),
    }
}

impl<'a> Cells<'a> {
    pub fn of(line: &TextLine<'a>, separator: char) -> Cells<'a> {
        let cells = parts(line.content, separator).into_iter().map(cell).collect();
        Cells { line: line.number, text: line.text, content: line.content, separator, cells }
    }

    /// Whether any cell holds something.
    pub fn is_filled(&self) -> bool {
        self.cells.iter().any(|cell| !cell.is_empty())
    }

    pub fn mistake(&self, wrong: impl Into<String>, expected: impl Into<String>) -> Mistake {
        Mistake::on(self.line, self.text, wrong, expected)
    }

    /// The line's text, for a message that comes later.
    pub fn text(&self) -> String {
        self.text.to_string()
    }

    /// The cell at a place, empty where the line is too short.
    pub fn at(&self, place: usize) -> &str {
        self.cells.get(place).map_or("", String::as_str)
    }

    /// The cell at a place as its author wrote it, for people.
    pub fn written(&self, place: usize) -> Cow<'a, str> {
        parts(self.content, self.separator).get(place).map_or("".into(), |cell| bare(cell))
    }

    /// Whether the cell at a place stands between quotation marks.
    pub fn is_quoted(&self, place: usize) -> bool {
        parts(self.content, self.separator).get(place).is_some_and(|cell| cell.trim_start().starts_with('"'))
    }

    /// A quotation mark that is open at the line's end. To a spreadsheet its cell goes on in the next line, which is no row then.
    fn unclosed(&self) -> Option<Mistake> {
        let parts = parts(self.content, self.separator);
        let last = parts.last()?.trim_start();
        let open = last.starts_with('"') && last.matches('"').count() % 2 == 1;
        let wrong = format!("cell {} begins with a quotation mark that is not closed in its line", parts.len());
        open.then(|| match self.content.len() < self.text.len() {
            true => {
                let wrong = format!("{wrong}: `#` begins a comment between quotation marks too");
                self.mistake(wrong, "no # in a cell, and no quotation mark before a comment")
            }
            false => self.mistake(wrong, "the cell on one line, with a quotation mark at its end"),
        })
    }

    /// The number at a place in the bytes' own unit, up to what they hold.
    pub fn number(&self, place: usize, what: &str, measure: &Measure) -> Result<i64, Mistake> {
        let (text, power) = (self.at(place), measure.decimals());
        if text.is_empty() {
            return Err(self.mistake(format!("`{what}` is empty"), measure.whole()));
        }
        let value = measure.number(text, power).map_err(|fault| {
            let (wrong, expected) = of_fault(fault, what, text, measure);
            self.mistake(wrong, self.parted(text, expected))
        })?;
        match measure.holds(value) {
            true => Ok(value),
            false => {
                let over = measure.over(value);
                let wrong = format!("`{what}` {text} is {over} more than its bytes can hold");
                Err(self.mistake(wrong, measure.whole()))
            }
        }
    }

    /// A cell with another separator in it may be a line that is parted otherwise than the file.
    fn parted(&self, text: &str, expected: String) -> String {
        let other = SEPARATORS.iter().any(|(c, _)| text.contains(*c)) && !self.text.contains('"');
        let own = SEPARATORS.iter().find(|(c, _)| *c == self.separator).map_or("", |(_, name)| name);
        if other { format!("{expected}; cells are parted by {own}, as in the file's first line") } else { expected }
    }
}

/// What is wrong with a cell's number, and what is expected: the number alone, since its unit stands in the header.
fn of_fault(fault: Fault, what: &str, text: &str, measure: &Measure) -> (String, String) {
    let (number, whole) = (measure.show(measure.example), measure.whole());
    let (wrong, expected) = measure.fault(fault, what, text, measure.decimals(), &format!("for example {number}"));
    if fault != Fault::NoNumber {
        return (wrong, expected);
    }
    let Remark { why, written } = no_number::remark(text, measure.manner.power);
    let wrong = why.map_or(wrong.clone(), |why| format!("{wrong}: {why}"));
    match written {
        Some(written) => (wrong, format!("{written}; {whole}")),
        // Some say themselves how one is written.
        None if whole.ends_with(&number) => (wrong, whole),
        None => (wrong, format!("{whole}, for example {number}")),
    }
}
