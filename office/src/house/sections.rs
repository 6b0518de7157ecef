//! The lines of the sections, in any order, each with its number.

use super::head::once;
use crate::at::{At, Lines};
use crate::kinds;
use crate::line::Line;
use crate::measure::{self, Measure, Quantity};
use crate::mistake::{Mistake, Mistakes};
use crate::numbered::Numbered;
use crate::record::{Record, Section};

/// The words that begin a field of a section.
const WORDS: [&str; 6] = ["from", "length", "elevation", "kind", "fixtures", "free"];
/// What each of these words measures; a parent and a kind are no quantities.
const MEASURES: [Option<&Measure>; WORDS.len()] =
    [None, Some(&measure::LENGTH), Some(&measure::ELEVATION), None, Some(&measure::COUNT), Some(&measure::FREE)];
const EXAMPLE: &str = "section 2 from 1 length 12.5 m elevation 600 cm kind hotel-75 fixtures 8 free 200 cm";

/// The sections read so far.
#[derive(Default)]
pub struct Given {
    sections: Numbered<Section>,
}

impl Given {
    /// Takes a line that begins with `section`. With a mistake in it the section is there all the same, so that it is not
    /// called missing too.
    pub fn take(&mut self, line: &mut Line, places: &mut Lines, mistakes: &mut Mistakes) {
        let number = match number(line) {
            Ok(number) => number,
            Err(mistake) => {
                self.sections.put_unnumbered();
                return mistakes.add(mistake);
            }
        };
        if let Err(mistake) = once(line, places, At::Section(number)) {
            return mistakes.add(mistake);
        }
        let section = fields(line, mistakes);
        self.sections.put(number, section, line.number, line.text);
    }

    /// The sections from 1 on, without a gap.
    pub fn sections(self, mistakes: &mut Mistakes) -> Vec<Section> {
        self.sections.in_order(mistakes)
    }
}

/// The section's own number.
fn number(line: &mut Line) -> Result<u8, Mistake> {
    let Some(word) = line.word() else {
        return Err(line.mistake("`section` has no number", format!("for example `{EXAMPLE}`")));
    };
    match word.parse::<u8>() {
        Ok(number) if number > 0 && word.bytes().all(|b| b.is_ascii_digit()) => Ok(number),
        _ => {
            let expected = format!("a number from {}", measure::SECTION.taken);
            Err(line.mistake(format!("`{word}` is no section's number"), expected))
        }
    }
}

/// The fields in any order, each once. Behind a mistake it goes on with the next field.
fn fields(line: &mut Line, mistakes: &mut Mistakes) -> Section {
    let mut section = Section::default();
    let mut seen = [false; WORDS.len()];
    let mut unknown = false;
    while let Some(word) = line.word() {
        let found = WORDS.iter().position(|known| *known == word);
        let taken = match found {
            None => {
                unknown = true;
                Err(line.mistake(format!("`{word}` is no field of a section"), format!("one of: {}", WORDS.join(", "))))
            }
            Some(place) if seen[place] => {
                Err(line.mistake(format!("`{word}` is given twice"), format!("one `{word}` for each section")))
            }
            Some(place) => field(line, place, &mut section),
        };
        if let Some(place) = found {
            seen[place] = true;
        }
        if let Err(mistake) = taken {
            mistakes.add(mistake);
            line.skip_to(&WORDS);
        }
    }
    // A word that is no field may be the one that is missing, spelt otherwise.
    if !unknown && let Err(mistake) = complete(line, &section, &seen) {
        mistakes.add(mistake);
    }
    section
}

/// The field at a place of `WORDS`.
fn field(line: &mut Line, place: usize, section: &mut Section) -> Result<(), Mistake> {
    let value = match MEASURES[place] {
        Some(measure) => line.quantity(WORDS[place], measure, &WORDS)?,
        None => 0,
    };
    match place {
        0 => section.parent = parent(line)?,
        1 => section.length = value as u16,
        2 => section.elevation = value as i16,
        3 => section.kind = kind(line)?,
        4 => section.fixtures = value as u16,
        _ => section.free = value as u16,
    }
    Ok(())
}

/// A junction may leave out fixtures and free head, which are 0 there. Elsewhere nothing has a value that nobody wrote.
fn complete(line: &Line, section: &Section, seen: &[bool; WORDS.len()]) -> Result<(), Mistake> {
    let junction = seen[3] && section.kind == 0;
    for (word, seen) in WORDS.iter().zip(seen) {
        let spared = junction && matches!(*word, "fixtures" | "free");
        if !seen && !spared {
            let expected =
                format!("for example `{EXAMPLE}`; a junction has `kind none` and needs no fixtures and free");
            return Err(line.mistake(format!("the section has no `{word}`"), expected));
        }
    }
    Ok(())
}

fn parent(line: &mut Line) -> Result<u8, Mistake> {
    let expected = "`from pump`, or `from` and the number of the section before, 1 to 62";
    match line.word() {
        None => Err(line.mistake("`from` names nothing", expected)),
        Some(word) if word == "pump" => Ok(0),
        Some(word) => match word.parse::<u8>() {
            Ok(parent) if word.bytes().all(|b| b.is_ascii_digit()) => Ok(parent),
            _ => Err(line.mistake(format!("`from {word}` names no section"), expected)),
        },
    }
}

fn kind(line: &mut Line) -> Result<u8, Mistake> {
    let expected = format!("one of: {}", kinds::names_from(0));
    match line.word() {
        None => Err(line.mistake("`kind` names nothing", expected)),
        Some(word) => {
            kinds::kind(&word).ok_or_else(|| line.mistake(format!("`{word}` is no kind of consumer"), expected))
        }
    }
}

/// The quantities of a section's line.
pub fn quantities() -> impl Iterator<Item = Quantity> {
    let fields = WORDS.iter().zip(MEASURES).filter_map(|(word, measure)| Some(Quantity::new(word, measure?)));
    [Quantity::new("section", &measure::SECTION)].into_iter().chain(fields)
}

/// The section lines with their columns in line.
pub fn show(record: &Record) -> String {
    let rows: Vec<[String; 7]> = record.numbered().map(|(number, section)| cells(number, section)).collect();
    let width = |column: usize| rows.iter().map(|row| row[column].chars().count()).max().unwrap_or(0);
    let [number, from, length, elevation, kind, fixtures, free] = [0, 1, 2, 3, 4, 5, 6].map(width);
    let mut text = String::new();
    for row in &rows {
        let line = format!(
            "section {:>number$}  from {:<from$}  length {:>length$}  elevation {:>elevation$}  kind {:<kind$}",
            row[0], row[1], row[2], row[3], row[4]
        );
        let taps = match row[5].is_empty() {
            true => String::new(),
            false => format!("  fixtures {:>fixtures$}  free {:>free$}", row[5], row[6]),
        };
        text.push_str(format!("{line}{taps}").trim_end());
        text.push('\n');
    }
    text
}

/// Number, parent, length, elevation, kind, and fixtures and free head, which a plain junction doesn't show.
fn cells(number: u8, section: &Section) -> [String; 7] {
    let junction = section.kind == 0 && section.fixtures == 0 && section.free == 0;
    let taps = |text: String| if junction { String::new() } else { text };
    [
        number.to_string(),
        if section.parent == 0 { "pump".to_string() } else { section.parent.to_string() },
        measure::LENGTH.show(section.length.into()),
        measure::ELEVATION.show(section.elevation.into()),
        kinds::name(section.kind),
        taps(section.fixtures.to_string()),
        taps(measure::FREE.show(section.free.into())),
    ]
}
