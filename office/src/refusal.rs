//! The table of refusals, 1 to 16 of document 01 and from 17 on of document 02, as an error type with a sentence for each number.

mod rows;

use rows::{ROWS, Row};
use std::fmt;

/// Why an order is refused. The numbers are those of documents 01 and 02; `rows.rs` has the words for each.
#[derive(Clone, Copy, Debug, PartialEq, Eq, Hash)]
pub enum Refusal {
    /// 1
    JobLength,
    /// 2
    JobVersion,
    /// 3
    HeaderRange,
    /// 4
    SectionBytes,
    /// 5
    SectionRules,
    /// 6
    ChildlessKind,
    /// 7
    Residents,
    /// 8
    DemandOverTable,
    /// 9
    DemandOverFixtures,
    /// 10
    CatalogueShape,
    /// 11
    CatalogueRules,
    /// 12
    SizeList,
    /// 13
    SizeTooSmall,
    /// 14
    ResultShort,
    /// 15
    WorkShort,
    /// 16
    NoSuitableList,
    /// 17
    MeterList,
    /// 18
    NoMeter,
    /// 19
    LossList,
    /// 20
    NotHot,
    /// 21
    HeatRange,
    /// A number that this program's table does not have, kept as it came: a newer library may refuse for a new reason, and
    /// the caller must still see that it refused, and with which number.
    Unknown(u32),
}

use Refusal::*;

impl Refusal {
    /// All refusals, in the order of their numbers.
    pub fn all() -> impl Iterator<Item = Refusal> {
        ROWS.iter().map(|row| row.refusal)
    }

    /// The refusal with this number: `None` for 0, which is a result, and `Unknown(n)` for a number that the table does not
    /// have, so that no refusal is lost.
    pub fn from_number(n: u32) -> Option<Refusal> {
        let place = n.checked_sub(1)?;
        Some(ROWS.get(place as usize).map_or(Unknown(n), |row| row.refusal))
    }

    fn row(&self) -> Option<(u32, &'static Row)> {
        (1..).zip(ROWS).find(|(_, row)| row.refusal == *self)
    }

    /// The paper's number.
    pub fn number(&self) -> u32 {
        match self {
            Unknown(n) => *n,
            known => known.row().expect("every refusal but Unknown has a row").0,
        }
    }

    /// What it means, in full sentences, without the number.
    pub fn text(&self) -> &'static str {
        self.row().map_or(UNKNOWN, |(_, row)| row.text)
    }

    /// The same for people who lay pipes.
    pub fn plain(&self) -> &'static str {
        self.row().map_or(UNKNOWN, |(_, row)| row.plain)
    }

    /// What usually leads to it, a sentence each.
    pub fn causes(&self) -> &'static [&'static str] {
        self.row().map_or(&[], |(_, row)| row.causes)
    }

    /// What to try, a sentence each.
    pub fn remedies(&self) -> &'static [&'static str] {
        self.row().map_or(&[], |(_, row)| row.remedies)
    }
}

const UNKNOWN: &str = "The library refused the order with a number that this program does not know. The library is probably \
    newer than the program.";

impl fmt::Display for Refusal {
    fn fmt(&self, f: &mut fmt::Formatter) -> fmt::Result {
        write!(f, "refused {}: {}", self.number(), self.text())
    }
}

impl std::error::Error for Refusal {}

#[cfg(test)]
mod tests {
    use super::*;

    #[test]
    fn every_number_comes_back() {
        assert_eq!(Refusal::from_number(0), None);
        for n in (1..=300).chain([u32::MAX]) {
            let refusal = Refusal::from_number(n).expect("a number above 0 is a refusal");
            assert_eq!(refusal.number(), n);
            assert_eq!(matches!(refusal, Unknown(_)), n as usize > ROWS.len());
            assert!(refusal.to_string().starts_with(&format!("refused {n}: ")));
        }
    }

    #[test]
    fn texts_are_sentences_and_differ() {
        let mut seen: Vec<&str> = Vec::new();
        for refusal in Refusal::all() {
            assert!(!refusal.causes().is_empty() && !refusal.remedies().is_empty(), "{refusal}");
            let advice: Vec<&str> = [refusal.causes(), refusal.remedies(), &[refusal.plain()]].concat();
            for text in advice.iter().chain(&[refusal.text()]) {
                assert!(text.ends_with('.') && !text.contains("  "), "{text}");
            }
            // The ranges stand in the text alone, so that they can't differ.
            assert!(!advice.concat().contains(|c: char| c.is_ascii_digit()), "{refusal}");
            assert!(!seen.contains(&refusal.text()) && !seen.contains(&refusal.plain()), "{refusal}");
            seen.extend([refusal.text(), refusal.plain()]);
        }
    }
}
