//! Lines that have a section's number each, in any order: sections number from 1 on, without a gap.

use crate::mistake::{Mistake, Mistakes};
use std::collections::BTreeMap;

/// What the lines read so far say of their sections, with the line and text of each for messages.
pub struct Numbered<T> {
    sections: BTreeMap<u8, (T, usize, String)>,
    /// A line whose number can't be read may be the one that another line lacks.
    unnumbered: bool,
}

impl<T> Default for Numbered<T> {
    fn default() -> Numbered<T> {
        Numbered { sections: BTreeMap::new(), unnumbered: false }
    }
}

impl<T> Numbered<T> {
    /// A section's line. One section has one line, which the caller sees to.
    pub fn put(&mut self, number: u8, own: T, line: usize, text: &str) {
        self.sections.insert(number, (own, line, text.to_string()));
    }

    /// A line without a number that can be read.
    pub fn put_unnumbered(&mut self) {
        self.unnumbered = true;
    }

    /// Whether there is no line at all.
    pub fn is_empty(&self) -> bool {
        self.sections.is_empty() && !self.unnumbered
    }

    /// What each section has, section 1 first.
    pub fn in_order(self, mistakes: &mut Mistakes) -> Vec<T> {
        let last = self.sections.keys().last().copied().unwrap_or(0);
        let mut found = Vec::new();
        let mut wanted = 1;
        for (number, (own, line, text)) in self.sections {
            if number != wanted && !self.unnumbered {
                let gap = match number - wanted {
                    1 => format!("section {wanted} is missing"),
                    _ => format!("sections {wanted} to {} are missing", number - 1),
                };
                let expected = format!("a line for section {wanted}; sections number from 1 to {last} without a gap");
                mistakes.add(Mistake::on(line, &text, format!("{gap}: this line is section {number}"), expected));
            }
            wanted = number.saturating_add(1);
            found.push(own);
        }
        found
    }
}
