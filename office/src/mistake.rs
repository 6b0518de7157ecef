//! Mistakes in a readable file: the line, what is wrong with it, and what is expected instead.

use crate::echo;
use std::fmt;

/// Why a readable file can't be written as bytes.
#[derive(Clone, Debug, PartialEq, Eq)]
pub struct Mistake {
    /// The line's number, from 1, and its text as a message shows it; none where a line is lacking altogether.
    pub line: Option<(usize, String)>,
    pub wrong: String,
    pub expected: String,
}

impl Mistake {
    /// A mistake that lies on a line.
    pub fn on(number: usize, text: &str, wrong: impl Into<String>, expected: impl Into<String>) -> Mistake {
        Mistake { line: Some((number, echo::shown(text.trim()))), ..Mistake::lacking(wrong, expected) }
    }

    /// A mistake of the whole file: something is not there.
    pub fn lacking(wrong: impl Into<String>, expected: impl Into<String>) -> Mistake {
        let wrong = wrong.into();
        let remark = echo::remark(&wrong).map_or(String::new(), |remark| format!("; {remark}"));
        Mistake {
            line: None,
            wrong: format!("{}{remark}", echo::escaped(wrong.chars())),
            expected: echo::escaped(expected.into().chars()),
        }
    }
}

impl fmt::Display for Mistake {
    fn fmt(&self, f: &mut fmt::Formatter) -> fmt::Result {
        match &self.line {
            Some((number, text)) => writeln!(f, "line {number}: {text}")?,
            None => writeln!(f, "as a whole")?,
        }
        writeln!(f, "  wrong:    {}", self.wrong)?;
        write!(f, "  expected: {}", self.expected)
    }
}

impl std::error::Error for Mistake {}

/// So many mistakes are listed; further ones are counted.
pub const LISTED: usize = 20;

/// The mistakes of a file in the order of its lines, those of the whole file last. A file of nothing but mistakes takes no
/// more memory than one with twenty.
#[derive(Clone, Debug, Default, PartialEq, Eq)]
pub struct Mistakes {
    pub list: Vec<Mistake>,
    /// How many there are beside those of the list.
    pub more: usize,
}

impl Mistakes {
    pub fn add(&mut self, mistake: Mistake) {
        let line = |mistake: &Mistake| mistake.line.as_ref().map_or(usize::MAX, |(number, _)| *number);
        let place = self.list.partition_point(|before| line(before) <= line(&mistake));
        self.list.insert(place, mistake);
        if self.list.len() > LISTED {
            self.list.pop();
            self.more += 1;
        }
    }

    pub fn is_empty(&self) -> bool {
        self.list.is_empty()
    }

    /// The value, where nothing is wrong.
    pub fn none<T>(self, value: T) -> Result<T, Mistakes> {
        if self.is_empty() { Ok(value) } else { Err(self) }
    }
}

impl Extend<Mistake> for Mistakes {
    fn extend<T: IntoIterator<Item = Mistake>>(&mut self, found: T) {
        found.into_iter().for_each(|mistake| self.add(mistake));
    }
}

impl From<Mistake> for Mistakes {
    fn from(mistake: Mistake) -> Mistakes {
        Mistakes { list: vec![mistake], more: 0 }
    }
}

impl fmt::Display for Mistakes {
    fn fmt(&self, f: &mut fmt::Formatter) -> fmt::Result {
        for mistake in &self.list {
            writeln!(f, "{mistake}")?;
        }
        if self.more > 0 {
            writeln!(f, "and {} more", self.more)?;
        }
        Ok(())
    }
}

impl std::error::Error for Mistakes {}
