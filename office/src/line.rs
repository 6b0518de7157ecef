//! The lines of a readable house file, word by word.

use crate::measure::Measure;
use crate::mistake::Mistake;
use crate::readable::TextLine;

/// A line that is not blank: its comment is cut off, its words are in lower case.
pub struct Line<'a> {
    pub number: usize,
    pub text: &'a str,
    words: Vec<String>,
    at: usize,
}

/// No word of a house is as long; one that is longer is cut for messages and is no word any more.
const LONGEST_WORD: usize = 60;

impl<'a> Line<'a> {
    /// The words of a line. A colon behind a name parts it from its value; a semicolon behind a word ends it. Neither can
    /// mean anything else there, and elsewhere both stay part of the word, which is then none of the format's.
    pub fn of(line: &TextLine<'a>) -> Line<'a> {
        // Documents have a longer minus than keyboards.
        let plain = line.content.replace('\u{2212}', "-").to_lowercase();
        let mut words: Vec<String> = Vec::new();
        let mut parted = false;
        for word in plain.split_whitespace() {
            let named = words.last().is_some_and(|last| is_name(last, words.len() == 2 && words[0] == "section"));
            if word == ":" && named && !parted {
                parted = true;
                continue;
            }
            let (front, rest) = at_colon(word, words.len() == 1 && words[0] == "section");
            words.push(cut(front));
            words.extend(rest.filter(|rest| !rest.is_empty()).map(cut));
            parted = rest == Some("");
        }
        Line { number: line.number, text: line.text, words, at: 0 }
    }

    /// The next word, if there is one.
    pub fn word(&mut self) -> Option<String> {
        let word = self.words.get(self.at).cloned();
        self.at += usize::from(word.is_some());
        word
    }

    fn peek(&self) -> Option<&str> {
        self.words.get(self.at).map(String::as_str)
    }

    /// Whether the next word is the last before the line's end or before one of these words.
    fn stands_alone(&self, keywords: &[&str]) -> bool {
        self.words.get(self.at + 1).is_none_or(|word| keywords.contains(&word.as_str()))
    }

    /// Goes on to the next of these words, so that one mistake does not hide those behind it.
    pub fn skip_to(&mut self, keywords: &[&str]) {
        while self.peek().is_some_and(|word| !keywords.contains(&word)) {
            self.at += 1;
        }
    }

    /// Whether the line begins with these words; if so it goes on behind them.
    pub fn begins(&mut self, phrase: &str) -> bool {
        let wanted: Vec<&str> = phrase.split(' ').collect();
        let found = self.words.len() >= wanted.len() && self.words.iter().zip(&wanted).all(|(a, b)| a == b);
        if found {
            self.at = wanted.len();
        }
        found
    }

    /// The first word of the line, for a message.
    pub fn first(&self) -> &str {
        self.words.first().map_or("", String::as_str)
    }

    pub fn mistake(&self, wrong: impl Into<String>, expected: impl Into<String>) -> Mistake {
        Mistake::on(self.number, self.text, wrong, expected)
    }

    /// Nothing may follow.
    pub fn end(&self, expected: &str) -> Result<(), Mistake> {
        match self.peek() {
            None => Ok(()),
            Some(word) => Err(self.mistake(format!("`{word}` is one word too many"), expected)),
        }
    }

    /// The next quantity with its unit, within what the bytes hold. `keywords` are the words that begin another field: one
    /// of them where a unit should stand means that the unit is missing.
    pub fn quantity(&mut self, what: &str, measure: &Measure, keywords: &[&str]) -> Result<i64, Mistake> {
        let Some(word) = self.word() else {
            return Err(self.mistake(format!("`{what}` has no number"), measure.example(what)));
        };
        let cut = word.find(|c: char| !"+-.,0123456789".contains(c)).unwrap_or(word.len());
        let (number, glued) = word.split_at(cut);
        if number.is_empty() {
            return Err(self.mistake(format!("`{word}` is no number for `{what}`"), measure.example(what)));
        }
        let power = self.unit(what, measure, number, glued, keywords)?;
        let value = measure.number(number, power).map_err(|fault| {
            let (wrong, expected) = measure.fault(fault, what, number, power, &measure.example(what));
            self.mistake(wrong, expected)
        })?;
        if !measure.holds(value) {
            return Err(self.too_great(what, measure, value, power));
        }
        Ok(value)
    }

    fn unit(
        &mut self,
        what: &str,
        measure: &Measure,
        number: &str,
        glued: &str,
        keywords: &[&str],
    ) -> Result<u32, Mistake> {
        let next = if glued.is_empty() { self.peek().unwrap_or("").to_string() } else { glued.to_string() };
        if glued.is_empty() && next.starts_with(|c: char| c.is_ascii_digit()) {
            let rest: String = next.chars().take_while(|c| ".,0123456789".contains(*c)).collect();
            let wrong = format!("a blank stands within the number of `{what}`, `{number} {rest}`");
            return Err(self.mistake(wrong, format!("no blank in a number, {}", measure.example(what))));
        }
        if let Some(power) = measure.power("") {
            // A single word behind a bare number is a unit, if it is not the next field's; several are too many. A percent
            // sign belongs to the number.
            let word = next.starts_with(char::is_alphabetic) && !keywords.contains(&next.as_str());
            let unit = !glued.is_empty() || next == "%" || (word && self.stands_alone(keywords));
            return if unit { Err(self.unitless(what, measure, &next)) } else { Ok(power) };
        }
        if let Some(power) = measure.power(&next) {
            self.at += usize::from(glued.is_empty());
            return Ok(power);
        }
        if next.is_empty() || keywords.contains(&next.as_str()) {
            let wrong = format!("the unit of `{what} {number}` is missing");
            // Which unit was meant only the writer knows: any one put behind this number may be the wrong one.
            return Err(
                self.mistake(wrong, format!("write a unit, for example {}", measure.in_each_unit(measure.example)))
            );
        }
        Err(self.mistake(format!("`{next}` is no unit of `{what}`"), measure.named()))
    }

    /// A unit where none is taken. The number in front of it counts something else, so it is not what to write.
    fn unitless(&self, what: &str, measure: &Measure, unit: &str) -> Mistake {
        let expected = match measure.counts {
            "tenths" => format!("{what} as a part of one, {}", measure.taken),
            _ => format!("a number alone, {}", measure.example(what)),
        };
        self.mistake(format!("`{what}` has no unit, but `{unit}` is given"), expected)
    }

    /// A value that the bytes can't hold. An elevation read as unsigned is so common that it gets its own advice, where it
    /// was copied in the bytes' own unit and its signed reading is an elevation that the library takes.
    fn too_great(&self, what: &str, measure: &Measure, value: i64, power: u32) -> Mistake {
        let shown = measure.show(value);
        let mut expected = measure.taken.to_string();
        // Two bytes hold up to 65,535, so a signed reading is below 0; document 01's elevations begin at -1,000.
        let signed = value - 65_536;
        if measure.least < 0 && power == 0 && (-1_000..0).contains(&signed) {
            let meant = measure.show(signed);
            expected = format!(
                "{expected}; those two bytes read as signed are {meant}, write `{what} {meant}` if you mean it"
            );
        }
        self.mistake(format!("`{what} {shown}` is not what the record's bytes can hold"), expected)
    }
}

/// Whether a word is a name, or the number behind `section`.
fn is_name(word: &str, section: bool) -> bool {
    word.starts_with(char::is_alphabetic) || (section && word.bytes().all(|b| b.is_ascii_digit()))
}

/// A word without the semicolon at its end, parted at its first colon if a name stands before that.
fn at_colon(word: &str, section: bool) -> (&str, Option<&str>) {
    let word = word.strip_suffix(';').filter(|rest| !rest.is_empty()).unwrap_or(word);
    match word.split_once(':') {
        Some((name, rest)) if is_name(name, section) && !name.is_empty() => (name, Some(rest)),
        _ => (word, None),
    }
}

fn cut(word: &str) -> String {
    match word.char_indices().nth(LONGEST_WORD) {
        Some((at, _)) => format!("{}...", &word[..at]),
        None => word.to_string(),
    }
}
