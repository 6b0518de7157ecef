//! `--walk N`: the walk from a section to the pump, below an answer of `rate` or `heads`.

use super::charts::{chart, number};
use super::json::Json;
use super::outcome::{Misuse, all_of, word};
use super::report::Fields;
use super::required;
use office::Heads;
use office::pipes::{Pipe, turns};
use office::record::Record;
use office::walk::Turn;
use std::ffi::OsStr;

/// What stands behind `--walk`.
pub const WANTED: &str = "a section's number, as `--walk 3`";

/// The section from which a walk is asked for: its number, and the word that it was given as.
#[derive(Debug)]
pub struct Start {
    number: usize,
    word: String,
}

impl Start {
    /// The word behind `--walk`. How many sections there are is known with the house alone.
    pub fn read(given: &OsStr) -> Result<Start, Misuse> {
        let given = given.to_string_lossy();
        let (word, digits) = (word(&given), !given.is_empty() && given.bytes().all(|b| b.is_ascii_digit()));
        if !digits {
            return Err(Misuse::Words(format!(
                "`{word}` is no section's number for `--walk`: give a whole number of 1 or more in digits, as `--walk 3`"
            )));
        }
        // What a number of this width can't hold is more than any house has.
        match given.parse().unwrap_or(usize::MAX) {
            0 => Err(Misuse::Words(format!(
                "`{word}` for `--walk` is the pump, which is no section and where the walk ends; sections number from 1"
            ))),
            number => Ok(Start { number, word }),
        }
    }

    /// Its place in a house with so many sections.
    fn place(&self, sections: usize) -> Result<usize, Misuse> {
        if self.number <= sections {
            return Ok(self.number - 1);
        }
        let there =
            if sections == 1 { "its only section is 1".into() } else { format!("its sections are 1 to {sections}") };
        Err(Misuse::Words(format!("the house has no section {} for `--walk`; {there}", self.word)))
    }
}

/// A walk, and the end of the section from which it goes.
pub struct Walked<'a> {
    record: &'a Record,
    heads: Heads,
    pipes: &'a [Pipe],
    end: &'a Pipe,
    turns: Vec<Turn>,
}

impl<'a> Walked<'a> {
    /// The walk where one is asked for, in a house with the library's heads. The pipes are of an accepted house.
    pub fn of(
        start: Option<&Start>,
        record: &'a Record,
        pipes: &'a [Pipe],
        heads: Heads,
    ) -> Result<Option<Walked<'a>>, Misuse> {
        let Some(start) = start else { return Ok(None) };
        let end = &pipes[start.place(pipes.len())?];
        Ok(Some(Walked { record, heads, pipes, end, turns: turns(record, pipes, end.number) }))
    }

    fn json(&self) -> Json {
        let turn = |turn: &Turn| {
            let Turn { section, loss, sum } = *turn;
            Json::Object(vec![("section", section.into()), ("loss_cm", loss.into()), ("sum_cm", sum.into())])
        };
        Json::Object(vec![
            ("section", self.end.number.into()),
            ("turns", Json::List(self.turns.iter().map(turn).collect())),
            ("path_loss_cm", self.end.path_loss.into()),
            ("meter_loss_cm", self.record.meter.into()),
            ("elevation_cm", self.end.section.elevation.into()),
            ("free_head_cm", self.end.section.free.into()),
            ("asked_head_cm", self.asked(self.end).into()),
        ])
    }

    /// One line a turn, and what came out.
    fn chart(&self) -> String {
        let columns = [number("section", ""), number("own loss", "cm"), number("sum", "cm")];
        let row = |turn: &Turn| vec![turn.section.to_string(), turn.loss.to_string(), turn.sum.to_string()];
        let table = chart(&columns, &self.turns.iter().map(row).collect::<Vec<_>>());
        let (own, lost, parts) = (self.end.number, self.end.path_loss, required::parts(self.record, self.end));
        let mut lines = vec![
            format!("walk from section {own} to the pump\n{table}{}", legend(own)),
            format!("section {own} asks for {parts} + path loss {lost} = {} cm", self.asked(self.end)),
            self.compared(),
        ];
        lines.extend(self.too_little());
        lines.extend(self.further_on());
        lines.join("\n") + "\n"
    }

    /// The head that an end asks for, in cm.
    fn asked(&self, end: &Pipe) -> i64 {
        end.asked(self.record.meter)
    }

    /// What the end asks for, beside what the house does. That it asks for less is no shortage.
    fn compared(&self) -> String {
        let Heads { required, dictating, .. } = self.heads;
        match i64::from(required) - self.asked(self.end) {
            0 if dictating == self.end.number => {
                format!("that is the required head: section {dictating} dictates it{}", self.as_much())
            }
            0 => format!(
                "that is the required head too: of the sections that ask for it, section {dictating} has the lowest number and \
                 dictates it"
            ),
            less => format!(
                "that is {less} cm less than the required head of {required} cm, which section {dictating} dictates"
            ),
        }
    }

    /// The other sections that ask for as much as this end, as far as a line holds them.
    fn as_much(&self) -> String {
        let equal = |pipe: &&Pipe| pipe.number != self.end.number && self.asked(pipe) == self.asked(self.end);
        let others: Vec<String> = self.pipes.iter().filter(equal).map(|pipe| pipe.number.to_string()).collect();
        match others.len() {
            0 => String::new(),
            1 => format!(", and section {} asks for as much", all_of(&others)),
            2..=MOST_NAMED => format!(", and sections {} ask for as much", all_of(&others)),
            more => format!(", and {more} other sections ask for as much"),
        }
    }

    /// By how much the delivered head is too little for the end, where it is.
    fn too_little(&self) -> Option<String> {
        let delivered = i64::from(self.record.delivered);
        let (own, lacking) = (self.end.number, self.asked(self.end) - delivered);
        (lacking > 0)
            .then(|| format!("the delivered head of {delivered} cm is {lacking} cm too little for section {own}"))
    }

    /// What is asked for at most by the sections whose own walks come through this one, where there are any. A junction asks for
    /// little itself, and its figure is not to be taken for the margin of its branch.
    fn further_on(&self) -> Option<String> {
        let own = self.end.number;
        let through = |pipe: &Pipe| turns(self.record, self.pipes, pipe.number).iter().any(|turn| turn.section == own);
        // Of equals the last counts, which from behind is the lowest number.
        let further = self.pipes.iter().rev().filter(|pipe| pipe.number != own && through(pipe));
        let most = further.max_by_key(|pipe| self.asked(pipe))?;
        let (section, asked) = (most.number, self.asked(most));
        Some(format!("further on from section {own}, section {section} asks for the most: {asked} cm"))
    }
}

/// More sections than these are counted and not named.
const MOST_NAMED: usize = 3;

/// What the sums of a walk from a section are.
fn legend(own: u8) -> String {
    format!(
        "sum: lost from the end of section {own} back to where this section begins; in the last line it is the path loss of section \
         {own}"
    )
}

/// The keys of an answer, and behind them that of the walk.
pub fn fields(mut answer: Fields, walked: &Option<Walked>) -> Fields {
    answer.extend(walked.iter().map(|walked| ("walk", walked.json())));
    answer
}

/// The words of an answer, and below them the walk.
pub fn words(answer: String, walked: &Option<Walked>) -> Vec<u8> {
    let below = walked.as_ref().map(|walked| format!("\n{}", walked.chart()));
    (answer + &below.unwrap_or_default()).into_bytes()
}
