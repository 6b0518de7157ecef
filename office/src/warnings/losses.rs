//! The warnings of a list of losses: a loss that no pipe has, losses of the way from the pump, and readings off two gauges; and that
//! of an answer whose losses may go by whole first rows.

use crate::answer::Answer;
use crate::at::At;
use crate::places::Place;
use crate::record::Record;
use crate::service;

/// A loss that a short pipe with a fitting in it may well have, in cm.
const OF_A_FITTING: u32 = 100;
/// So many sections with the same fault have a line each.
const EACH: usize = 3;
/// So many sections behind one another, none longer than the one before, tell running sums from losses that grow by chance.
const IN_A_ROW: usize = 4;
/// A section rises from so many cm on, and so many risers tell gauge readings.
const RISES: i64 = 50;
const RISERS: usize = 3;

/// The warning of a list of losses that does not say which line it is of, for a house that is one line of two: the other line's
/// losses look the same.
pub fn of_no_line(record: &Record, losses: &[u32]) -> Option<Place> {
    let line = service::name(record.service);
    let one_of_two = [service::COLD, service::HOT].contains(&record.service);
    let why = format!(
        "the list does not say which line of the house its losses are of; a readable list with a column `service`, {line} in each \
         row, says it"
    );
    (one_of_two && record.sections.len() == losses.len()).then(|| Place::new(At::Losses, why))
}

/// The warning of an answer that was printed before a flow under the first row of its size went by the line from zero.
pub fn by_whole_first_rows(answer: &Answer) -> Option<Place> {
    let why = "the answer does not say of each section whether its flow is under the first row of its size; such an answer goes by a \
               reading in which a flow under the first row takes the whole first row, so that losses may be too great: make it anew \
               with `office losses`";
    answer.is_by_whole_first_rows().then(|| Place::new(At::Losses, why))
}

/// The warnings of a list of losses for a house with as many sections: the list's own, then each loss that no pipe has, and each
/// that is more than its pipe is long.
pub fn off_losses(record: &Record, losses: &[u32]) -> Vec<Place> {
    if record.sections.len() != losses.len() {
        return Vec::new();
    }
    let pipes = pipes(record, losses);
    let none: Vec<&Pipe> = pipes.iter().filter(|pipe| pipe.loss == 0).collect();
    let long: Vec<&Pipe> = pipes.iter().filter(|pipe| pipe.is_too_long()).collect();
    let list = [sums(&pipes), gauges(&pipes)].into_iter().flatten().map(|why| Place::new(At::Losses, why));
    list.chain(each(&none, Pipe::why_none)).chain(each(&long, Pipe::why_long)).collect()
}

/// A section with its loss, all in cm.
struct Pipe {
    number: usize,
    length: u32,
    rise: i64,
    loss: u32,
    /// The loss of the section that it hangs from.
    before: Option<u32>,
    /// No longer than the section that it hangs from.
    short: bool,
    /// That one is no longer than its own either.
    in_a_row: bool,
}

/// The sections in their order. Where the tree itself is wrong the library refuses, and a section is taken as hanging on the pump.
fn pipes(record: &Record, losses: &[u32]) -> Vec<Pipe> {
    let mut pipes: Vec<Pipe> = Vec::new();
    for ((section, loss), number) in record.sections.iter().zip(losses).zip(1..) {
        let place = usize::from(section.parent).checked_sub(1).filter(|place| *place + 1 < number);
        let from = place.map(|place| &record.sections[place]);
        let start = from.map_or(0, |from| i64::from(from.elevation));
        let short = from.is_some_and(|from| section.length <= from.length);
        pipes.push(Pipe {
            number,
            length: 10 * u32::from(section.length),
            rise: i64::from(section.elevation) - start,
            loss: *loss,
            before: place.map(|place| losses[place]),
            short,
            in_a_row: short && place.is_some_and(|place| pipes[place].short),
        });
    }
    pipes
}

impl Pipe {
    fn is_too_long(&self) -> bool {
        self.loss > self.length && self.loss > OF_A_FITTING
    }

    fn why_none(&self) -> String {
        "0 cm, but water loses some head in every pipe; is it a loss that was left out?".to_string()
    }

    fn why_long(&self) -> String {
        let Pipe { loss, length, .. } = self;
        format!(
            "{loss} cm in a pipe that is {length} cm long; is the unit right, is it the section's own loss and not that of the way \
             from the pump, and is the height between its ends left out?"
        )
    }
}

/// A warning for each of these sections, or one for all where they are many.
fn each(pipes: &[&Pipe], why: fn(&Pipe) -> String) -> Vec<Place> {
    let all = pipes.len();
    let listed = if all > EACH { 1 } else { all };
    let more = if all > EACH { format!(" The first of {all} sections with such a loss") } else { String::new() };
    pipes[..listed].iter().map(|pipe| Place::new(At::Loss(pipe.number), why(pipe) + &more)).collect()
}

/// Losses of the way from the pump never grow less on the way. Own losses don't either where each pipe is longer than the one that
/// it hangs from, so that only pipes in a row of which none is longer than the one before count.
fn sums(pipes: &[Pipe]) -> Option<String> {
    let hanging = || pipes.iter().filter_map(|pipe| Some((pipe.loss, pipe.before?)));
    let grows =
        hanging().all(|(own, before)| own >= before) && hanging().filter(|(own, before)| own == before).count() < 2;
    let rows = pipes.iter().filter(|pipe| pipe.in_a_row).count();
    let why = "no section loses less than the one it hangs from: are these the losses of the way from the pump? each section's own \
               is expected";
    (rows >= IN_A_ROW && grows).then(|| why.to_string())
}

/// The difference of two gauges has the height between them in it, and beside that hardly more than the pipe is long. A long pipe
/// that rises little may lose as much as it rises, so that three must be risers, which rise by at least half of their length.
fn gauges(pipes: &[Pipe]) -> Option<String> {
    let rising = || pipes.iter().filter(|pipe| pipe.rise >= RISES);
    let risers = rising().filter(|pipe| 2 * pipe.rise >= i64::from(pipe.length)).count();
    let read_off = |pipe: &Pipe| (pipe.rise..=pipe.rise + i64::from(pipe.length)).contains(&i64::from(pipe.loss));
    let why = "every section that rises loses at least its rise: were they read off two gauges? the height between them is no loss \
               and comes off";
    (risers >= RISERS && rising().all(read_off)).then(|| why.to_string())
}
