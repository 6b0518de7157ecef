//! `office heads`: what a house asks of its pump set with losses that are given.

use super::arguments::Arguments;
use super::charts::figures;
use super::json::Json;
use super::lent::{Lent, Losses};
use super::network::{Demand, house_fields, house_figures, legend};
use super::outcome::{Misuse, Outcome};
use super::refused::Given;
use super::report::{self, Fields, Unanswered};
use super::required;
use super::sections::{self, Known};
use super::walked::{self, Walked};
use office::answer::of_another_line;
use office::pipes::{Pipe, turns, without_sizes};
use office::record::Record;
use office::walk::Turn;
use office::{Heads, calls, loss};

pub fn heads(arguments: &Arguments) -> Result<Outcome, Misuse> {
    let job = arguments.file(0).job()?;
    let list = match arguments.file(1).losses()? {
        Lent::Losses(list) => list,
        Lent::Refusal(handed) => return Ok(report::handed_on(arguments, &handed)),
    };
    let given = Given { job: Some(&job), ..Given::of_losses(&list) };
    let found = calls::heads(&job.bytes, &list.source.bytes).map_err(Unanswered::Refused);
    let headed = match found.and_then(|heads| Headed::of(&job.bytes, &list.source.bytes, heads)) {
        Ok(headed) => headed,
        Err(why) => return report::unanswered(arguments, &why, &given),
    };
    if let Some(why) = headed.is_of_another_house(&list) {
        return Err(Misuse::AnotherHouse(list.source.name, why));
    }
    let walked = Walked::of(arguments.walk.as_ref(), &headed.record, &headed.pipes, headed.heads)?;
    let fields = || walked::fields(headed.fields(), &walked);
    report::answer(arguments, &given, fields, || walked::words(headed.chart(), &walked))
}

/// The library's heads with the losses that were given.
struct Headed {
    record: Record,
    heads: Heads,
    demand: Demand,
    pipes: Vec<Pipe>,
}

impl Headed {
    /// The library's answer with each section's part in it, unless what is shown would come to other heads.
    fn of(job: &[u8], losses: &[u8], heads: Heads) -> Result<Headed, Unanswered> {
        let demand = Demand::of(job)?;
        let losses = loss::read(losses).unwrap_or_default();
        // What the library has taken can be read; were it otherwise there would be no pipes to show.
        let flows = (&demand.flow, &demand.taps);
        let pipes = without_sizes(job, flows, &losses, heads.dictating).unwrap_or_default();
        let record = Record::read(job).unwrap_or_default();
        match required::difference(&record, &pipes, &heads) {
            Some(why) => Err(Unanswered::Differs(why)),
            None => Ok(Headed { record, heads, demand, pipes }),
        }
    }

    /// The walk from the dictating end to the pump.
    fn way(&self) -> Vec<Turn> {
        turns(&self.record, &self.pipes, self.heads.dictating)
    }

    /// What of the house is not as the list of losses says: a readable one may say which line it is of, an answer of the command
    /// says more.
    fn is_of_another_house(&self, list: &Losses) -> Option<String> {
        match &list.answer {
            Some(answer) => answer.difference(&self.record, &self.demand.flow.flows),
            None => of_another_line(list.service?, &self.record),
        }
    }

    fn fields(&self) -> Fields {
        let way = self.way();
        let mut fields = house_fields(&self.demand);
        fields.push(("local_losses_tenths", self.record.tenths.into()));
        fields.extend(required::fields(&self.record, &self.heads));
        fields.extend([
            ("dictating_path", Json::List(way.iter().map(|turn| turn.section.into()).collect())),
            ("path_loss_cm", Json::Number(way.last().map_or(0, |turn| turn.sum))),
            ("sections", sections::list(&self.pipes, Known::Heads)),
        ]);
        fields
    }

    fn chart(&self) -> String {
        let mut rows = house_figures(&self.demand);
        rows.extend(required::figures(&self.record, &self.heads));
        let (set, table) = (required::set(&self.demand, &self.heads), sections::table(&self.pipes, Known::Heads));
        let (sum, legend) = (self.sum(), legend(self.demand.taps.any()));
        format!("{set}{}{sum}\n{table}{LEGEND}{legend}", figures(&rows))
    }

    /// How the required head comes about at the dictating end.
    fn sum(&self) -> String {
        let Some(end) = self.pipes.iter().find(|pipe| pipe.number == self.heads.dictating) else {
            return String::new();
        };
        let (parts, lost, required) = (required::parts(&self.record, end), end.path_loss, self.heads.required);
        format!("required head: {parts} + losses {lost} = {required} cm\n{}", self.losses(end))
    }

    /// The losses on the way from the dictating end, as far as a line holds them.
    fn losses(&self, end: &Pipe) -> String {
        let (way, lost) = (self.way(), end.path_loss);
        let parts: Vec<String> = way.iter().map(|turn| format!("{} (section {})", turn.loss, turn.section)).collect();
        let words = match way.len() > MOST_ON_A_LINE {
            true => format!("{lost} cm in {} sections, which have a * below", way.len()),
            false => format!("{} = {lost} cm", parts.join(" + ")),
        };
        format!("losses from section {} to the pump: {words}\n", end.number)
    }
}

/// A way of more sections is not written out.
const MOST_ON_A_LINE: usize = 8;

const LEGEND: &str = "\
loss: as given, and not worked out from a table of sizes; it is to be what the section's own pipe loses at its flow
";

#[cfg(test)]
mod tests {
    use super::*;
    use office::house;

    const OWN: &str = include_str!("../../../examples/own-case.txt");

    /// Heads that the losses don't come to are not shown.
    #[test]
    fn an_answer_that_differs_is_not_shown() {
        let job = house::pack(OWN).expect("document 01's own case");
        let list = loss::bytes(&[71]);
        // Document 01 has 921 for a loss of 71: 50 + 600 + 200 + 71.
        let heads = Heads { required: 921, pump: 421, dictating: 1 };
        assert!(Headed::of(&job, &list, heads).is_ok());
        let required = |library: u32, own: u32| {
            format!("the required head is {library} cm by the library and {own} cm by the command")
        };
        for (other, list, why) in [
            (Heads { required: 922, ..heads }, list.clone(), required(922, 921)),
            (
                Heads { dictating: 2, ..heads },
                list,
                "the dictating section is 2 by the library and 1 by the command".to_string(),
            ),
            (heads, loss::bytes(&[72]), required(921, 922)),
            (heads, Vec::new(), "heads come for a house of which the command can read no section".to_string()),
        ] {
            assert_eq!(Headed::of(&job, &list, other).err(), Some(Unanswered::Differs(why)), "{other:?}");
        }
    }
}
