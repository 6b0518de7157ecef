//! `office pack` and `office show`: readable files and binary records, jobs, catalogues, lists of meters and of losses, told apart by content.

use super::arguments::Arguments;
use super::fields;
use super::input::{self, Binary, Content, Reading, Source};
use super::json::Json;
use super::lent::Lent;
use super::outcome::{Misuse, Outcome};
use super::rating::bytes;
use super::refused::Given;
use super::report::{self, Fields};
use office::at::Lines;
use office::calls::MOST_SECTIONS;
use office::loss::{self, LOSS};
use office::which::Which;
use office::{Refusal, answer, calls, house, losses, meters, service, table};
use std::io::IsTerminal;

/// A readable file as a record's bytes, with the library's refusal beside it.
pub fn pack(arguments: &Arguments) -> Result<Outcome, Misuse> {
    let file = arguments.file(0);
    let name = file.name();
    let text = match file.some_content()? {
        Content::Text(text) => text,
        Content::Record(_) => {
            let why = "its first byte is 00; `office show` shows a record, `--text` reads a text that begins so";
            return Err(Misuse::Words(format!("{name} is no readable file: {why}")));
        }
        Content::Meters(_) => {
            let why = "it is the record of a list of meters; `office show` shows it";
            return Err(Misuse::Words(format!("{name} is no readable file: {why}")));
        }
        Content::Answer(bytes) => return of_answer(arguments, file.printed(&bytes)?, Form::Record),
    };
    file.is_no_object(&text)?;
    let which = Which::of(&text);
    let source = match which {
        Which::House => file.house(&text)?,
        Which::Table => file.table(&text)?,
        Which::Meters => file.list(&text)?.source,
        Which::Losses => file.loss_list(&text)?.source,
    };
    to_a_terminal(arguments)?;
    done(arguments, given(&source, which), which, packed(&source, which), source.bytes.clone())
}

/// The keys of a record.
fn packed(source: &Source, which: Which) -> Fields {
    vec![
        ("kind", Json::text(kind(which))),
        ("bytes", Json::Number(source.bytes.len() as i64)),
        ("record", Json::hex(&source.bytes)),
    ]
}

/// What the losses of an answer are wanted as.
enum Form {
    Record,
    Text,
}

/// The losses of an answer as their record or as a readable list, which says where they come from.
fn of_answer(arguments: &Arguments, lent: Lent, form: Form) -> Result<Outcome, Misuse> {
    let list = match lent {
        Lent::Losses(list) => list,
        Lent::Refusal(handed) => return Ok(report::handed_on(arguments, &handed)),
    };
    let (source, given) = (&list.source, Given::of_losses(&list));
    let command = list.answer.as_ref().map_or("", |answer| &answer.command);
    match form {
        Form::Record => {
            to_a_terminal(arguments)?;
            done(arguments, given, Which::Losses, packed(source, Which::Losses), source.bytes.clone())
        }
        Form::Text => {
            // Losses of all water are shown as ever: no column says that they are of a line.
            let line = list.service.filter(|service| *service != service::TOTAL);
            let words = line.map_or(String::new(), |line| format!(" for {}", service::words(line)));
            let from = format!("# the losses of {}, an answer of `office {command}`{words}\n", source.name);
            let text = from + &losses::show_of(&source.bytes, line).unwrap_or_default();
            let fields = shown(Which::Losses, fields::losses(&loss::read(&source.bytes).unwrap_or_default()));
            done(arguments, given, Which::Losses, fields, text.into_bytes())
        }
    }
}

/// A record has no place on a terminal.
pub fn to_a_terminal(arguments: &Arguments) -> Result<(), Misuse> {
    match !arguments.json && arguments.kept().is_none() && std::io::stdout().is_terminal() {
        true => {
            let why = "a record is binary; name its file with -o, or send it on with a pipe";
            Err(Misuse::Words(why.to_string()))
        }
        false => Ok(()),
    }
}

/// What JSON calls the record of a readable file.
fn kind(which: Which) -> &'static str {
    match which {
        Which::House => "job",
        Which::Table => "catalogue",
        Which::Meters => "meters",
        Which::Losses => "losses",
    }
}

/// A record as a readable file, with the library's refusal beside it.
pub fn show(arguments: &Arguments) -> Result<Outcome, Misuse> {
    let file = arguments.file(0);
    let name = file.name();
    let all = file.bytes()?;
    if file.reading != Reading::Record && answer::is_answer(&all) {
        return of_answer(arguments, file.printed(&all)?, Form::Text);
    }
    let source = Source { name: name.clone(), bytes: file.record_of(all)?, lines: Lines::default() };
    let bytes = &source.bytes;
    let (text, fields, which) = match input::binary(bytes, file.reading == Reading::Record) {
        Binary::Job(record) => (house::show(bytes).unwrap_or_default(), fields::job(&record), Which::House),
        Binary::Catalogue(catalogue) => {
            (table::show(bytes).unwrap_or_default(), fields::catalogue(&catalogue), Which::Table)
        }
        Binary::Meters(list) => (meters::show(bytes).unwrap_or_default(), fields::meters(&list), Which::Meters),
        Binary::Losses(list) => (losses::show(bytes).unwrap_or_default(), fields::losses(&list), Which::Losses),
        Binary::Neither(why) => return Err(Misuse::Words(format!("{name} can't be shown: {why}"))),
    };
    done(arguments, given(&source, which), which, shown(which, fields), text.into_bytes())
}

/// The keys of a record that is shown.
fn shown(which: Which, fields: Fields) -> Fields {
    [vec![("kind", Json::text(kind(which)))], fields].into_iter().flatten().collect()
}

/// What the library is given of a file.
fn given(source: &Source, which: Which) -> Given<'_> {
    match which {
        Which::House => Given { job: Some(source), ..Given::default() },
        Which::Table => Given { cat: Some(source), ..Given::default() },
        Which::Meters => Given { meters: Some(source), ..Given::default() },
        Which::Losses => Given { losses: Some(source), ..Given::default() },
    }
}

/// The work is done, whether the library takes the record or not.
fn done(arguments: &Arguments, given: Given, which: Which, fields: Fields, words: Vec<u8>) -> Result<Outcome, Misuse> {
    let refusal = match which {
        Which::House => calls::flow(bytes(given.job)).err(),
        Which::Table => catalogue_refusal(bytes(given.cat)),
        Which::Meters => meters_refusal(bytes(given.meters)),
        Which::Losses => losses_refusal(bytes(given.losses)),
    };
    match refusal {
        Some(refusal) => Ok(report::all_the_same(arguments, &given, &refusal, fields, words)),
        None => report::answer(arguments, &given, || fields, || words),
    }
}

/// A house of so many sections that the library takes, to lend with a catalogue or a list: no call takes one of these alone.
fn accepted(sections: usize) -> Vec<u8> {
    let section = |section: usize| {
        format!("section {section} from pump length 1 m elevation 0 cm kind dwelling fixtures 1 free 0 cm\n")
    };
    let sections: String = (1..=sections.clamp(1, MOST_SECTIONS)).map(section).collect();
    house::pack(&format!("{HEAD}{sections}")).unwrap_or_default()
}

const HEAD: &str = "local losses 0.3\nhours 24\nmeter loss 0 cm\nguaranteed head 0 cm\ndelivered head 0 cm\n\
    velocity limit 1500 mm/s\nresidents dwelling 1\n";

/// The library's own judgement of a catalogue. Refusals that come after 11 are about the house lent with it.
fn catalogue_refusal(cat: &[u8]) -> Option<Refusal> {
    calls::rate(&accepted(1), cat, &[1]).err().filter(|refusal| refusal.number() == 10 || refusal.number() == 11)
}

/// The library's own judgement of a list of meters. That none of them qualifies is about the house lent with it.
fn meters_refusal(list: &[u8]) -> Option<Refusal> {
    calls::meter(&accepted(1), list).err().filter(|refusal| *refusal == Refusal::MeterList)
}

/// The library's own judgement of a list of losses, with a house of as many sections.
fn losses_refusal(list: &[u8]) -> Option<Refusal> {
    calls::heads(&accepted(list.len() / LOSS), list).err()
}
