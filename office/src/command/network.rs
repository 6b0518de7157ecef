//! `office flow`, `rate`, `choose` and `draw`: the library's answers as tables, as JSON, as a drawing.

use super::arguments::Arguments;
use super::charts::{Figure, chart, figures, number, words};
use super::input::Source;
use super::json::Json;
use super::outcome::{Misuse, Outcome};
use super::rating::{Rated, bytes};
use super::refused::Given;
use super::report::{self, Fields, Unanswered};
use super::walked::{self, Walked};
use office::pipes::sketch;
use office::record::Record;
use office::service::{self, TOTAL};
use office::taps::{self, Taps};
use office::{Flow, Refusal, calls, draw as drawing, kinds};

pub fn flow(arguments: &Arguments) -> Result<Outcome, Misuse> {
    let job = arguments.file(0).job()?;
    let given = Given { job: Some(&job), ..Given::default() };
    match Demand::of(&job.bytes) {
        Ok(demand) => {
            report::answer(arguments, &given, || flow_fields(&demand), || flow_chart(&job, &demand).into_bytes())
        }
        Err(why) => report::unanswered(arguments, &why, &given),
    }
}

/// What a house asks for.
pub struct Demand {
    pub flow: Flow,
    /// The design flow of the whole house in ml/s.
    pub duty: u32,
    /// Which of these one tap sets.
    pub taps: Taps,
    /// The service, where the record has one.
    pub service: Option<u8>,
}

impl Demand {
    pub fn of(job: &[u8]) -> Result<Demand, Unanswered> {
        Demand::with(job, calls::flow(job)?, calls::duty(job)?)
    }

    /// With the library's answers to the job. No flow of them is shown unless it is known what sets it.
    fn with(job: &[u8], flow: Flow, duty: u32) -> Result<Demand, Unanswered> {
        let taps = Taps::of(job, &flow, duty).map_err(Unanswered::Differs)?;
        let service = Record::read(job).ok().and_then(|record| record.stated_service());
        Ok(Demand { flow, duty, taps, service })
    }
}

/// The service, which is always there for machines.
pub fn service_fields(demand: &Demand) -> Fields {
    vec![("service", Json::text(service::name(demand.service.unwrap_or(TOTAL))))]
}

/// The service for people, where the house has one.
pub fn service_figure(demand: &Demand) -> Option<Figure> {
    let service = demand.service?;
    let name = service::name(service);
    let remark = match service {
        TOTAL => service::words(TOTAL),
        _ => format!("line; `office kinds {name}` has its norms"),
    };
    Some(("service", name, remark))
}

/// The line that a pump set feeds, behind its flow and head; nothing where it feeds the whole house.
pub fn for_the_line(demand: &Demand) -> String {
    let line = demand.service.filter(|service| *service != TOTAL);
    line.map_or(String::new(), |line| format!(" for {}", service::words(line)))
}

/// The house's service and design flow.
pub fn duty_fields(demand: &Demand) -> Fields {
    let mut fields = service_fields(demand);
    fields.push(("duty_ml_per_s", demand.duty.into()));
    fields.push(("duty_one_tap_kinds", kinds_of(&demand.taps.house)));
    fields
}

/// The kinds of which one tap sets a flow.
pub fn kinds_of(taps: &[u8]) -> Json {
    Json::List(taps.iter().map(|kind| (*kind).into()).collect())
}

/// What the house asks for as a whole.
pub fn house_fields(demand: &Demand) -> Fields {
    let flow = &demand.flow;
    let mut fields = duty_fields(demand);
    fields.extend([
        ("hour_l_per_h", flow.hour.into()),
        ("day_l", flow.day.into()),
        ("mean_hour_l_per_h", flow.mean_hour.into()),
    ]);
    fields
}

/// The house's design flow for people.
pub fn duty_figure(demand: &Demand) -> Figure {
    let remark = format!("ml/s{} for the pump set to deliver", taps::behind(&demand.taps.house));
    ("design flow", demand.duty.to_string(), remark)
}

/// What `one tap` means, for below a table in which some flow has this mark.
pub fn legend(marked: bool) -> String {
    if marked { format!("{}\n", taps::LEGEND) } else { String::new() }
}

/// What the house asks for as a whole, for people.
pub fn house_figures(demand: &Demand) -> Vec<Figure> {
    let flow = &demand.flow;
    let mut rows: Vec<Figure> = service_figure(demand).into_iter().collect();
    rows.extend([
        duty_figure(demand),
        ("greatest hour", flow.hour.to_string(), "l/h".to_string()),
        ("greatest day", flow.day.to_string(), "l".to_string()),
        ("mean hour", flow.mean_hour.to_string(), "l/h".to_string()),
    ]);
    rows
}

fn flow_fields(demand: &Demand) -> Fields {
    let sections = (1_u8..).zip(&demand.flow.flows).zip(&demand.taps.sections).map(|((section, flow), taps)| {
        Json::Object(vec![
            ("section", section.into()),
            ("flow_ml_per_s", (*flow).into()),
            ("one_tap_kinds", kinds_of(taps)),
        ])
    });
    let mut fields = house_fields(demand);
    fields.push(("sections", Json::List(sections.collect())));
    fields
}

fn flow_chart(job: &Source, demand: &Demand) -> String {
    let house = figures(&house_figures(demand));
    let record = Record::read(&job.bytes).unwrap_or_default();
    let columns = [
        number("section", ""),
        words("from"),
        words("kind"),
        number("fixtures", ""),
        number("flow", "ml/s"),
        words(""),
    ];
    let flows = demand.flow.flows.iter().zip(&demand.taps.sections);
    let rows: Vec<Vec<String>> = record
        .numbered()
        .zip(flows)
        .map(|((section, own), (flow, taps))| {
            vec![
                section.to_string(),
                from(own.parent),
                kinds::name(own.kind),
                own.fixtures.to_string(),
                flow.to_string(),
                taps::words(taps),
            ]
        })
        .collect();
    format!("{house}\n{}{}", chart(&columns, &rows), legend(demand.taps.any()))
}

/// A parent's name.
pub fn from(parent: u8) -> String {
    if parent == 0 { "pump".to_string() } else { parent.to_string() }
}

pub fn rate(arguments: &Arguments) -> Result<Outcome, Misuse> {
    let (job, cat) = (arguments.file(0).job()?, arguments.file(1).catalogue()?);
    let sizes = arguments.file(2).sizes()?;
    let given = Given { job: Some(&job), cat: Some(&cat), sizes: &sizes, ..Given::default() };
    rated(arguments, &given, Rated::with_sizes(&given))
}

pub fn choose(arguments: &Arguments) -> Result<Outcome, Misuse> {
    let (job, cat) = (arguments.file(0).job()?, arguments.file(1).catalogue()?);
    let given = Given { job: Some(&job), cat: Some(&cat), ..Given::default() };
    rated(arguments, &given, Rated::chosen(&given))
}

/// With the walk where one is asked for, which `choose` has no option for.
fn rated(arguments: &Arguments, given: &Given, rated: Result<Rated, Unanswered>) -> Result<Outcome, Misuse> {
    let rated = match rated {
        Ok(rated) => rated,
        Err(why) => return report::unanswered(arguments, &why, given),
    };
    let walked = Walked::of(arguments.walk.as_ref(), &rated.record, &rated.pipes, rated.rating.heads())?;
    let fields = || walked::fields(rated.fields(), &walked);
    report::answer(arguments, given, fields, || walked::words(rated.chart(), &walked))
}

/// With sizes the rated list, without them the cheapest.
pub fn draw(arguments: &Arguments) -> Result<Outcome, Misuse> {
    let (job, cat) = (arguments.file(0).job()?, arguments.file(1).catalogue()?);
    let sizes = if arguments.words.len() > 2 { Some(arguments.file(2).sizes()?) } else { None };
    let sized = sizes.as_deref().unwrap_or(&[]);
    let given = Given { job: Some(&job), cat: Some(&cat), sizes: sized, ..Given::default() };
    let rated = if sizes.is_some() { Rated::with_sizes(&given) } else { Rated::chosen(&given) };
    match rated {
        Ok(rated) => report::answer(arguments, &given, Vec::new, || rated.drawing().into_bytes()),
        Err(Unanswered::Refused(why @ Refusal::NoSuitableList)) => match unsuitable(&given) {
            Ok(drawn) => Ok(report::all_the_same(arguments, &given, &why, Vec::new(), drawn.into_bytes())),
            Err(why) => report::unanswered(arguments, &why, &given),
        },
        Err(why) => report::unanswered(arguments, &why, &given),
    }
}

/// The drawing of a house for which no list suits: with the sizes of the least losses, or, where some section has none at
/// all, without heads.
fn unsuitable(given: &Given) -> Result<String, Unanswered> {
    let (job, cat) = (bytes(given.job), bytes(given.cat));
    let Demand { flow, duty, taps, .. } = Demand::of(job)?;
    // What the library has searched can be read; were it otherwise there would be no pipes to draw.
    let pipes = sketch(job, cat, (&flow, &taps)).unwrap_or_default();
    let sizes: Vec<u8> = pipes.iter().map(|pipe| pipe.size).collect();
    match Rated::with_sizes(&Given { sizes: &sizes, ..*given }) {
        Ok(rated) => Ok(rated.drawing()),
        Err(Unanswered::Refused(_)) => {
            Ok(drawing::sketch(&Record::read(job).unwrap_or_default(), &pipes, duty, &taps.house))
        }
        Err(differs) => Err(differs),
    }
}

#[cfg(test)]
mod tests {
    use super::*;
    use office::house;

    const OWN: &str = include_str!("../../../examples/own-case.txt");

    /// A flow of the library that the model has otherwise is not shown: there is no answer, and both flows are named.
    #[test]
    fn flows_that_differ_are_not_shown() {
        let job = house::pack(OWN).expect("document 01's own case");
        // Document 01 has 2,052 ml/s for it.
        let (flow, duty) = (calls::flow(&job).expect("accepted"), calls::duty(&job).expect("accepted"));
        assert!(Demand::with(&job, flow.clone(), duty).is_ok_and(|demand| demand.duty == 2_052));
        let other = Flow { flows: vec![2_053], ..flow.clone() };
        for (whose, found) in
            [("section 1", Demand::with(&job, other, duty)), ("the house", Demand::with(&job, flow, 2_053))]
        {
            let why = found.err().expect("they differ");
            let Err(misuse) = report::unanswered(&Arguments::default(), &why, &Given::default()) else {
                panic!("a difference is no answer");
            };
            let said = format!(
                "office: library and command differ: the design flow of {whose} is 2053 ml/s by the library and 2052 ml/s \
                 by the command; there is no answer, please report it with the files\n"
            );
            assert_eq!(misuse.text(), said);
        }
    }
}
