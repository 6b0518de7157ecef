//! `office kinds`: the kinds of consumer, their names in readable files, and their norms in a service.

use super::arguments::Arguments;
use super::charts::{chart, number, words};
use super::json::Json;
use super::outcome::{self, Misuse, Outcome};
use super::refused::Given;
use super::report::{self, Fields};
use office::kinds::{ALL, JUNCTION, Kind};
use office::measure::shown;
use office::service::{self, HOT, TOTAL};

pub fn kinds(arguments: &Arguments) -> Result<Outcome, Misuse> {
    let word = arguments.text(0).map_or(service::name(TOTAL), |word| word.to_lowercase());
    let Some(service) = (TOTAL..=HOT).find(|service| service::name(*service) == word) else {
        let word = outcome::word(&word);
        return Err(Misuse::Words(format!("`{word}` is no service; `kinds` gives the norms of {}", service::TAKEN)));
    };
    report::answer(arguments, &Given::default(), || fields(service), || listed(service).into_bytes())
}

/// In document 01's units, which make all numbers whole.
fn fields(service: u8) -> Fields {
    let one = |(number, kind): (u8, &Kind)| {
        let norm = kind.norm(service);
        Json::Object(vec![
            ("kind", number.into()),
            ("name", Json::text(kind.name)),
            ("what", Json::text(kind.what)),
            ("day_l", whole(norm.day)),
            ("hour_tenths_l", whole(norm.hour)),
            ("fixture_hundredths_l_per_s", whole(norm.fixture)),
            ("fixture_l_per_h", whole(norm.fixture_hour)),
        ])
    };
    let kinds = Json::List((1..).zip(&ALL).map(one).collect());
    vec![("service", Json::text(service::name(service))), ("kinds", kinds)]
}

fn whole(norm: u64) -> Json {
    Json::Number(norm as i64)
}

/// In litres, as the standard has them.
fn listed(service: u8) -> String {
    let columns = [
        words("name"),
        number("number", ""),
        words("what it is"),
        number("D", "l/day"),
        number("Q", "l/h"),
        number("Z", "l/s"),
        number("O", "l/h"),
    ];
    let rows: Vec<Vec<String>> = (1..).zip(&ALL).map(|(number, kind)| row(number, kind, service)).collect();
    let (name, words) = (service::name(service), service::words(service));
    let others: Vec<String> = (TOTAL..=HOT)
        .filter(|other| *other != service)
        .map(|other| format!("`office kinds {}`", service::name(other)))
        .collect();
    format!(
        "{}{LEGEND}A pipe that ends at a branch without fixtures has kind {JUNCTION}, number 0.\n\
         These are the norms of service {name}, {words}; {} have those of the other services.\n",
        chart(&columns, &rows),
        others.join(" and ")
    )
}

fn row(number: u8, kind: &Kind, service: u8) -> Vec<String> {
    let norm = kind.norm(service);
    vec![
        kind.name.to_string(),
        number.to_string(),
        kind.what.to_string(),
        norm.day.to_string(),
        shown(norm.hour as i64, 1),
        shown(norm.fixture as i64, 2),
        norm.fixture_hour.to_string(),
    ]
}

const LEGEND: &str = "\
D: what a resident uses on the day of the greatest use; Q: in the hour of the greatest use
Z: the flow of a fixture; O: the flow of a fixture over an hour
";
