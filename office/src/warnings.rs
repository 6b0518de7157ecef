//! What the library takes and what is still nearly always a slip of the pen. The library has no rule for it and judges
//! alone; a warning stands beside its answer. There are few, so that they are read.

mod losses;

use crate::at::{At, Field, Lines};
use crate::calls::Flow;
use crate::catalogue::{Catalogue, Row};
use crate::meter::{self, Meter};
use crate::places::{Heating, Place};
use crate::record::{Record, Section};
use crate::service;
pub use losses::{by_whole_first_rows, of_no_line, off_losses};

/// Lengths are kept in whole dm, so a pipe may be this many cm longer than it says.
const ROUNDED: i64 = 9;
/// A house lower than this is taken as this high, in cm: a low house may well be long.
const LOW: i64 = 1_000;
/// Slower than this no water pipe is designed, in mm/s.
const SLOW: u16 = 300;

/// The warnings of a house, in the order of its fields and sections.
pub fn warnings(record: &Record) -> Vec<Place> {
    let mut found: Vec<Place> = heads(record).into_iter().chain(limit(record)).collect();
    let high = height(record);
    for (number, section) in record.numbered() {
        found.extend(steep(record, number, section));
        found.extend(long(number, section, high));
    }
    found
}

/// The warning of a readable house without a service in which one is commented out: it is taken as all water.
pub fn commented_out(lines: &Lines) -> Option<Place> {
    let comments = [service::COLD, service::HOT].map(At::Comment);
    let (at, _) = comments.into_iter().filter_map(|at| Some((at, lines.of(at)?))).min_by_key(|(_, line)| *line)?;
    let all = service::words(service::TOTAL);
    let why = format!(
        "it stands behind #, and no line gives the service, so that the house is taken for {all}; take the # out, or \
         write `service total`"
    );
    Some(Place::new(at, why))
}

/// The set adds to the guaranteed head, so it can't deliver less than that.
fn heads(record: &Record) -> Option<Place> {
    let Record { guaranteed, delivered, .. } = *record;
    let why = format!(
        "{guaranteed} cm, more than the delivered head of {delivered} cm, which is the guaranteed head and the most that \
         the pump set may add"
    );
    (guaranteed > delivered).then(|| Place::new(At::Field(Field::Guaranteed), why))
}

fn limit(record: &Record) -> Option<Place> {
    let limit = record.limit;
    let why = format!("{limit} mm/s is under {SLOW} mm/s, slower than water pipes are designed for");
    (limit < SLOW).then(|| Place::new(At::Field(Field::Limit), why))
}

/// From the lowest end to the highest, the pump too.
fn height(record: &Record) -> i64 {
    let ends = || record.sections.iter().map(|section| i64::from(section.elevation)).chain([0]);
    (ends().max().unwrap_or(0) - ends().min().unwrap_or(0)).max(LOW)
}

/// A pipe whose ends lie further apart in height than it is long.
fn steep(record: &Record, number: u8, section: &Section) -> Option<Place> {
    // Where the tree itself is wrong the library refuses, and there is no end to compare with.
    let from = match section.parent {
        0 => 0,
        parent if parent < number => i64::from(record.sections.get(usize::from(parent) - 1)?.elevation),
        _ => return None,
    };
    let to = i64::from(section.elevation);
    let (rise, length) = ((to - from).abs(), 10 * i64::from(section.length));
    let above = match section.parent {
        0 => "the pump".to_string(),
        parent => format!("the end of section {parent}"),
    };
    let why = format!(
        "its end lies at {to} cm and {above} at {from} cm, {rise} cm apart, but the pipe is {length} cm long; \
         are elevation, unit and sign right?"
    );
    (rise > length + ROUNDED).then(|| Place::new(At::Section(number), why))
}

/// A pipe longer than ten times the house is high.
fn long(number: u8, section: &Section, high: i64) -> Option<Place> {
    let length = 10 * i64::from(section.length);
    let why = format!(
        "it is {length} cm long, over ten times the {high} cm that the house is taken as high; is the point right?"
    );
    (length > 10 * high).then(|| Place::new(At::Section(number), why))
}

/// The warning of a table of sizes: the first row whose velocity is not that of its flow through its bore.
pub fn off_velocity(catalogue: &Catalogue) -> Option<Place> {
    let rows = (1..=255).zip(&catalogue.sizes).flat_map(|(number, size)| {
        (1..=255).zip(&size.rows).map(move |(row, figures)| (At::Row(number, row), size.bore, figures))
    });
    let mut off = rows.filter_map(|(at, bore, row)| {
        let through = of_flow(bore, row)?;
        let (less, more) = (through.min(row.velocity.into()), through.max(row.velocity.into()));
        // Velocities are whole, so that slow ones may be a factor apart and still the same.
        (2 * more > 3 * less && more - less > 1).then_some((at, bore, row, through))
    });
    let (at, bore, Row { flow, velocity, .. }, through) = off.next()?;
    let why = format!(
        "the velocity is {velocity} mm/s, but {flow} ml/s through a bore of {bore} mm flow at {through} mm/s; are two \
         columns swapped, flow and velocity or bore and price, or is one in another unit, such as l/h or cm/s?"
    );
    Some(Place::new(at, why))
}

/// The velocity of a row's flow, which is the flow over the area of the bore, in whole mm/s. 355/113 is π to six decimals.
fn of_flow(bore: u16, row: &Row) -> Option<u64> {
    let square = u64::from(bore) * u64::from(bore);
    (u64::from(row.flow) * 4_000 * 113).checked_div(355 * square)
}

/// Less heat than this, in watts, some ten metres of pipe lose.
const LITTLE_HEAT: u64 = 100;

/// The warning of a heat loss, which may be in kW, or have a zero too many where the pipes lose more than the water of the mean hour
/// takes. None is stated with 0.
pub fn off_heat(heating: Heating, mean_hour: Option<u32>) -> Option<Place> {
    let loss = u64::from(heating.loss);
    let water = mean_hour.map(|litres| heating.of_water(litres)).filter(|water| loss > *water);
    let why = match water {
        _ if (1..LITTLE_HEAT).contains(&loss) => {
            format!("{loss} W, which a few metres of pipe lose; is it in kW? {loss} kW would be {} W", 1_000 * loss)
        }
        Some(water) if loss > 0 => format!(
            "{loss} W, more than the {water} W that the water of the mean hour takes itself; has it a digit too many?"
        ),
        _ => return None,
    };
    Some(Place::new(At::HeatLoss, why))
}

/// The warning of hours of use that are too few: no hour of the day can use more than the greatest.
pub fn off_hours(record: &Record, flow: &Flow) -> Option<Place> {
    let (hours, Flow { hour, mean_hour, day, .. }) = (record.hours, flow);
    let why = format!(
        "the {day} litres of a day in {hours} hours are {mean_hour} l/h in the mean hour, more than the {hour} l/h of the greatest; \
         are the hours of use a day right?"
    );
    (mean_hour > hour).then(|| Place::new(At::Field(Field::Hours), why))
}

/// What meters lose at their own service flow, in cm. Source document 001 has 158 to 161 for vane meters and 12 to 159 for turbine
/// meters; with the maximum flow of its next column in the service flow's place, where two bytes hold that, 987 to 1,003.
const MOST_AT_SERVICE: u64 = 500;
const LEAST_OF_VANES: u64 = 40;
const LEAST_OF_TURBINES: u64 = 4;

/// The warnings of a list of meters: each meter whose resistance and service flow don't go together.
pub fn off_service(meters: &[Meter]) -> Vec<Place> {
    let off = |meter: &Meter| {
        let least = if meter.design == 1 { LEAST_OF_VANES } else { LEAST_OF_TURBINES };
        !(least..=MOST_AT_SERVICE).contains(&at_service(meter))
    };
    // What the library refuses for being 0 has its own place.
    let known = |meter: &Meter| meter.limit().is_some() && meter.resistance > 0 && meter.service > 0;
    let found = (1..).zip(meters).filter(|(_, meter)| known(meter) && off(meter));
    found.map(|(place, meter)| Place::new(At::Meter(place), why_off(meter))).collect()
}

fn why_off(meter: &Meter) -> String {
    let (loss, service, name) = (at_service(meter), meter.service, meter::name(meter.design));
    let usual = if meter.design == 1 { "about 160 cm" } else { "10 to 160 cm" };
    format!(
        "at its own service flow of {service} l/h it would lose {loss} cm, and {name} meters lose {usual} there; is the service \
         flow in l/h, and neither the least nor the greatest flow, and the resistance in m/(l/s)2?"
    )
}

/// A meter's loss at its own service flow, in whole cm. A flow in l/h over 3.6 is one in ml/s, and 3.6 × 3.6 is 324 / 25.
fn at_service(meter: &Meter) -> u64 {
    let square = u64::from(meter.service) * u64::from(meter.service);
    u64::from(meter.resistance) * square * 25 / (324 * 100_000_000)
}
