//! The fields of a record as JSON.

use super::json::Json;
use super::report::Fields;
use office::catalogue::{Catalogue, Size};
use office::kinds;
use office::meter::{self, Meter};
use office::record::{Record, Section};
use office::service;

pub fn job(record: &Record) -> Fields {
    let residents = (1_u8..).zip(record.residents).filter(|(_, count)| *count != 0).map(|(kind, count)| {
        Json::Object(vec![("kind", kind.into()), ("name", Json::text(kinds::name(kind))), ("residents", count.into())])
    });
    vec![
        ("stated_length", record.stated.into()),
        ("version", record.version.into()),
        ("service", Json::text(service::name(record.service))),
        ("local_losses_tenths", record.tenths.into()),
        ("hours", record.hours.into()),
        ("meter_loss_cm", record.meter.into()),
        ("guaranteed_head_cm", record.guaranteed.into()),
        ("delivered_head_cm", record.delivered.into()),
        ("velocity_limit_mm_per_s", record.limit.into()),
        ("residents", Json::List(residents.collect())),
        ("sections", Json::List(record.numbered().map(|(number, section)| of_section(number, section)).collect())),
    ]
}

fn of_section(number: u8, section: &Section) -> Json {
    Json::Object(vec![
        ("section", number.into()),
        ("parent", section.parent.into()),
        ("kind", section.kind.into()),
        ("name", Json::text(kinds::name(section.kind))),
        ("fixtures", section.fixtures.into()),
        ("length_dm", section.length.into()),
        ("elevation_cm", section.elevation.into()),
        ("free_head_cm", section.free.into()),
    ])
}

pub fn catalogue(catalogue: &Catalogue) -> Fields {
    let sizes = (1..=255).zip(&catalogue.sizes).map(|(number, size)| of_size(number, size));
    vec![
        ("stated_length", catalogue.stated.into()),
        ("version", catalogue.version.into()),
        ("rows", catalogue.rows.into()),
        ("sizes", Json::List(sizes.collect())),
    ]
}

fn of_size(number: u8, size: &Size) -> Json {
    let rows = size.rows.iter().map(|row| {
        Json::Object(vec![
            ("flow_ml_per_s", row.flow.into()),
            ("velocity_mm_per_s", row.velocity.into()),
            ("slope_mm_per_m", row.slope.into()),
        ])
    });
    Json::Object(vec![
        ("size", number.into()),
        ("bore_mm", size.bore.into()),
        ("price", size.price.into()),
        ("rows", Json::List(rows.collect())),
    ])
}

pub fn meters(meters: &[Meter]) -> Fields {
    let list = (1..).zip(meters).map(|(place, meter)| Json::Object(of_meter(place, meter)));
    vec![("meters", Json::List(list.collect()))]
}

pub fn losses(losses: &[u32]) -> Fields {
    let one =
        |(section, loss): (u8, &u32)| Json::Object(vec![("section", section.into()), ("loss_cm", (*loss).into())]);
    vec![("losses", Json::List((1..).zip(losses).map(one).collect()))]
}

/// A meter by its place in the list.
pub fn of_meter(place: i64, meter: &Meter) -> Fields {
    vec![
        ("meter", place.into()),
        ("type", meter.design.into()),
        ("type_name", Json::text(meter::name(meter.design))),
        ("resistance_ten_thousandths", meter.resistance.into()),
        ("service_flow_l_per_h", meter.service.into()),
    ]
}
