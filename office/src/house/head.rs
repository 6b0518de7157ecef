//! The lines of the house itself: service, losses, hours, heads, limit and residents.

use crate::at::{At, Field, Lines};
use crate::kinds;
use crate::line::Line;
use crate::measure::{self, Measure, Quantity};
use crate::mistake::Mistake;
use crate::record::{Record, SERVED};
use crate::service::{self, TOTAL};

/// The fields that have a line of their own, in the order in which they are shown.
const FIELDS: [(Field, &Measure); 8] = [
    (Field::Stated, &measure::BYTES),
    (Field::Version, &measure::JOB_VERSION),
    (Field::Losses, &measure::TENTHS),
    (Field::Hours, &measure::HOURS),
    (Field::Meter, &measure::METER),
    (Field::Guaranteed, &measure::GUARANTEED),
    (Field::Delivered, &measure::DELIVERED),
    (Field::Limit, &measure::VELOCITY),
];

/// What has been read so far.
#[derive(Default)]
pub struct Head {
    values: [Option<i64>; FIELDS.len()],
    residents: [Option<u16>; 12],
    service: Option<u8>,
    /// The lines of version and service, for what the two say together.
    version_line: Option<(usize, String)>,
    service_line: Option<(usize, String)>,
}

impl Head {
    /// Takes a line that is no section's.
    pub fn take(&mut self, line: &mut Line, places: &mut Lines) -> Result<(), Mistake> {
        if line.begins("residents") {
            return self.take_residents(line, places);
        }
        if line.begins(Field::Service.name()) {
            return self.take_service(line, places);
        }
        for (place, (field, measure)) in FIELDS.iter().enumerate() {
            if line.begins(field.name()) {
                once(line, places, At::Field(*field))?;
                self.values[place] = Some(line.quantity(field.name(), measure, &[])?);
                if *field == Field::Version {
                    self.version_line = Some((line.number, line.text.to_string()));
                }
                return line.end(&format!("one `{}` on its line; comments begin with #", field.name()));
            }
        }
        let known = FIELDS.iter().skip(2).map(|(field, _)| field.name()).collect::<Vec<_>>().join(", ");
        Err(line.mistake(
            format!("`{}` begins no line of a house", line.first()),
            format!("one of: {known}, service, residents, section; comments begin with #"),
        ))
    }

    fn take_residents(&mut self, line: &mut Line, places: &mut Lines) -> Result<(), Mistake> {
        let Some(word) = line.word() else {
            return Err(line.mistake("`residents` names no kind", "for example `residents hotel-100 71`"));
        };
        let Some(kind) = kinds::kind(&word).filter(|kind| (1..=kinds::KINDS).contains(kind)) else {
            let wrong = format!("`{word}` is no kind that has residents");
            return Err(line.mistake(wrong, format!("one of: {}", kinds::names_from(1))));
        };
        once(line, places, At::Residents(kind))?;
        let count = line.quantity(&format!("residents {}", kinds::name(kind)), &measure::COUNT, &[])?;
        self.residents[usize::from(kind) - 1] = Some(count as u16);
        line.end("one kind and its residents on a line; comments begin with #")
    }

    fn take_service(&mut self, line: &mut Line, places: &mut Lines) -> Result<(), Mistake> {
        once(line, places, At::Field(Field::Service))?;
        let Some(word) = line.word() else {
            return Err(line.mistake("`service` names nothing", SERVICES));
        };
        let Some(found) = service::service(&word) else {
            let number = !word.is_empty() && word.bytes().all(|b| b.is_ascii_digit());
            let why = match word.trim_start_matches('0').len() {
                _ if !number => "",
                // The numbers that have names have one digit; the others that are no service have at least three.
                0..=1 => "; it is given by its name",
                _ => "; the record has a byte for it, which holds up to 255",
            };
            return Err(line.mistake(format!("`{word}` is no service{why}"), SERVICES));
        };
        line.end(&format!("one service on its line: {SERVICES}"))?;
        self.service = Some(found);
        self.service_line = Some((line.number, line.text.to_string()));
        Ok(())
    }

    /// A version and a service that don't go together. Version 1 has no byte for a service, so that a line of it would be packed
    /// as all water without a word; and version 2 has one, which nobody gave.
    pub fn contradiction(&self, places: &Lines) -> Option<Mistake> {
        let (version, (number, text)) = (self.version()?, self.version_line.as_ref()?);
        match (&self.service, &self.service_line) {
            (Some(service), Some((number, text))) if version != SERVED && (version, *service) != (1, TOTAL) => {
                let always = if version == 1 { "version 1 is always total" } else { "only version 2 has a service" };
                let wrong = format!("`service {}` is not for `version {version}`: {always}", service::name(*service));
                Some(Mistake::on(
                    *number,
                    text,
                    wrong,
                    "no line `version`: a house with a service is packed as version 2",
                ))
            }
            (None, _) if version == SERVED && places.of(At::Field(Field::Service)).is_none() => {
                let expected = format!("{SERVICES}; then the line `version` may go");
                Some(Mistake::on(*number, text, "`version 2` has a service, and no line gives it", expected))
            }
            _ => None,
        }
    }

    /// The version, where a line gives it.
    fn version(&self) -> Option<u8> {
        self.values[1].map(|version| version as u8)
    }

    /// The stated length, where a line gives it.
    pub fn stated(&self) -> Option<i64> {
        self.values[0]
    }

    /// Lines that the file lacks. One that is there with a mistake in it is not lacking.
    pub fn missing(&self, places: &Lines) -> Vec<Mistake> {
        FIELDS
            .iter()
            .skip(2)
            .filter(|(field, _)| places.of(At::Field(*field)).is_none())
            .map(|(field, measure)| Mistake::lacking(lacks(*field), measure.example(field.name())))
            .collect()
    }

    /// The record without its sections. Unless a line says otherwise the version is 2 where there is a service and 1 where there is
    /// none; residents that no line gives are 0.
    pub fn record(&self) -> Record {
        let value = |place: usize| self.values[place].unwrap_or(0);
        Record {
            stated: value(0) as u32,
            version: self.version().unwrap_or(if self.service.is_some() { SERVED } else { 1 }),
            tenths: value(2) as u8,
            hours: value(3) as u8,
            meter: value(4) as u16,
            guaranteed: value(5) as u16,
            delivered: value(6) as u16,
            limit: value(7) as u16,
            residents: self.residents.map(|count| count.unwrap_or(0)),
            service: self.service.unwrap_or(TOTAL),
            sections: Vec::new(),
        }
    }
}

/// What a line `service` may say.
const SERVICES: &str = "`service total` (cold and hot together), `service cold` or `service hot`";

/// What is wrong with a file that lacks a field's line.
pub fn lacks(field: Field) -> String {
    format!("the file has no line `{}`", field.name())
}

/// The quantities of the house's own lines; the first two are for odd records alone.
pub fn quantities() -> impl Iterator<Item = Quantity> {
    let service = Quantity { name: Field::Service.name(), units: String::new(), taken: service::TAKEN };
    let own = FIELDS.iter().skip(2).map(|(field, measure)| Quantity::new(field.name(), measure));
    [service].into_iter().chain(own).chain([Quantity::new("residents", &measure::COUNT)])
}

/// Notes the line of a place, which may be given once only.
pub fn once(line: &Line, places: &mut Lines, at: At) -> Result<(), Mistake> {
    places.once(at, line.number).map_err(|(wrong, expected)| line.mistake(wrong, expected))
}

/// The house's lines. The stated length and the version have a line only where they are not what packing would write; the
/// service has one in version 2.
pub fn show(record: &Record) -> String {
    let values = [
        i64::from(record.stated),
        i64::from(record.version),
        i64::from(record.tenths),
        i64::from(record.hours),
        i64::from(record.meter),
        i64::from(record.guaranteed),
        i64::from(record.delivered),
        i64::from(record.limit),
    ];
    let service = record.stated_service();
    let usual = [record.len() as i64, if service.is_some() { SERVED.into() } else { 1 }];
    let mut text = String::new();
    for (place, (field, measure)) in FIELDS.iter().enumerate() {
        if usual.get(place) != Some(&values[place]) {
            text.push_str(&format!("{} {}\n", field.name(), measure.show(values[place])));
        }
        if let (Field::Version, Some(service)) = (field, service) {
            text.push_str(&format!("service {}\n", service::name(service)));
        }
    }
    for (kind, count) in (1..).zip(record.residents) {
        if count != 0 {
            text.push_str(&format!("residents {} {count}\n", kinds::name(kind)));
        }
    }
    text
}
