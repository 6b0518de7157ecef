//! Where something lies: in a field, a section, a size. Refusals have such places, and the lines of a readable file too, so
//! that a refusal can be led back to its line.

use crate::kinds;
use crate::service;
use std::fmt;

/// A field of the house, by the words that the readable file has for it.
#[derive(Clone, Copy, Debug, PartialEq, Eq)]
pub enum Field {
    Stated,
    Version,
    Losses,
    Sections,
    Hours,
    Meter,
    Guaranteed,
    Delivered,
    Limit,
    Service,
}

impl Field {
    pub fn name(self) -> &'static str {
        match self {
            Field::Stated => "stated length",
            Field::Version => "version",
            Field::Losses => "local losses",
            Field::Sections => "section count",
            Field::Hours => "hours",
            Field::Meter => "meter loss",
            Field::Guaranteed => "guaranteed head",
            Field::Delivered => "delivered head",
            Field::Limit => "velocity limit",
            Field::Service => "service",
        }
    }
}

/// A place in a job, a catalogue, a list of sizes, of meters or of losses, or a number given beside them. Sections, sizes, rows and
/// meters count from 1.
#[derive(Clone, Copy, Debug, PartialEq, Eq)]
pub enum At {
    /// The job record as a whole.
    Job,
    /// The house as a whole.
    House,
    Field(Field),
    /// A comment of a readable house that is a line `service` in itself, of this service.
    Comment(u8),
    /// The residents of a kind.
    Residents(u8),
    Section(u8),
    /// The catalogue as a whole.
    Catalogue,
    Size(u8),
    Row(u8, u8),
    /// The list of sizes as a whole.
    List,
    /// The size number given for a section.
    Entry(usize),
    /// The list of meters as a whole.
    Meters,
    /// A meter by its place in the list.
    Meter(usize),
    /// The list of losses as a whole.
    Losses,
    /// The loss given for a section.
    Loss(usize),
    /// The cold water's temperature, which the command takes as an option.
    ColdWater,
    /// The heat that is lost, which the command takes as an option.
    HeatLoss,
}

impl fmt::Display for At {
    fn fmt(&self, f: &mut fmt::Formatter) -> fmt::Result {
        match self {
            At::Job => write!(f, "job record"),
            At::House => write!(f, "house"),
            At::Field(field) => write!(f, "{}", field.name()),
            At::Comment(service) => write!(f, "comment `service {}`", service::name(*service)),
            At::Residents(kind) => write!(f, "residents {}", kinds::name(*kind)),
            At::Section(section) => write!(f, "section {section}"),
            At::Catalogue => write!(f, "catalogue"),
            At::Size(size) => write!(f, "size {size}"),
            At::Row(size, row) => write!(f, "size {size} row {row}"),
            At::List => write!(f, "list of sizes"),
            At::Entry(place) => write!(f, "size number {place} of the list"),
            At::Meters => write!(f, "list of meters"),
            At::Meter(place) => write!(f, "meter {place}"),
            At::Losses => write!(f, "list of losses"),
            At::Loss(section) => write!(f, "loss of section {section}"),
            At::ColdWater => write!(f, "cold water"),
            At::HeatLoss => write!(f, "heat loss"),
        }
    }
}

/// The lines on which a readable file has its fields.
#[derive(Clone, Debug, Default, PartialEq, Eq)]
pub struct Lines(Vec<(At, usize)>);

impl Lines {
    pub fn note(&mut self, at: At, line: usize) {
        self.0.push((at, line));
    }

    /// Notes the line of a place that may be given once only. Where it was given before: what is wrong, and what is expected.
    pub fn once(&mut self, at: At, line: usize) -> Result<(), (String, String)> {
        if let Some(first) = self.of(at) {
            return Err((format!("`{at}` is given twice"), format!("one line; the first is line {first}")));
        }
        self.note(at, line);
        Ok(())
    }

    /// The first line that has this place. A size's first row stands for the size.
    pub fn of(&self, at: At) -> Option<usize> {
        let wanted = match at {
            At::Size(size) => At::Row(size, 1),
            other => other,
        };
        self.0.iter().find(|(noted, _)| *noted == wanted).map(|(_, line)| *line)
    }
}
