//! Where a refusal lies, and why, in words.
//!
//! The library gives a number and no place. What is worked out here stands beside that number and never in place of it: the
//! number comes in, only its own rule is looked at, and where no place is found the list is empty and the number stands.

mod choice;
mod demand;
mod flows;
mod heat;
mod list;
mod losses;
mod meters;
mod pipe;
mod sections;
mod shape;
mod sizes;

use crate::at::At;
use crate::refusal::Refusal;
pub use choice::gentlest;
pub use heat::{MOST_COLD, MOST_LOSS};
pub use pipe::{first_row_mark, read as reading};
use std::fmt;

/// One place that a refusal lies at.
#[derive(Clone, Debug, PartialEq, Eq)]
pub struct Place {
    pub at: At,
    pub why: String,
}

impl Place {
    pub(crate) fn new(at: At, why: impl Into<String>) -> Place {
        Place { at, why: why.into() }
    }
}

impl fmt::Display for Place {
    fn fmt(&self, f: &mut fmt::Formatter) -> fmt::Result {
        write!(f, "{}: {}", self.at, self.why)
    }
}

/// What the refused call was given. A call that takes no catalogue, no sizes, no meters, no losses or no heating has none here.
#[derive(Clone, Copy, Debug, Default)]
pub struct Asked<'a> {
    pub job: &'a [u8],
    pub cat: &'a [u8],
    pub sizes: &'a [u8],
    pub meters: &'a [u8],
    pub losses: &'a [u8],
    pub heating: Option<Heating>,
}

/// What the heat call is given beside the job.
#[derive(Clone, Copy, Debug, PartialEq, Eq)]
pub struct Heating {
    /// Temperature of the cold water in degrees C.
    pub cold: u32,
    /// Heat that is lost, in watts.
    pub loss: u32,
}

/// Hundredths of a watt that heat a litre an hour by one degree, and the temperature of hot water in degrees C, as formulas 10 and 11
/// have them.
pub const PER_LITRE: u64 = 116;
pub const HOT: u64 = 55;

impl Heating {
    /// What the water of an hour itself takes, in watts: formulas 10 and 11 without the loss.
    pub fn of_water(&self, litres: u32) -> u64 {
        (PER_LITRE * u64::from(litres) * (HOT - u64::from(self.cold).min(HOT))).div_ceil(100)
    }
}

/// All places at which this refusal lies, in the order of the file.
pub fn places(refusal: &Refusal, asked: &Asked) -> Vec<Place> {
    let of_shape = |found: Vec<Place>| shape::another(asked).into_iter().chain(found).collect();
    match refusal {
        Refusal::JobLength => of_shape(shape::length(asked.job)),
        Refusal::JobVersion => of_shape(shape::version(asked.job)),
        Refusal::HeaderRange => of_shape(shape::ranges(asked.job)),
        Refusal::SectionBytes => of_shape(shape::count(asked.job)),
        Refusal::SectionRules => sections::rules(asked.job),
        Refusal::ChildlessKind => sections::childless(asked.job),
        Refusal::Residents => sections::residents(asked.job),
        Refusal::DemandOverTable => demand::over_table(asked.job),
        Refusal::DemandOverFixtures => demand::over_fixtures(asked.job),
        Refusal::CatalogueShape => sizes::shape(asked.cat),
        Refusal::CatalogueRules => sizes::rules(asked.cat),
        Refusal::SizeList => list::names(asked),
        Refusal::SizeTooSmall => list::too_small(asked),
        Refusal::NoSuitableList => choice::none_suits(asked),
        Refusal::MeterList => meters::rules(asked.meters),
        Refusal::NoMeter => meters::none_qualifies(asked),
        Refusal::LossList => losses::rules(asked),
        Refusal::NotHot => heat::not_hot(asked.job),
        Refusal::HeatRange => heat::ranges(asked.heating),
        Refusal::ResultShort | Refusal::WorkShort | Refusal::Unknown(_) => Vec::new(),
    }
}
