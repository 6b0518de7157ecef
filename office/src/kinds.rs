//! Document 01's kinds of consumer: the names that readable files have for them, what they are, and their norms in each service.

use crate::service::{COLD, HOT};

pub struct Kind {
    /// As readable files have it.
    pub name: &'static str,
    /// In document 01's words.
    pub what: &'static str,
    total: Norm,
    hot: Norm,
}

/// What a resident uses and what a fixture gives.
#[derive(Clone, Copy, Debug, PartialEq, Eq)]
pub struct Norm {
    /// D, in litres: a resident on the greatest day.
    pub day: u64,
    /// Q, in tenths of a litre: a resident in the greatest hour.
    pub hour: u64,
    /// Z, in hundredths of l/s: a fixture.
    pub fixture: u64,
    /// O, in l/h: a fixture.
    pub fixture_hour: u64,
}

impl Kind {
    /// The norms of a service: document 01's of all water, document 02's of a line. What is not hot of a resident's water is
    /// cold; a fixture draws the same of either. A service that there is not has the norms of all water.
    pub fn norm(&self, service: u8) -> Norm {
        let Kind { total, hot, .. } = *self;
        match service {
            COLD => Norm { day: total.day - hot.day, hour: total.hour - hot.hour, ..hot },
            HOT => hot,
            _ => total,
        }
    }
}

/// D, Q, Z and O.
const fn norm([day, hour, fixture, fixture_hour]: [u64; 4]) -> Norm {
    Norm { day, hour, fixture, fixture_hour }
}

/// A line of the table: name, words, and the norms of all water and of the hot line.
const fn kind_of(name: &'static str, what: &'static str, total: [u64; 4], hot: [u64; 4]) -> Kind {
    Kind { name, what, total: norm(total), hot: norm(hot) }
}

/// Kinds 1 to 12, in the order of their numbers.
pub const ALL: [Kind; 12] = [
    kind_of("dwelling", "dwelling, highest class", [400, 200, 30, 300], [130, 109, 20, 200]),
    kind_of("hostel-showers", "hostel, shared showers", [100, 104, 20, 100], [60, 63, 14, 60]),
    kind_of("hostel-kitchens", "hostel, kitchens and shower blocks", [160, 120, 20, 100], [90, 75, 14, 60]),
    kind_of("hotel-shared", "hotel, shared baths", [120, 125, 30, 300], [70, 82, 20, 200]),
    kind_of("hotel-showers", "hotel, shower in each room", [230, 190, 20, 115], [140, 120, 14, 80]),
    kind_of("hotel-25", "hotel, baths to 25 %", [200, 224, 30, 250], [100, 104, 20, 180]),
    kind_of("hotel-75", "hotel, baths 75 %", [250, 280, 30, 280], [150, 150, 20, 190]),
    kind_of("hotel-100", "hotel, baths 100 %", [300, 300, 30, 300], [180, 160, 20, 200]),
    kind_of("hospital", "hospital, shared baths", [115, 84, 20, 100], [75, 54, 14, 60]),
    kind_of("polyclinic", "polyclinic", [15, 26, 20, 80], [6, 12, 14, 60]),
    kind_of("offices", "offices", [16, 40, 14, 80], [7, 20, 10, 60]),
    kind_of("schools", "schools", [20, 27, 14, 100], [8, 12, 10, 60]),
];

/// How many kinds have residents: 1 to 12.
pub const KINDS: u8 = ALL.len() as u8;

/// The name of kind 0, a junction: a section whose end has no fixtures.
pub const JUNCTION: &str = "none";

/// The names of kinds 0 to 12.
fn names() -> impl Iterator<Item = &'static str> {
    [JUNCTION].into_iter().chain(ALL.iter().map(|kind| kind.name))
}

/// A kind's name. A byte that document 01 has no kind for is shown as its number, so that a refused record can be looked at.
pub fn name(kind: u8) -> String {
    match names().nth(usize::from(kind)) {
        Some(name) => name.to_string(),
        None => kind.to_string(),
    }
}

/// The kind of a name or of a number from 0 to 255.
pub fn kind(word: &str) -> Option<u8> {
    match names().position(|name| name == word) {
        Some(at) => Some(at as u8),
        None if word.bytes().all(|b| b.is_ascii_digit()) => word.parse().ok(),
        None => None,
    }
}

/// The names for a message, from `first` on.
pub fn names_from(first: u8) -> String {
    names().skip(usize::from(first)).collect::<Vec<_>>().join(", ")
}

#[cfg(test)]
mod tests {
    use super::*;
    use crate::model::norms;

    #[test]
    fn every_kind_comes_back() {
        for byte in 0..=255 {
            assert_eq!(kind(&name(byte)), Some(byte));
        }
        assert_eq!(kind("hotel"), None);
        assert_eq!(kind("256"), None);
        assert_eq!(kind(""), None);
    }

    /// Of every service, and of a number that is none.
    #[test]
    fn the_norms_are_those_of_the_model() {
        for service in 0..=3 {
            for (number, kind) in (1..).zip(&ALL) {
                let Norm { day, hour, fixture, fixture_hour } = kind.norm(service);
                let model = norms::of(service.into(), number);
                let other = [model.day, model.hour, model.fixture, model.fixture_hour];
                assert_eq!([day, hour, fixture, fixture_hour].map(i128::from), other, "{} {service}", kind.name);
            }
        }
    }

    /// Worked out by hand from documents 01 and 02: kinds 1, 7 and 11, of which document 01 has 400, 250 and 16 litres a day.
    #[test]
    fn cold_is_total_less_hot() {
        let cold = |kind: usize| ALL[kind - 1].norm(COLD);
        assert_eq!(cold(1), norm([270, 91, 20, 200]));
        assert_eq!(cold(7), norm([100, 130, 20, 190]));
        assert_eq!(cold(11), norm([9, 20, 10, 60]));
        for kind in &ALL {
            let [total, cold, hot] = [0, COLD, HOT].map(|service| kind.norm(service));
            assert_eq!((cold.day + hot.day, cold.hour + hot.hour), (total.day, total.hour), "{}", kind.name);
            assert_eq!((cold.fixture, cold.fixture_hour), (hot.fixture, hot.fixture_hour), "{}", kind.name);
            assert!(cold.day > 0 && cold.hour > 0, "{}", kind.name);
        }
    }
}
