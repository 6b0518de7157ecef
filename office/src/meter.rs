//! The meters of a list as its bytes hold them, and how each of them fares in a house.
//!
//! Which meter wins is the library's answer. What is worked out here stands beside it: the losses of all meters, and by how
//! much one that does not qualify breaks its limits.

use crate::calls::Metered;
use crate::refusal::Refusal;
use std::fmt;
use std::ops::Range;

/// Where a job record has its meter loss.
const LOSS: Range<usize> = 8..10;

/// The meter loss of a job record in cm, where it reaches that far.
pub fn meter_loss(job: &[u8]) -> Option<u16> {
    job.get(LOSS).map(|two| u16::from_be_bytes([two[0], two[1]]))
}

/// Bytes of a meter.
pub const METER: usize = 5;
/// Meters of a list that the library takes.
pub const MOST: usize = 8;

/// The types that document 02 has, from 1: their names in readable files, and the most that such a meter may lose, in cm.
const TYPES: [(&str, u16); 2] = [("vane", 500), ("turbine", 250)];

#[derive(Clone, Copy, Debug, Default, PartialEq, Eq)]
pub struct Meter {
    /// The type: 1 vane, 2 turbine.
    pub design: u8,
    /// Ten-thousandths of m per (l/s) squared.
    pub resistance: u16,
    /// l/h
    pub service: u16,
}

/// Bytes that are no list of whole meters.
#[derive(Clone, Debug, PartialEq, Eq)]
pub struct NoMeters {
    pub given: usize,
}

impl fmt::Display for NoMeters {
    fn fmt(&self, f: &mut fmt::Formatter) -> fmt::Result {
        match self.given {
            0 => write!(f, "0 bytes, but a meter has {METER}"),
            given if given % METER == 0 => {
                write!(f, "{given} bytes, but it does not begin with a meter's type, 1 or 2")
            }
            given => write!(f, "{given} bytes, but {METER} for each meter are {}", given - given % METER),
        }
    }
}

impl std::error::Error for NoMeters {}

/// The meters of any bytes that are whole meters, at least one.
pub fn read(bytes: &[u8]) -> Result<Vec<Meter>, NoMeters> {
    if bytes.is_empty() || bytes.len() % METER != 0 {
        return Err(NoMeters { given: bytes.len() });
    }
    Ok(bytes.chunks_exact(METER).map(Meter::of).collect())
}

/// Whether bytes are a list of meters and nothing else: a job and a catalogue begin with 0, and no text begins so.
pub fn is_list(bytes: &[u8]) -> bool {
    read(bytes).is_ok_and(|meters| meters.len() <= MOST && meters.iter().all(|meter| meter.limit().is_some()))
}

/// Whether bytes begin as a list of meters does, with a type that there is. No text does, and no other record.
pub fn begins(bytes: &[u8]) -> bool {
    bytes.first().is_some_and(|first| (1..=TYPES.len()).contains(&usize::from(*first)))
}

/// A type's name. A byte that document 02 has no type for is shown as its number, so that a refused list can be looked at.
pub fn name(design: u8) -> String {
    let known = usize::from(design).checked_sub(1).and_then(|place| TYPES.get(place));
    known.map_or(design.to_string(), |(name, _)| name.to_string())
}

/// The type of a name.
pub fn design(word: &str) -> Option<u8> {
    (1..).zip(TYPES).find(|(_, (name, _))| *name == word).map(|(design, _)| design)
}

/// The names of the types with the most that each may lose, in cm.
pub fn types() -> impl Iterator<Item = (&'static str, u16)> {
    TYPES.into_iter()
}

impl Meter {
    /// The fields of five bytes.
    pub(crate) fn of(five: &[u8]) -> Meter {
        let two = |at: usize| u16::from_be_bytes([five[at], five[at + 1]]);
        Meter { design: five[0], resistance: two(1), service: two(3) }
    }

    pub fn bytes(&self) -> [u8; METER] {
        let ([high, low], [first, second]) = (self.resistance.to_be_bytes(), self.service.to_be_bytes());
        [self.design, high, low, first, second]
    }

    /// The most that a meter of this type may lose, in cm; none where there is no such type.
    pub fn limit(&self) -> Option<u16> {
        TYPES.get(usize::from(self.design).checked_sub(1)?).map(|(_, limit)| *limit)
    }

    /// What it loses at a flow in ml/s, in cm: resistance × flow × flow / 100,000,000, up.
    pub fn loss(&self, flow: u32) -> u64 {
        (u64::from(self.resistance) * u64::from(flow) * u64::from(flow)).div_ceil(100_000_000)
    }
}

/// A meter in a house.
#[derive(Clone, Copy, Debug, PartialEq, Eq)]
pub struct Fit {
    pub meter: Meter,
    /// At the house's design flow, in cm.
    pub loss: u64,
    /// In cm; 0 where there is no such type.
    pub limit: u64,
    /// How many cm the loss is over the limit.
    pub over_limit: u64,
    /// How many l/h the mean hour is over the service flow.
    pub over_service: u64,
}

impl Fit {
    /// A meter in a house of this design flow in ml/s and this mean hour in l/h.
    pub fn of(meter: Meter, flow: u32, mean_hour: u32) -> Fit {
        let (loss, limit) = (meter.loss(flow), u64::from(meter.limit().unwrap_or(0)));
        let over_service = u64::from(mean_hour).saturating_sub(meter.service.into());
        Fit { meter, loss, limit, over_limit: loss.saturating_sub(limit), over_service }
    }

    pub fn qualifies(&self) -> bool {
        self.over_limit == 0 && self.over_service == 0
    }

    /// The limits that it breaks, and by how much.
    pub fn broken(&self) -> Vec<String> {
        let Fit { over_limit, over_service, .. } = self;
        let limit = (*over_limit > 0).then(|| format!("its loss is over its limit by {over_limit} cm"));
        let service =
            (*over_service > 0).then(|| format!("the mean hour is over its service flow by {over_service} l/h"));
        limit.into_iter().chain(service).collect()
    }
}

/// The place, from 1, of the meter that qualifies with the least loss; of several the first.
pub fn least(fits: &[Fit]) -> Option<usize> {
    let qualified = (1..).zip(fits).filter(|(_, fit)| fit.qualifies());
    qualified.min_by_key(|(_, fit)| fit.loss).map(|(place, _)| place)
}

/// Where the library's answer is another than the losses that are worked out here, in words. Either of the two is wrong then,
/// and neither may be shown.
pub fn difference(job: &[u8], fits: &[Fit], found: &Result<Metered, Refusal>) -> Option<String> {
    let least = least(fits);
    let own = least.map_or("none".to_string(), |place| format!("meter {place}"));
    let metered = match found {
        Ok(metered) => metered,
        Err(Refusal::NoMeter) if least.is_some() => return Some(format!("the library picks none, the command {own}")),
        Err(_) => return None,
    };
    let place = usize::from(metered.place);
    if least != Some(place) {
        return Some(format!("the library picks meter {place}, the command {own}"));
    }
    let (given, loss) = (meter_loss(&metered.job).map(u64::from), fits[place - 1].loss);
    if given != Some(loss) {
        let given = given.unwrap_or(0);
        return Some(format!("meter {place} loses {given} cm by the library and {loss} cm by the command"));
    }
    let others = |job: &[u8]| [job.get(..LOSS.start).unwrap_or(job), job.get(LOSS.end..).unwrap_or(&[])].concat();
    (others(job) != others(&metered.job))
        .then(|| "the library's record differs from the house in more than its meter loss".to_string())
}

#[cfg(test)]
mod tests {
    use super::*;

    /// Document 01's own case by hand: 2,052 × 2,052 = 4,210,704; 5,000 times that over 100,000,000 is 210.5 and a bit.
    #[test]
    fn losses_of_the_own_case() {
        for (resistance, loss) in [(5_000, 211), (1_430, 61), (13_000, 548), (2, 1), (1, 1), (65_535, 2_760)] {
            let meter = Meter { design: 1, resistance, service: 740 };
            assert_eq!(meter.loss(2_052), loss, "{resistance}");
        }
        // A whole quotient is not rounded: 2,500 × 200 × 200 is 100,000,000.
        assert_eq!(Meter { design: 2, resistance: 2_500, service: 1 }.loss(200), 1);
        assert_eq!(Meter { design: 2, resistance: 2_501, service: 1 }.loss(200), 2);
    }

    #[test]
    fn a_limit_itself_is_kept() {
        let of = |design, resistance, service| Fit::of(Meter { design, resistance, service }, 1_000, 740);
        assert!(of(1, 50_000, 740).qualifies() && of(2, 25_000, 740).qualifies());
        assert_eq!(of(1, 50_001, 740).broken(), ["its loss is over its limit by 1 cm"]);
        assert_eq!(of(2, 25_001, 740).broken(), ["its loss is over its limit by 1 cm"]);
        assert_eq!(of(1, 1, 739).broken(), ["the mean hour is over its service flow by 1 l/h"]);
        assert_eq!(of(2, 26_000, 700).broken().len(), 2);
        assert!(!of(3, 1, 740).qualifies(), "there is no such type");
    }

    #[test]
    fn of_equal_losses_the_first_wins() {
        let fits = |resistances: &[u16]| -> Vec<Fit> {
            let meter = |resistance: &u16| Meter { design: 1, resistance: *resistance, service: 740 };
            resistances.iter().map(meter).map(|meter| Fit::of(meter, 2_052, 740)).collect()
        };
        assert_eq!(least(&fits(&[2, 1])), Some(1), "both lose 1 cm");
        assert_eq!(least(&fits(&[1, 2])), Some(1));
        assert_eq!(least(&fits(&[5_000, 1_430, 13_000])), Some(2));
        assert_eq!(least(&fits(&[13_000])), None);
    }

    /// An answer that is not the one worked out here is never shown, whichever part of it differs.
    #[test]
    fn every_difference_is_found() {
        let job: Vec<u8> = (0..50).collect();
        let meter = |design, resistance| Meter { design, resistance, service: 6_400 };
        let fits = [meter(1, 13_000), meter(1, 5_000), meter(2, 1_430)].map(|meter| Fit::of(meter, 2_052, 740));
        let with = |place: u8, loss: u16, at: usize| {
            let mut job = job.clone();
            job[LOSS].copy_from_slice(&loss.to_be_bytes());
            job[at] ^= u8::from(at != 8);
            Ok(Metered { place, job })
        };
        assert_eq!(difference(&job, &fits, &with(3, 61, 8)), None);
        let none = Err(Refusal::NoMeter);
        assert_eq!(difference(&job, &fits[..1], &none), None);
        assert_eq!(difference(&job, &fits, &Err(Refusal::MeterList)), None);
        for (fits, found, wanted) in [
            (&fits[..], with(2, 211, 8), "the library picks meter 2, the command meter 3"),
            (&fits, with(0, 61, 8), "the library picks meter 0, the command meter 3"),
            (&fits, with(9, 61, 8), "the library picks meter 9, the command meter 3"),
            (&fits[..1], with(1, 548, 8), "the library picks meter 1, the command none"),
            (&fits, with(3, 60, 8), "meter 3 loses 60 cm by the library and 61 cm by the command"),
            (&fits, with(3, 61, 7), "more than its meter loss"),
            (&fits, with(3, 61, 49), "more than its meter loss"),
            (&fits, Ok(Metered { place: 3, job: [&job[..8], &[0, 61], &job[10..], &[0]].concat() }), "more than"),
            (&fits, Ok(Metered { place: 3, job: vec![0; 9] }), "meter 3 loses 0 cm"),
            (&fits, none, "the library picks none, the command meter 3"),
        ] {
            let said = difference(&job, fits, &found).expect(wanted);
            assert!(said.contains(wanted), "{said}");
        }
    }

    #[test]
    fn bytes_of_a_list() {
        let list = [1, 0x13, 0x88, 0x19, 0x00, 2, 0x05, 0x96, 0x2e, 0xe0];
        let meters = read(&list).expect("two meters");
        assert_eq!(meters[0], Meter { design: 1, resistance: 5_000, service: 6_400 });
        assert_eq!(meters[1], Meter { design: 2, resistance: 1_430, service: 12_000 });
        assert_eq!(meters.iter().flat_map(Meter::bytes).collect::<Vec<u8>>(), list);
        assert!(is_list(&list) && is_list(&list[..5]) && !is_list(&list[..9]) && !is_list(&[]));
        assert!(!is_list(&[3, 0, 1, 0, 1]) && !is_list(&list.repeat(5)));
    }
}
