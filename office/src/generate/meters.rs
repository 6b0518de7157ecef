//! Lists of meters made to measure for a house: losses and service flows at the limits and beside them, and losses that are
//! equal once they are rounded.

use super::draft::{DraftMeter, meter_bytes};
use super::rng::Rng;
use crate::model::demand::Demand;
use crate::model::house::House;

/// A list that 17 lets through.
pub fn offered(rng: &Rng, house: &House) -> Vec<u8> {
    let demand = Demand::of(house);
    let refused = house.faults().any() || demand.faults().any();
    let (flow, mean) = if refused { (1_000, 1_000) } else { (demand.house_flow() as i64, demand.mean_hour() as i64) };
    // In a short list nothing may qualify; in a list of none but large meters the order decides.
    let limits = if most_lost(flow) < 250 { About::Alike } else { About::Limits };
    let about = rng.pick(&[limits, limits, About::Anything, About::Alike]);
    let mut list: Vec<DraftMeter> = Vec::new();
    for _ in 0..rng.pick(&[1, 1, 2, 2, 3, 4, 6, 8, 8]) {
        let meter = match list.last() {
            Some(last) if matches!(about, About::Alike) => beside(rng, last),
            Some(last) if rng.once_in(8) => beside(rng, last),
            _ => one(rng, about, flow, mean),
        };
        list.push(meter);
    }
    meter_bytes(&list)
}

/// What the meters of a list are like.
#[derive(Clone, Copy)]
enum About {
    /// They lose about as much as they may.
    Limits,
    /// They lose nearly the same.
    Alike,
    Anything,
}

fn one(rng: &Rng, about: About, flow: i64, mean: i64) -> DraftMeter {
    let loss = match about {
        About::Limits => rng.pick(&[249, 250, 250, 251, 499, 500, 500, 501, rng.between(251, 500)]),
        About::Alike => rng.between(1, most_lost(flow).min(300)),
        About::Anything => rng.pick(&[rng.scaled(1, 1_000), 65_536 + rng.between(0, 300), rng.scaled(1, 10_000_000)]),
    };
    // The greatest resistance at which no more than that is lost, or one beside it.
    let resistance = loss * 100_000_000 / (flow * flow) + rng.pick(&[-1, 0, 0, 0, 1]);
    DraftMeter { design: rng.pick(&[1, 2]), resistance: sixteen_bits(resistance), service: service(rng, mean) }
}

/// What the greatest resistance loses, in whole cm. In a house of few residents every meter may lose as much.
fn most_lost(flow: i64) -> i64 {
    65_535 * flow * flow / 100_000_000
}

/// A meter that hardly differs from another one.
fn beside(rng: &Rng, other: &DraftMeter) -> DraftMeter {
    let step = rng.pick(&[-20, -1, 0, 1, 20]);
    DraftMeter {
        design: rng.pick(&[1, 2, other.design]),
        resistance: sixteen_bits(i64::from(other.resistance) + step),
        service: other.service,
    }
}

fn service(rng: &Rng, mean: i64) -> u16 {
    sixteen_bits(match rng.below(8) {
        0 => mean - 1,
        1 => rng.scaled(1, 65_535),
        2 => rng.pick(&[1, 65_535]),
        3 | 4 => mean + rng.scaled(1, 10_000),
        _ => mean,
    })
}

/// The number in the range of a meter's field.
fn sixteen_bits(number: i64) -> u16 {
    number.clamp(1, 65_535) as u16
}
