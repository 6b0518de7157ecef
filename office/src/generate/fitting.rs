//! A catalogue, sizes, a velocity limit and a delivered head that fit a house, so that answers turn on small differences.

use super::catalogues::Measure;
use super::draft::Draft;
use super::rng::Rng;
use crate::case::{Call, Case};
use crate::model::catalogue::Catalogue;
use crate::model::demand::Demand;
use crate::model::house::House;
use crate::model::rating::Order;

/// Each section's flow, or none where the job is refused. Now and then it is document 01's value, so that the answer turns on
/// what one tap makes of it.
pub fn flows(rng: &Rng, house: &House) -> Vec<i128> {
    let demand = Demand::of(house);
    if house.faults().any() || demand.faults().any() {
        Vec::new()
    } else if rng.once_in(3) {
        demand.averages()
    } else {
        demand.flows()
    }
}

/// A slope at which the longest path loses about as much as there is to lose.
pub fn measure(rng: &Rng, draft: &Draft, house: &House, flows: &[i128]) -> Measure {
    let longest =
        house.paths.iter().map(|path| path.iter().map(|at| house.sections[at - 1].length).sum::<i128>()).max();
    let budget = rng.pick(&[300, 1_000, 3_000]);
    Measure {
        flows: flows.iter().map(|flow| *flow as i64).collect(),
        slope: (budget * 100 / longest.unwrap_or(1).max(1) as i64).clamp(2, 60_000),
        limit: i64::from(draft.limit),
    }
}

/// Sizes for all but choosing, and a velocity limit and a delivered head at or beside the ones where the answer turns.
pub fn fit(rng: &Rng, draft: &mut Draft, case: &mut Case, house: &House, flows: &[i128]) {
    let cat = Catalogue::of(&case.cat);
    let order = Order { house, cat: &cat, flows };
    let any: Vec<u8> = (1..=cat.sizes.len() as u8).collect();
    let fitting = |section: usize| -> Vec<u8> {
        let serves = |t: &u8| order.flows.is_empty() || order.fitted(section, usize::from(*t)).is_some();
        any.iter().copied().filter(serves).collect()
    };
    let careless = rng.once_in(6);
    let mut list = Vec::new();
    for section in 1..=house.sections.len() {
        let from = if careless { any.clone() } else { fitting(section) };
        list.push(rng.pick(if from.is_empty() { &any } else { &from }));
    }
    if !flows.is_empty() && rng.once_in(6) {
        let reading = cat.sizes[usize::from(list[0]) - 1].read(flows[0]);
        let limit = reading.map_or(3_000, |r| r.velocity as i64) - rng.pick(&[0, 0, 1]);
        draft.limit = limit.clamp(1, 3_000) as u16;
    }
    // With the least losses the required head is the least there is: a step under it no list suits.
    let flattest = |section: usize| -> u8 {
        let loss = |t: &u8| order.fitted(section, usize::from(*t)).map(|fitted| fitted.loss);
        any.iter().copied().filter(|t| loss(t).is_some()).min_by_key(|t| loss(t)).unwrap_or(1)
    };
    if case.call == Call::Choose && !flows.is_empty() && !rng.once_in(4) {
        let named = match rng.below(4) {
            0 => list.clone(),
            _ => (1..=house.sections.len()).map(flattest).collect(),
        };
        let beside = rng.pick(&[-1, 0, 0, 1, 20, 200]);
        if let Some(rating) = order.rate(&named) {
            draft.delivered = (rating.heads.required as i64 + beside).clamp(0, 6_000) as u16;
        }
    }
    if case.call != Call::Choose {
        case.sizes = list;
    }
}
