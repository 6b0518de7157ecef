//! Losses for the heads call: what a table gives, what somebody may note on a site, and any that 19 lets through.

use super::draft::Draft;
use super::rng::Rng;
use crate::case::Case;
use crate::model::catalogue::Catalogue;
use crate::model::heads::{Heads, MOST_LOSS};
use crate::model::house::House;
use crate::model::rating::Order;

/// A loss for each section. The guaranteed head is often put where the pump head begins.
pub fn given(rng: &Rng, draft: &mut Draft, case: &Case, flows: &[i128]) -> Vec<u8> {
    let lowest = rng.once_in(30);
    if lowest {
        lower(draft);
    }
    let house = House::of(&draft.bytes());
    let mut losses = match rng.below(9) {
        _ if lowest => vec![0; house.sections.len()],
        0..3 => of_table(&house, case, flows).unwrap_or_else(|| noted(rng, &house)),
        3 | 4 => noted(rng, &house),
        5 => vec![i128::from(rng.scaled(0, MOST_LOSS as i64)); house.sections.len()],
        6 => house.sections.iter().map(|_| i128::from(rng.scaled(0, MOST_LOSS as i64))).collect(),
        _ => extremes(rng, &house),
    };
    if rng.once_in(3) {
        tie(&house, &mut losses);
    }
    if !rng.once_in(3) {
        let beside = i128::from(rng.pick(&[-1, 0, 0, 1]));
        draft.guaranteed = (Heads::of(&house, &losses).required + beside).clamp(0, 6_000) as u16;
    }
    losses.iter().flat_map(|loss| (*loss as u32).to_be_bytes()).collect()
}

/// All ends as low as they may be: with losses of 0 the required head is the least there is.
fn lower(draft: &mut Draft) {
    draft.meter = 0;
    draft.sections.iter_mut().for_each(|s| (s.elevation, s.free) = (-1_000, 0));
}

/// What the case's list of sizes loses; `None` where the job is refused or the list can't be rated.
fn of_table(house: &House, case: &Case, flows: &[i128]) -> Option<Vec<i128>> {
    if flows.is_empty() {
        return None;
    }
    let order = Order { house, cat: &Catalogue::of(&case.cat), flows };
    Some(order.fit(&case.sizes)?.iter().map(|fitted| fitted.loss).collect())
}

/// Up to some cm for each metre; a few sections have none.
fn noted(rng: &Rng, house: &House) -> Vec<i128> {
    let most = rng.pick(&[1, 10, 40]);
    let of = |length: i128| if rng.once_in(6) { 0 } else { rng.between(0, 1 + most * length as i64 / 10) };
    house.sections.iter().map(|s| i128::from(of(s.length))).collect()
}

/// The least, the most, or either of them and their neighbours.
fn extremes(rng: &Rng, house: &House) -> Vec<i128> {
    let from = rng.pick(&[[0; 4], [0; 4], [MOST_LOSS; 4], [0, 1, MOST_LOSS - 1, MOST_LOSS]]);
    house.sections.iter().map(|_| rng.pick(&from)).collect()
}

/// The last section, which is nobody's parent, reaches as high as the highest of the others, if it can.
fn tie(house: &House, losses: &mut [i128]) {
    let last = losses.len() - 1;
    losses[last] = 0;
    let reaches = Heads::of(house, losses).reaches;
    let others = reaches[..last].iter().max();
    losses[last] = others.map_or(0, |highest| highest - reaches[last]).clamp(0, MOST_LOSS);
}
