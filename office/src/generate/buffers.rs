//! The buffers that a case lends.

use super::rng::Rng;
use crate::case::{Buffer, Call, Case};
use crate::model::{self, house::House};

/// The buffers: exactly enough, longer, or short, and filled with anything.
pub fn lend(rng: &Rng, case: &mut Case, spoilt: [u32; 2]) {
    let house = House::of(&case.job);
    let needed = model::result_bytes(case.call, &house);
    case.out = buffer(rng, needed, spoilt.contains(&14));
    if case.call == Call::Choose {
        let needed = model::work_bytes(house.sections.len().min(63), house.delivered.min(6_000) as usize);
        case.work = buffer(rng, needed, spoilt.contains(&15));
    }
}

/// A record that states no section needs nothing for some calls.
fn buffer(rng: &Rng, needed: usize, short: bool) -> Buffer {
    let length = match rng.below(if short { 4 } else { 40 }) {
        0 => 0,
        1 => rng.below(needed.max(1) as u64) as usize,
        2 | 3 => needed.saturating_sub(1),
        4..20 => needed,
        _ => needed + rng.pick(&[1, 2, 3, 4, 40, 1_000]),
    };
    let pattern = match rng.below(4) {
        0 => vec![0],
        1 => vec![255],
        _ => rng.bytes(rng.pick(&[1, 2, 3, 4, 5, 7])),
    };
    Buffer { length, pattern }
}
