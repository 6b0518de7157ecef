//! The most that a job and a catalogue may say.

use super::draft::{Draft, DraftSize};
use super::houses;
use super::lines::Line;
use super::rng::Rng;

/// A house of many sections with the longest pipes and the greatest head.
pub fn longest(rng: &Rng, line: Line) -> Draft {
    let mut draft = houses::house(rng, line, 1);
    draft.delivered = 6_000;
    draft.sections.iter_mut().for_each(|s| s.length = rng.pick(&[5_000, 5_000, 4_999]));
    draft
}

/// Sizes at the ends of the ranges: the greatest price with hardly a loss, or the greatest losses.
pub fn greatest(rng: &Rng) -> Vec<DraftSize> {
    let slope = rng.pick(&[1, 1, 65_535]);
    let size = |bore, price| DraftSize { bore, price, rows: vec![(1, 1, slope), (1_000_000, 1, slope)] };
    match rng.below(3) {
        0 => vec![size(1, 10_000)],
        1 => vec![size(1, 10_000), size(65_535, 10_000)],
        _ => vec![size(65_534, 10_000), size(65_535, 9_999)],
    }
}
