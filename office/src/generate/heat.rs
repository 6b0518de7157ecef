//! What is asked of the heat call beside its job.

use super::draft::Draft;
use super::rng::Rng;

/// The cold water's temperature and the stated loss, in their ranges and often at their ends.
pub fn asked(rng: &Rng) -> (u32, u32) {
    let t = if rng.once_in(3) { rng.pick(&[0, 0, 1, 29, 30, 30]) } else { rng.between(0, 30) };
    let loss =
        if rng.once_in(3) { rng.pick(&[0, 0, 1, 999_999, 1_000_000, 1_000_000]) } else { rng.scaled(0, 1_000_000) };
    (t as u32, loss as u32)
}

/// As many residents as 8 lets pass, all of whose water is drawn in one hour a day, and fixtures for all of them.
pub fn many_residents(draft: &mut Draft) {
    draft.hours = 1;
    draft.sections.iter_mut().filter(|s| s.kind > 0).for_each(|s| s.fixtures = 60_000);
    let kinds = draft.kinds();
    for kind in &kinds {
        let norm = draft.line.norm(*kind);
        let most = 4_000 * norm.fixture_hour / norm.hour / kinds.len() as i128;
        draft.residents[kind - 1] = most.clamp(1, 65_535) as u16;
    }
}

/// 21: one of the two or both out of range. Some would be in range if they were cut to 8 or 16 bits, or taken as negative numbers.
pub fn out_of_range(rng: &Rng, t: &mut u32, loss: &mut u32) {
    let which = rng.below(5);
    if which < 3 {
        *t = rng.pick(&[31, 31, 31, 32, 54, 55, 56, 255, 256, 261, 65_541, 1 << 31, u32::MAX]);
    }
    if which > 1 {
        *loss = rng.pick(&[1_000_001, 1_000_001, 1_000_002, 1 << 24, 1 << 31, u32::MAX - 999_999, u32::MAX]);
    }
}
