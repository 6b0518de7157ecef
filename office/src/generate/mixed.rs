//! Houses of mixed use: many fixtures that draw little each, some that draw more, and so few residents that one tap may draw
//! more than the average.

use super::draft::{Draft, DraftSection};
use super::houses;
use super::lines::Line;
use super::rng::Rng;

/// Kinds whose tap draws 140, 200 and 300 ml/s, and in a cold or a hot line 100, 140 and 200.
const BASINS: [u8; 2] = [11, 12];
const SHOWERS: [u8; 5] = [2, 3, 5, 9, 10];
const BATHS: [u8; 5] = [1, 4, 6, 7, 8];

pub fn mixed(rng: &Rng, line: Line, large_once_in: u64) -> Draft {
    if rng.once_in(6) { crowded(rng, line) } else { of_few_residents(rng, line, large_once_in) }
}

/// A tree of any form with two or three kinds at its ends. Where most fixtures of a kind are at one end, the others hardly count
/// in an average.
fn of_few_residents(rng: &Rng, line: Line, large_once_in: u64) -> Draft {
    let mut draft = houses::house(rng, line, large_once_in);
    // A section alone serves one kind.
    while draft.sections.len() == 1 {
        draft = houses::house(rng, line, large_once_in);
    }
    let (basins, showers, baths) = (rng.pick(&BASINS), rng.pick(&SHOWERS), rng.pick(&BATHS));
    let palette = rng.pick(&[
        [basins, basins, showers],
        [basins, basins, baths],
        [showers, showers, baths],
        [basins, showers, baths],
    ]);
    let few = rng.once_in(2);
    for s in draft.sections.iter_mut().filter(|s| s.kind > 0) {
        s.kind = rng.pick(&palette);
        if few && !rng.once_in(3) {
            s.fixtures = rng.between(1, 4) as u16;
        }
    }
    draft.residents = [0; 12];
    for kind in draft.kinds() {
        draft.residents[kind - 1] = rng.pick(&[1, 1, 1, 1, 2, 5]);
    }
    draft
}

/// A few basins and baths with an hour sum of 100,000 for each fixture, where 9 begins, or beside it.
fn crowded(rng: &Rng, line: Line) -> Draft {
    let (basins, baths) = (rng.between(5, 40), rng.between(2, 8));
    let end = |parent: u8, kind: u8, fixtures: i64| DraftSection {
        parent,
        kind,
        fixtures: fixtures as u16,
        length: 60,
        elevation: 300,
        free: 200,
    };
    // So many residents of kind 8 have so many times 100,000, and so many of kind 11 have it once.
    let (bathers, times, each) = match line {
        Line::Unnamed | Line::Total => (1, 1, 2),
        Line::Cold => (10, 7, 3),
        Line::Hot => (5, 4, 3),
    };
    let mut residents = [0; 12];
    residents[7] = bathers;
    residents[10] = (each * (basins + baths - times) + rng.pick(&[-1, 0, 0, 1])).max(1) as u16;
    Draft {
        line,
        k: rng.pick(&[2, 3]),
        hours: rng.between(1, 24) as u8,
        meter: 20,
        guaranteed: 300,
        delivered: rng.pick(&[600, 900, 3_000]),
        limit: 3_000,
        residents,
        sections: vec![end(0, 11, 1), end(1, 8, 1), end(0, 11, basins - 1), end(3, 8, baths - 1)],
    }
}
