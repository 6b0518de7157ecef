//! Houses that document 01 accepts, most of the time: trees of several forms, fixtures and residents in proportion.

use super::draft::{Draft, DraftSection};
use super::lines::Line;
use super::rng::Rng;

/// How many sections: mostly few, so that many cases fit into a second, and sometimes as many as there may be.
fn count(rng: &Rng, large_once_in: u64) -> usize {
    if rng.once_in(large_once_in) {
        return rng.pick(&[30, 50, 62, 63, 63]);
    }
    let most = rng.pick(&[1, 3, 5, 8, 12]);
    rng.between(1, most) as usize
}

/// A house with its fields in range. `large_once_in` says how rare houses of many sections are.
pub fn house(rng: &Rng, line: Line, large_once_in: u64) -> Draft {
    let count = count(rng, large_once_in);
    let parents = tree(rng, count);
    let palette = palette(rng);
    let heads = Heads::of(rng);
    let most_fixtures = rng.pick(&[3, 30, 300, 2_000, 65_535]);
    let most_length = rng.pick(&[30, 100, 100, 500, 5_000]);
    let sections = (1..=count).map(|own| {
        let inner = parents.contains(&(own as u8));
        let kind = if inner && !rng.once_in(4) { 0 } else { rng.pick(&palette) };
        DraftSection {
            parent: parents[own - 1],
            kind,
            fixtures: if kind == 0 { 0 } else { rng.between(1, most_fixtures) as u16 },
            length: rng.between(1, most_length) as u16,
            elevation: heads.elevation(rng),
            free: if kind == 0 { 0 } else { heads.free(rng) },
        }
    });
    let mut draft = Draft {
        line,
        k: rng.pick(&[2, 3]),
        hours: rng.between(1, 24) as u8,
        meter: heads.meter(rng),
        guaranteed: rng.scaled(0, 6_000) as u16,
        delivered: heads.delivered(rng),
        limit: rng.pick(&[3_000, 3_000, 2_000, 1_500, 600]),
        residents: [0; 12],
        sections: sections.collect(),
    };
    if rng.once_in(5) {
        alike(&mut draft);
    }
    people(rng, &mut draft);
    draft
}

/// All pipes and all ends the same, so that several ends reach the greatest and several lists cost the least.
fn alike(draft: &mut Draft) {
    let Some(last) = draft.sections.last().cloned() else { return };
    for s in &mut draft.sections {
        (s.length, s.elevation) = (last.length, last.elevation);
        if s.kind > 0 {
            (s.kind, s.fixtures, s.free) = (last.kind, last.fixtures, last.free);
        }
    }
}

/// Each section's parent.
fn tree(rng: &Rng, count: usize) -> Vec<u8> {
    let form = rng.below(5);
    let parent = |own: i64| match form {
        0 => own - 1,                              // one line
        1 => (own - 1).min(1),                     // all on section 1
        2 => rng.between(0, own - 1),              // any, several at the pump too
        3 => own / 2,                              // two by two
        _ => rng.between(own - 3, own - 1).max(0), // long branches
    };
    (1..=count as i64).map(parent).map(|parent| parent as u8).collect()
}

fn palette(rng: &Rng) -> Vec<u8> {
    if rng.once_in(6) {
        return (1..=12).collect();
    }
    (0..rng.between(1, 3)).map(|_| rng.between(1, 12) as u8).collect()
}

/// Residents for each kind that has fixtures, so that 8 and 9 mostly let the house pass.
fn people(rng: &Rng, draft: &mut Draft) {
    let kinds = draft.kinds();
    for kind in &kinds {
        let norm = draft.line.norm(*kind);
        let (hour, fixture_hour) = (norm.hour as i64, norm.fixture_hour as i64);
        // At this many residents each fixture's probability in the hour is 0.1, where 9 begins.
        let crowd = |draft: &Draft| draft.fixtures(*kind) * fixture_hour / hour;
        if crowd(draft) == 0 && !rng.once_in(8) {
            let place =
                draft.sections.iter().position(|s| usize::from(s.kind) == *kind).expect("the kind is in the house");
            draft.sections[place].fixtures += 2;
        }
        // Here the kinds together have the hour sum at which 8 begins.
        let most = (4_000 * fixture_hour / hour / kinds.len() as i64).min(65_535);
        let crowd = crowd(draft).min(most);
        let residents = match rng.below(40) {
            0 => crowd + 1,
            1 => most + 1,
            2..6 => crowd,
            6..12 => 1,
            _ => rng.scaled(1, crowd),
        };
        draft.residents[kind - 1] = residents.clamp(1, 65_535) as u16;
    }
}

/// Where the ends lie and what heads there are.
enum Heads {
    /// A house above its pump.
    Above,
    /// Ends below the pump, so that the required head may be negative.
    Below,
    /// Fields at the ends of their ranges.
    Edges,
}

impl Heads {
    fn of(rng: &Rng) -> Heads {
        match rng.below(10) {
            0..7 => Heads::Above,
            7 | 8 => Heads::Below,
            _ => Heads::Edges,
        }
    }

    fn elevation(&self, rng: &Rng) -> i16 {
        match self {
            Heads::Above => rng.scaled(0, 2_000) as i16,
            Heads::Below => rng.between(-1_000, -500) as i16,
            Heads::Edges => rng.pick(&[-1_000, -999, -1, 0, 1, 5_999, 6_000]),
        }
    }

    fn free(&self, rng: &Rng) -> u16 {
        match self {
            Heads::Above => rng.between(0, 300) as u16,
            Heads::Below => rng.scaled(0, 100) as u16,
            Heads::Edges => rng.pick(&[0, 0, 1, 999, 1_000]),
        }
    }

    fn meter(&self, rng: &Rng) -> u16 {
        match self {
            Heads::Above => rng.scaled(0, 500) as u16,
            Heads::Below => rng.pick(&[0, 0, 5, 300, 1_000]),
            Heads::Edges => rng.pick(&[0, 1, 999, 1_000]),
        }
    }

    fn delivered(&self, rng: &Rng) -> u16 {
        match self {
            Heads::Above => rng.scaled(0, 6_000) as u16,
            Heads::Below => rng.scaled(0, 300) as u16,
            Heads::Edges => rng.pick(&[0, 1, 5_999, 6_000]),
        }
    }
}
