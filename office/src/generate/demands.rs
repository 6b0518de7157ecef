//! Houses whose shares fall on the marks of document 01: keys of Table 2, 15,000, 400,000,000, 200 and 201 fixtures, and
//! 100,000 for each fixture.

use super::draft::{Draft, DraftSection};
use super::lines::Line;
use super::rng::Rng;
use crate::model::alpha;

pub fn marked(rng: &Rng, line: Line) -> Draft {
    match rng.below(4) {
        _ if line == Line::Hot && rng.once_in(5) => crowded_hostel(rng),
        0 => section_at_key(rng, line),
        1 => hour_at_key(rng, line),
        2 => crowded_house(rng, line),
        _ => crowded_section(rng, line),
    }
}

/// A kind, and how many of its residents have an hour sum of 100,000.
fn round_kind(line: Line) -> (usize, i64) {
    if line.is_part() { (11, 3) } else { (8, 1) }
}

/// A section whose m is a key of the table or one beside it, as far as whole fixtures allow.
fn section_at_key(rng: &Rng, line: Line) -> Draft {
    let key = match rng.below(3) {
        0 => 15_000,
        1 => alpha::table()[rng.below(486) as usize].0.min(100_000_000) as i64,
        _ => rng.pick(&[14_999, 15_001, 16_000, 20_000_000]),
    };
    let kind = rng.between(1, 12) as usize;
    let norm = line.norm(kind);
    let (hour, fixture) = (norm.hour as i64, norm.fixture as i64);
    // With all fixtures m is about `each` for a resident, so the section needs `key / (each × residents)` of them.
    let least = key * 9 * fixture / (25_000 * hour) + 1;
    let residents = rng.between(least, least + rng.pick(&[0, 2, 100])).min(65_535);
    let total = rng.between(residents.max(250), 65_535);
    let own = (key * 9 * fixture * total / (25_000 * hour * residents)).clamp(1, total);
    two_ends(rng, line, kind, residents, own, total - own)
}

/// A house whose hour sum is a key.
fn hour_at_key(rng: &Rng, line: Line) -> Draft {
    let (kind, lot) = round_kind(line);
    let lots = match rng.below(4) {
        0 => rng.pick(&[3_999, 4_000, 4_000, 4_001]),
        1 => alpha::table()[rng.below(486) as usize].0 as i64 / 100_000,
        _ => rng.between(1, 300),
    };
    let total = rng.between(lots.clamp(1, 300), 400);
    let own = if rng.once_in(2) { total } else { rng.between(1, total) };
    two_ends(rng, line, kind, lot * lots.max(1), own, total - own)
}

/// A house of 199 to 202 fixtures whose hour sum is at or beside 100,000 for each, or far over it.
fn crowded_house(rng: &Rng, line: Line) -> Draft {
    let (kind, lot) = round_kind(line);
    let total = rng.pick(&[199, 200, 200, 201, 201, 202]);
    let residents = lot * total + rng.pick(&[-1, 0, 0, 1, 1, 1_000]);
    let own = rng.pick(&[total, total, total - 1, 1]);
    two_ends(rng, line, kind, residents, own, total - own)
}

/// A house of more fixtures with a section of about 200 whose m is at or beside 100,000 for each: a kind has that at 36 × Z / Q
/// residents for each fixture.
fn crowded_section(rng: &Rng, line: Line) -> Draft {
    let (kind, _) = round_kind(line);
    let norm = line.norm(kind);
    let own = rng.pick(&[50, 199, 200, 200, 201, 201]);
    let other = rng.pick(&[50, 200, 201, 210, 250, 300]);
    let residents = (own + other) * 36 * norm.fixture as i64 / norm.hour as i64 + rng.pick(&[-1, 0, 0, 1, 2]);
    two_ends(rng, line, kind, residents, own, other)
}

/// A hostel's hot line with an hour sum of about 100,000 for each of at most 200 fixtures. For a resident of kind 3 it is 125,000,
/// and 120,000 with all the water, so that 9 may be the line's alone.
fn crowded_hostel(rng: &Rng) -> Draft {
    let residents = rng.between(20, 160);
    let total = residents * 6 / 5 + rng.between(-1, residents / 20);
    let own = rng.pick(&[total, total - 1, 1]);
    two_ends(rng, Line::Hot, 3, residents, own, total - own)
}

/// Two ends of one kind on a main, or one end alone.
fn two_ends(rng: &Rng, line: Line, kind: usize, residents: i64, one: i64, other: i64) -> Draft {
    let end = |parent: u8, fixtures: i64| DraftSection {
        parent,
        kind: kind as u8,
        fixtures: fixtures as u16,
        length: 50,
        elevation: 300,
        free: 200,
    };
    let main = DraftSection { parent: 0, kind: 0, fixtures: 0, length: 80, elevation: 0, free: 0 };
    let mut sections = match rng.below(3) {
        0 => vec![end(0, one), end(0, other)],
        1 => vec![end(0, one), end(1, other)],
        _ => vec![main, end(1, one), end(1, other)],
    };
    sections.retain(|s| s.kind == 0 || s.fixtures > 0);
    let mut all = [0; 12];
    all[kind - 1] = residents.clamp(1, 65_535) as u16;
    Draft {
        line,
        k: rng.pick(&[2, 3]),
        hours: rng.between(1, 24) as u8,
        meter: 20,
        guaranteed: 300,
        delivered: rng.pick(&[500, 1_500, 3_000]),
        limit: 3_000,
        residents: all,
        sections,
    }
}
