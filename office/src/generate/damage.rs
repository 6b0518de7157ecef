//! Faults put into a case on purpose, one maker for each number, and random damage.

use super::draft::restate;
use super::heat;
use super::rng::Rng;
use crate::case::{Call, Case};
use crate::model::heads::MOST_LOSS;
use crate::model::house::{SERVICE, sections_from};

/// Puts the fault of this number into the case, as far as its bytes allow. 14 and 15 are made with the buffers.
pub fn spoil(rng: &Rng, case: &mut Case, number: u32) {
    match number {
        1 => length(rng, &mut case.job, 40),
        2 => set(&mut case.job, 4, rng.pick(&[0, 3, 4, 255])),
        3 => head(rng, &mut case.job),
        4 => sections(rng, &mut case.job),
        5 => section(rng, &mut case.job),
        6 => childless(&mut case.job),
        7 => residents(rng, &mut case.job),
        8 => {
            let kind = some_kind(rng, &case.job);
            set16(&mut case.job, 14 + 2 * kind, 65_535);
        }
        9 => crowd(&mut case.job),
        10 => shape(rng, &mut case.cat),
        11 => row(rng, &mut case.cat),
        12 => list(rng, case),
        13 => set16(&mut case.job, 14, 1),
        16 => {
            set16(&mut case.job, 8, 1_000);
            set16(&mut case.job, 12, rng.pick(&[0, 100]));
        }
        17 => meters(rng, &mut case.meters),
        18 => small_meters(rng, &mut case.meters),
        19 => losses(rng, &mut case.losses),
        20 => not_hot(rng, &mut case.job),
        21 => heat::out_of_range(rng, &mut case.t, &mut case.loss),
        _ => {}
    }
}

/// One to four bytes anywhere, or a piece cut out or put in.
pub fn scratch(rng: &Rng, case: &mut Case) {
    let (target, stated) = match rng.below(8) {
        0 if !case.sizes.is_empty() => (&mut case.sizes, true),
        0..4 if !case.meters.is_empty() => (&mut case.meters, false),
        0..4 if !case.losses.is_empty() => (&mut case.losses, false),
        1..4 if !case.cat.is_empty() => (&mut case.cat, true),
        _ => (&mut case.job, true),
    };
    for _ in 0..rng.between(1, 4) {
        let end = target.len() as u64;
        match rng.below(8) {
            0 => target.insert(rng.below(end + 1) as usize, rng.byte()),
            1 if end > 0 => drop(target.remove(rng.below(end) as usize)),
            2 if end > 0 => target[rng.below(end) as usize] = rng.pick(&[0, 1, 127, 128, 255]),
            3..6 if end > 0 => target[rng.below(end) as usize] ^= 1 << rng.below(8),
            _ if end > 0 => target[rng.below(end) as usize] = rng.byte(),
            _ => {}
        }
    }
    if stated && rng.once_in(2) {
        restate(target);
    }
}

/// Bytes that were never a record.
pub fn junk(rng: &Rng, case: &mut Case) {
    let length = rng.pick(&[0, 3, 6, 7, 39, 40, 41, 50, 51, 60, 670, 671, 700]);
    let bytes = rng.bytes(length);
    if case.call.takes_catalogue() && rng.once_in(2) {
        case.cat = bytes;
        restate(&mut case.cat);
    } else if case.call == Call::Heads && rng.once_in(2) {
        case.losses = rng.bytes(rng.pick(&[0, 1, 4, 8, 10, 12, 252, 253]));
    } else if case.call == Call::Meter && rng.once_in(2) {
        case.meters = rng.bytes(rng.pick(&[0, 1, 4, 5, 6, 10, 40, 41, 45, 80]));
    } else {
        case.job = bytes;
        if !rng.once_in(4) {
            restate(&mut case.job);
        }
        if let (Some(version), false) = (case.job.get_mut(4), rng.once_in(4)) {
            *version = rng.pick(&[1, 2]);
        }
    }
    if rng.once_in(2) {
        case.sizes = rng.bytes(rng.pick(&[0, 1, 5, 63, 64]));
    }
}

/// A head field at or beside the ends of its range.
pub fn edge(rng: &Rng, job: &mut [u8]) {
    match rng.below(9) {
        0 => set(job, 5, rng.pick(&[1, 2, 3, 4])),
        1 => set(job, 7, rng.pick(&[0, 1, 24, 25])),
        2 => set16(job, 8, rng.pick(&[0, 1_000, 1_001])),
        3 => set16(job, 10, rng.pick(&[0, 6_000, 6_001])),
        4 => set16(job, 12, rng.pick(&[0, 6_000, 6_001])),
        5 => set16(job, 14, rng.pick(&[0, 1, 3_000, 3_001])),
        6 if from(job) > SERVICE => set(job, SERVICE, rng.pick(&[0, 1, 2, 3])),
        _ => section_edge(rng, job),
    }
}

fn section_edge(rng: &Rng, job: &mut [u8]) {
    let at = some_section(rng, job);
    let before = ((at - from(job)) / 10) as u8;
    match rng.below(6) {
        0 => set(job, at, before + rng.pick(&[0, 1])),
        1 => set(job, at + 1, rng.pick(&[0, 1, 12, 13])),
        2 => set16(job, at + 2, rng.pick(&[0, 1, 65_535])),
        3 => set16(job, at + 4, rng.pick(&[0, 1, 5_000, 5_001])),
        4 => set16(job, at + 6, rng.pick(&[6_000, 6_001, 0x7fff, 0x8000, 0xffff, 0xfc18, 0xfc17])),
        _ => set16(job, at + 8, rng.pick(&[0, 1_000, 1_001])),
    }
}

/// 1, and the length of 10: bytes more or fewer than stated.
fn length(rng: &Rng, bytes: &mut Vec<u8>, least: usize) {
    match rng.below(6) {
        0 => bytes.truncate(rng.below(least as u64) as usize),
        1 => {
            bytes.truncate(least - 1);
            restate(bytes);
        }
        2 => drop(bytes.pop()),
        3 => bytes.push(rng.byte()),
        4 => set(bytes, 3, rng.byte()),
        _ => set(bytes, rng.below(3) as usize, 1 + rng.byte() % 255),
    }
}

/// 3: one field of the head out of its range.
fn head(rng: &Rng, job: &mut Vec<u8>) {
    match rng.below(9) {
        0 => set(job, 5, rng.pick(&[0, 1, 4, 255])),
        1 => set(job, 6, rng.pick(&[0, 64, 255])),
        2 => set(job, 7, rng.pick(&[0, 25, 255])),
        3 => set16(job, 8, rng.pick(&[1_001, 65_535])),
        4 => set16(job, 10, rng.pick(&[6_001, 65_535])),
        5 => set16(job, 12, rng.pick(&[6_001, 65_535])),
        6 => set16(job, 14, rng.pick(&[0, 3_001, 65_535])),
        7 if from(job) > SERVICE => set(job, SERVICE, rng.pick(&[3, 3, 4, 255])),
        _ => recount(job, rng.pick(&[0, 64, 65])),
    }
}

/// Another number of sections, all of them there and the length right: the last one is repeated.
fn recount(job: &mut Vec<u8>, count: usize) {
    let from = from(job);
    if job.len() >= from + 10 {
        let last = job[job.len() - 10..].to_vec();
        job.truncate(from + 10 * count);
        while job.len() < from + 10 * count {
            job.extend(&last[..last.len().min(from + 10 * count - job.len())]);
        }
        set(job, 6, count as u8);
        restate(job);
    }
}

/// 4: another length than the sections', stated truly; another section count; or a service byte too many or too few.
fn sections(rng: &Rng, job: &mut Vec<u8>) {
    match rng.below(6) {
        0 => job.extend(rng.bytes(rng.pick(&[1, 5, 10]))),
        1 if job.len() > 40 => drop(job.pop()),
        2 => swap_version(job),
        3 if from(job) > SERVICE => job.truncate(SERVICE),
        4 if from(job) > SERVICE && job.len() > SERVICE => drop(job.remove(SERVICE)),
        4 if job.len() >= SERVICE => job.insert(SERVICE, rng.pick(&[0, 1, 2])),
        _ => {
            let other = job.get(6).map_or(1, |count| count % 63 + 1);
            set(job, 6, other);
        }
    }
    restate(job);
}

/// Version 1 for 2 or the reverse, and the sections where they were.
fn swap_version(job: &mut [u8]) {
    if let Some(version) = job.get_mut(4) {
        *version = if *version == 2 { 1 } else { 2 };
    }
}

/// 20: another service, or a record of version 1.
fn not_hot(rng: &Rng, job: &mut Vec<u8>) {
    if from(job) == SERVICE || job.len() <= SERVICE {
        return;
    }
    match rng.below(3) {
        0 => set(job, SERVICE, 0),
        1 => set(job, SERVICE, 1),
        _ => {
            job.remove(SERVICE);
            set(job, 4, 1);
            restate(job);
        }
    }
}

/// 5: one field of one section against its rules.
fn section(rng: &Rng, job: &mut [u8]) {
    let at = some_section(rng, job);
    let own = ((at - from(job)) / 10 + 1) as u8;
    match rng.below(8) {
        0 => set(job, at, rng.pick(&[own, own + 1, 63, 255])),
        1 => set(job, at + 1, rng.pick(&[13, 14, 255])),
        2 if job.get(at + 1) == Some(&0) => set16(job, at + rng.pick(&[2, 8]), 1),
        2 => set16(job, at + 2, 0),
        3 => set16(job, at + 4, rng.pick(&[0, 5_001, 65_535])),
        4 => set16(job, at + 6, rng.pick(&[6_001, 0x7fff, 0x8000, 0xfc17])),
        _ => set16(job, at + 8, rng.pick(&[1_001, 65_535])),
    }
}

/// 6: the last section, which is nobody's parent, gets kind 0 with what belongs to it.
fn childless(job: &mut [u8]) {
    let at = job.len().max(from(job) + 10) - 10;
    set(job, at + 1, 0);
    set16(job, at + 2, 0);
    set16(job, at + 8, 0);
}

/// 7: residents for a kind without fixtures, or none for one that has them.
fn residents(rng: &Rng, job: &mut [u8]) {
    let with = kinds(job);
    let without: Vec<usize> = (1..=12).filter(|kind| !with.contains(kind)).collect();
    if without.is_empty() || (rng.once_in(2) && !with.is_empty()) {
        set16(job, 14 + 2 * rng.pick(&with), 0);
    } else {
        set16(job, 14 + 2 * rng.pick(&without), rng.pick(&[1, 256, 65_535]));
    }
}

/// 9: one fixture at each end, and many residents of each kind.
fn crowd(job: &mut [u8]) {
    for kind in kinds(job) {
        set16(job, 14 + 2 * kind, 300);
    }
    for at in (from(job)..job.len()).step_by(10) {
        if job.get(at + 1).is_some_and(|kind| *kind > 0) {
            set16(job, at + 2, 1);
        }
    }
}

/// 10: a catalogue of another length, version or counts.
fn shape(rng: &Rng, cat: &mut Vec<u8>) {
    match rng.below(7) {
        0 => set(cat, 4, rng.pick(&[0, 2, 255])),
        1 => set(cat, 5, rng.pick(&[0, 13, 255])),
        2 => set(cat, 6, rng.pick(&[0, 1, 65, 255])),
        3 => {
            cat.push(rng.byte());
            restate(cat);
        }
        4 => reshape(cat, rng.pick(&[0, 13]), None),
        5 => reshape(cat, 1, Some(rng.pick(&[1, 65]))),
        _ => length(rng, cat, 7),
    }
}

/// Another number of sizes, or of rows in each, all of them there, in order and the length right: the last ones are repeated
/// with bores and flows that go on rising.
fn reshape(cat: &mut Vec<u8>, sizes: usize, rows: Option<usize>) {
    let had = (usize::from(cat.get(5).copied().unwrap_or(0)), usize::from(cat.get(6).copied().unwrap_or(0)));
    let rows = rows.unwrap_or(had.1);
    if had.0 == 0 || had.1 == 0 || cat.len() != 7 + had.0 * (4 + 8 * had.1) {
        return;
    }
    let mut other = vec![0, 0, 0, 0, 1, sizes as u8, rows as u8];
    for size in 0..sizes {
        let from = 7 + size.min(had.0 - 1) * (4 + 8 * had.1);
        let bore = u16::from_be_bytes([cat[from], cat[from + 1]]);
        other.extend(bore.wrapping_add((size + 1).saturating_sub(had.0) as u16).to_be_bytes());
        other.extend(&cat[from + 2..from + 4]);
        for row in 0..rows {
            let at = from + 4 + 8 * row.min(had.1 - 1);
            let flow = u32::from_be_bytes([cat[at], cat[at + 1], cat[at + 2], cat[at + 3]]);
            other.extend(flow.wrapping_add((row + 1).saturating_sub(had.1) as u32).to_be_bytes());
            other.extend(&cat[at + 4..at + 8]);
        }
    }
    restate(&mut other);
    *cat = other;
}

/// 11: one field of a size or a row against its rules.
fn row(rng: &Rng, cat: &mut [u8]) {
    if cat.len() < 27 {
        return;
    }
    let (sizes, rows) = (u64::from(cat[5]).max(1), u64::from(cat[6]).max(2));
    let size = 7 + (rng.below(sizes) * (4 + 8 * rows)) as usize;
    let row = size + 4 + 8 * rng.between(1, rows as i64 - 1) as usize;
    let last = size + 4 + 8 * (rows as usize - 1);
    match rng.below(11) {
        0 => set16(cat, 7, 0),
        1 if size > 7 => set16(cat, size, 1),
        2 => set16(cat, size + 2, rng.pick(&[0, 10_001, 65_535])),
        3 if row + 4 <= cat.len() => cat.copy_within(row - 8..row - 4, row),
        4 => set16(cat, size + 8, 0),
        5 => set16(cat, size + 10, 0),
        6 => set16(cat, row - 4, 65_535),
        7 => set16(cat, row - 2, 65_535),
        8 => set32(cat, size + 4, 0),
        9 => set32(cat, last, 1_000_001),
        _ => set(cat, row, rng.pick(&[15, 255])),
    }
}

/// 12: a list of another length, or with a size that there isn't.
fn list(rng: &Rng, case: &mut Case) {
    let sizes = case.cat.get(5).copied().unwrap_or(0);
    match rng.below(4) {
        0 => drop(case.sizes.pop()),
        1 => case.sizes.push(1),
        _ if case.sizes.is_empty() => case.sizes.push(0),
        _ => {
            let place = rng.below(case.sizes.len() as u64) as usize;
            case.sizes[place] = rng.pick(&[0, sizes.saturating_add(1), 255]);
        }
    }
}

/// 17: a list of another length, or a field of one of its meters against its rules.
fn meters(rng: &Rng, list: &mut Vec<u8>) {
    let at = 5 * rng.below((list.len() as u64 / 5).max(1)) as usize;
    match rng.below(8) {
        0 => list.clear(),
        1 => drop(list.pop()),
        2 => list.push(rng.pick(&[0, 1, 2])),
        3 => *list = list.iter().copied().cycle().take(rng.pick(&[45, 45, 50, 1_285])).collect(),
        4 => set16(list, at + 1, 0),
        5 => set16(list, at + 3, 0),
        _ => set(list, at, rng.pick(&[0, 3, 49, 255])),
    }
}

/// 18: every meter with the least service flow, the most resistance or both. In a house of few residents some still qualify.
fn small_meters(rng: &Rng, list: &mut [u8]) {
    for at in (0..list.len()).step_by(5) {
        let which = rng.below(3);
        if which < 2 {
            set16(list, at + 3, 1);
        }
        if which > 0 {
            set16(list, at + 1, 65_535);
        }
    }
}

/// 19: losses that are too many, too few or cut, ten bytes for each as the losses call gives them, or one over the most.
fn losses(rng: &Rng, list: &mut Vec<u8>) {
    let over = MOST_LOSS as u32 + 1;
    let last = list.len().saturating_sub(4);
    let at = rng.pick(&[0, last, last / 8 * 4]);
    match rng.below(14) {
        0 => list.clear(),
        1 => drop(list.pop()),
        2 => list.push(rng.byte()),
        3 | 4 => list.truncate(last),
        5 | 6 => list.extend([0, 0, 0, rng.byte()]),
        7 => *list = list.chunks(4).flat_map(|loss| [&[0, 0, 3, 232, 2, 88], loss].concat()).collect(),
        8 => {
            set32(list, at, over);
            list.extend(over.to_be_bytes());
        }
        9..12 => set32(list, at, over),
        _ => set32(list, at, rng.pick(&[over, over + 64, 1 << 24, 1 << 31, u32::MAX])),
    }
}

/// Where the record's sections begin.
fn from(job: &[u8]) -> usize {
    sections_from(job.get(4).copied().unwrap_or(0).into())
}

/// Where a section of the record starts.
fn some_section(rng: &Rng, job: &[u8]) -> usize {
    let from = from(job);
    let count = (job.len().max(from + 10) - from) / 10;
    from + 10 * rng.below(count as u64) as usize
}

/// The kinds that the record's sections name.
fn kinds(job: &[u8]) -> Vec<usize> {
    let named = |kind: &usize| (from(job) + 1..job.len()).step_by(10).any(|at| usize::from(job[at]) == *kind);
    (1..=12).filter(named).collect()
}

fn some_kind(rng: &Rng, job: &[u8]) -> usize {
    let kinds = kinds(job);
    if kinds.is_empty() { 1 } else { rng.pick(&kinds) }
}

/// Sets a byte, if the bytes reach so far.
fn set(bytes: &mut [u8], at: usize, to: u8) {
    if let Some(byte) = bytes.get_mut(at) {
        *byte = to;
    }
}

fn set32(bytes: &mut [u8], at: usize, to: u32) {
    set16(bytes, at, (to >> 16) as u16);
    set16(bytes, at + 2, to as u16);
}

fn set16(bytes: &mut [u8], at: usize, to: u16) {
    let [high, low] = to.to_be_bytes();
    set(bytes, at, high);
    set(bytes, at + 1, low);
}
