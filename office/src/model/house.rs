//! The job record of version 1 or 2: its fields, its tree as sets of sections, and the refusals 1 to 7.

use super::bytes::{number, signed};
use super::faults::Faults;
use super::set::Set;

pub struct Section {
    pub parent: usize,
    pub kind: usize,
    pub fixtures: i128,
    pub length: i128,
    pub elevation: i128,
    pub free: i128,
}

/// The fields of a record, whether it is accepted or not.
pub struct House {
    lent: i128,
    stated: i128,
    pub version: i128,
    /// 0 total, 1 cold, 2 hot; 0 where the version has no service.
    pub service: i128,
    pub k: i128,
    pub hours: i128,
    pub meter: i128,
    pub guaranteed: i128,
    pub delivered: i128,
    pub limit: i128,
    /// Kind c at place c; place 0 is 0.
    pub residents: [i128; 13],
    /// Section i at place i - 1.
    pub sections: Vec<Section>,
    /// For each section the section itself and those above it, up to the pump; section i at place i - 1.
    pub paths: Vec<Vec<usize>>,
    /// For each section the sections at or below it; section i at place i - 1.
    pub below: Vec<Set>,
}

/// Where the service stands in a record of version 2.
pub const SERVICE: usize = 40;

/// Where the sections begin. A version that there is not, which 2 refuses, has no service.
pub fn sections_from(version: i128) -> usize {
    if version == 2 { SERVICE + 1 } else { SERVICE }
}

impl House {
    pub fn of(job: &[u8]) -> House {
        let version = number(job, 4, 1);
        let (from, count) = (sections_from(version), number(job, 6, 1) as usize);
        let sections: Vec<Section> = (0..count).map(|place| section(job, from + 10 * place)).collect();
        let paths: Vec<Vec<usize>> = (1..=count).map(|from| path(&sections, from)).collect();
        let mut below = vec![Set::default(); count];
        for (place, path) in paths.iter().enumerate() {
            path.iter().for_each(|above| below[above - 1].insert(place + 1));
        }
        let mut residents = [0; 13];
        (1..=12).for_each(|kind| residents[kind] = number(job, 14 + 2 * kind, 2));
        House {
            lent: job.len() as i128,
            stated: number(job, 0, 4),
            version,
            service: number(job, SERVICE, from - SERVICE),
            k: number(job, 5, 1),
            hours: number(job, 7, 1),
            meter: number(job, 8, 2),
            guaranteed: number(job, 10, 2),
            delivered: number(job, 12, 2),
            limit: number(job, 14, 2),
            residents,
            sections,
            paths,
            below,
        }
    }

    pub fn count(&self) -> i128 {
        self.sections.len() as i128
    }

    /// The bytes of a record of this version with this many sections.
    pub fn record_bytes(&self) -> usize {
        sections_from(self.version) + 10 * self.sections.len()
    }

    /// The house's fixtures of a kind.
    pub fn fixtures(&self, kind: usize) -> i128 {
        self.sections.iter().filter(|s| s.kind == kind).map(|s| s.fixtures).sum()
    }

    /// The fixtures of a kind at a section's end or at any end below it.
    pub fn served(&self, section: usize, kind: usize) -> i128 {
        let ends = self.below[section - 1].members().map(|j| &self.sections[j - 1]);
        ends.filter(|s| s.kind == kind).map(|s| s.fixtures).sum()
    }

    /// Which of 1 to 7 apply, each asked without regard to the others.
    pub fn faults(&self) -> Faults {
        let mut faults = Faults::default();
        faults.note(1, self.lent < 40 || self.stated != self.lent);
        faults.note(2, ![1, 2].contains(&self.version));
        faults.note(3, !self.head_in_range() || self.service > 2);
        faults.note(4, self.lent != self.record_bytes() as i128);
        faults.note(5, self.sections.iter().zip(1..).any(|(s, own)| breaks_rules(s, own)));
        let parents: Vec<usize> = self.sections.iter().map(|s| s.parent).collect();
        faults.note(6, self.sections.iter().zip(1..).any(|(s, own)| s.kind == 0 && !parents.contains(&own)));
        faults.note(7, (1..=12).any(|kind| (self.residents[kind] > 0) != (self.fixtures(kind) > 0)));
        faults
    }

    /// Whether all fields but the service are in range.
    pub fn head_in_range(&self) -> bool {
        [2, 3].contains(&self.k)
            && (1..=63).contains(&self.count())
            && (1..=24).contains(&self.hours)
            && self.meter <= 1_000
            && self.guaranteed <= 6_000
            && self.delivered <= 6_000
            && (1..=3_000).contains(&self.limit)
    }
}

fn section(job: &[u8], from: usize) -> Section {
    Section {
        parent: number(job, from, 1) as usize,
        kind: number(job, from + 1, 1) as usize,
        fixtures: number(job, from + 2, 2),
        length: number(job, from + 4, 2),
        elevation: signed(job, from + 6, 2),
        free: number(job, from + 8, 2),
    }
}

/// From a section over its parents. In a record that breaks 5 a parent may be no section, or the parents may run in a ring;
/// the path then ends there.
fn path(sections: &[Section], from: usize) -> Vec<usize> {
    let mut path = Vec::new();
    let mut at = from;
    while (1..=sections.len()).contains(&at) && !path.contains(&at) {
        path.push(at);
        at = sections[at - 1].parent;
    }
    path
}

fn breaks_rules(section: &Section, own: usize) -> bool {
    let kind_wrong = match section.kind {
        0 => section.fixtures != 0 || section.free != 0,
        1..=12 => section.fixtures == 0,
        _ => true,
    };
    section.parent >= own
        || kind_wrong
        || !(1..=5_000).contains(&section.length)
        || !(-1_000..=6_000).contains(&section.elevation)
        || section.free > 1_000
}
