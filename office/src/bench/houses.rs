//! The benchmark's houses, meters, losses and catalogues.

use crate::model::house::SERVICE;
use crate::model::norms;
use std::fmt;

/// What the house and its sizes are like.
#[derive(Clone, Copy, Debug, PartialEq, Eq)]
pub enum Pipes {
    /// As water has it: narrow sizes are too fast for the mains, so fewer sizes are tried there.
    Real,
    /// Every size serves every section, with a small loss of its own.
    AllServe,
    /// Made so that next to nothing can be left out, in one line: see `worst_house` and `WORST_SLOPES`.
    WorstChain,
    /// The same, two by two.
    WorstBinary,
}

impl Pipes {
    #[cfg(test)]
    pub const ALL: [Pipes; 4] = [Pipes::Real, Pipes::AllServe, Pipes::WorstChain, Pipes::WorstBinary];
}

impl fmt::Display for Pipes {
    fn fmt(&self, f: &mut fmt::Formatter) -> fmt::Result {
        f.write_str(match self {
            Pipes::Real => "real",
            Pipes::AllServe => "all serve",
            Pipes::WorstChain => "worst chain",
            Pipes::WorstBinary => "worst binary",
        })
    }
}

const BORES: [u64; 12] = [15, 20, 25, 32, 40, 50, 65, 80, 90, 100, 125, 150];
/// Each size loses less than the one before and costs more, so that none can be dropped; the greatest losses of a few
/// sections use all the head there is, and the least losses hardly any.
const WORST_SLOPES: [u64; 12] = [500, 317, 199, 131, 83, 53, 37, 23, 13, 7, 5, 3];
const WORST_PRICES: [u64; 12] = [449, 563, 709, 877, 1_097, 1_373, 1_657, 2_083, 2_777, 3_779, 4_481, 5_779];

/// A section's fields, for the bytes of a job.
struct Section {
    parent: usize,
    kind: usize,
    fixtures: usize,
    length: usize,
    elevation: i16,
    free: usize,
}

pub fn house(sections: usize, head: usize, pipes: Pipes) -> Vec<u8> {
    match pipes {
        Pipes::Real | Pipes::AllServe => risers(sections, head),
        Pipes::WorstChain => worst_house(sections, head, |own| own - 1),
        Pipes::WorstBinary => worst_house(sections, head, |own| own / 2),
    }
}

/// A main in the cellar with a riser of seven floors on each of its sections, with all twelve kinds; the floors are as high
/// as the delivered head can serve.
fn risers(sections: usize, head: usize) -> Vec<u8> {
    let section = |own: usize| {
        let on_main = own % 8 == 1 && own < sections;
        Section {
            parent: if own % 8 == 1 { own.saturating_sub(8) } else { own - 1 },
            kind: if on_main { 0 } else { own % 12 + 1 },
            fixtures: if on_main { 0 } else { 10 + own % 5 },
            length: 30 + own % 20,
            elevation: ((own - 1) % 8 * head / 20) as i16,
            free: if on_main { 0 } else { 200 },
        }
    };
    let sections: Vec<Section> = (1..=sections).map(section).collect();
    job(50, head, &sections)
}

/// Every end lies as deep as there may be and asks for no free head, and the meter takes nothing: needs are 0, and rows run
/// from about 0 to the head at the pump. Lengths differ, so that sums of losses and sums of costs fall together by chance
/// alone.
fn worst_house(sections: usize, head: usize, parent: impl Fn(usize) -> usize) -> Vec<u8> {
    let parents: Vec<usize> = (1..=sections).map(parent).collect();
    let section = |own: usize| {
        let leaf = !parents.contains(&own);
        Section {
            parent: parents[own - 1],
            kind: usize::from(leaf),
            fixtures: if leaf { 10 } else { 0 },
            length: 61 + own * 37 % 61,
            elevation: -1_000,
            free: 0,
        }
    };
    let sections: Vec<Section> = (1..=sections).map(section).collect();
    job(0, head, &sections)
}

fn job(meter: usize, head: usize, sections: &[Section]) -> Vec<u8> {
    let mut job = vec![0, 0, 0, 0, 1, 3, sections.len() as u8, 24];
    let mut put = |field: usize| job.extend((field as u16).to_be_bytes());
    [meter, 500, head, 3_000].into_iter().for_each(&mut put);
    for kind in 1..=12 {
        let norm = norms::of(norms::TOTAL, kind);
        let all: usize = sections.iter().filter(|s| s.kind == kind).map(|s| s.fixtures).sum();
        // Half of the residents at which each fixture's probability in the hour is 0.1.
        put(all * norm.fixture_hour as usize / norm.hour as usize / 2);
    }
    for s in sections {
        job.extend([s.parent as u8, s.kind as u8]);
        job.extend((s.fixtures as u16).to_be_bytes());
        job.extend((s.length as u16).to_be_bytes());
        job.extend(s.elevation.to_be_bytes());
        job.extend((s.free as u16).to_be_bytes());
    }
    state_length(job)
}

/// The hot line of a house: a record of version 2 with the same fields.
pub fn hot_line(job: &[u8]) -> Vec<u8> {
    let mut hot = [&job[..SERVICE], &[norms::HOT as u8], &job[SERVICE..]].concat();
    hot[4] = 2;
    state_length(hot)
}

/// So many of twelve sizes, from the narrowest to the widest, with prices that rise with the bore; one size is the widest.
pub fn catalogue(sizes: usize, rows: usize, pipes: Pipes) -> Vec<u8> {
    let mut cat = vec![0, 0, 0, 0, 1, sizes as u8, rows as u8];
    for place in (1..=sizes).map(|size| if size == sizes { 11 } else { (size - 1) * 11 / (sizes - 1) }) {
        let bore = BORES[place];
        let price = match pipes {
            Pipes::Real | Pipes::AllServe => bore * 10,
            Pipes::WorstChain | Pipes::WorstBinary => WORST_PRICES[place],
        };
        cat.extend((bore as u16).to_be_bytes());
        cat.extend((price as u16).to_be_bytes());
        for row in 1..=rows as u64 {
            let flow = row * row * 40_000 / (rows * rows) as u64 + row;
            let (velocity, slope) = match pipes {
                Pipes::Real => {
                    let velocity = flow * 1_273 / (bore * bore);
                    (velocity, 3 * velocity * velocity / (1_962 * bore))
                }
                Pipes::AllServe => (1_000, (12 - place as u64) * (16 + row) / 16),
                Pipes::WorstChain | Pipes::WorstBinary => (1_000, WORST_SLOPES[place]),
            };
            cat.extend((flow as u32).to_be_bytes());
            cat.extend((velocity.clamp(1, 65_535) as u16).to_be_bytes());
            cat.extend((slope.clamp(1, 65_535) as u16).to_be_bytes());
        }
    }
    state_length(cat)
}

/// Puts every row of a table 500,000 ml/s further up, above every flow that a house has.
pub fn raise_rows(cat: &mut [u8]) {
    let rows = usize::from(cat[6]);
    for size in cat[7..].chunks_mut(4 + 8 * rows) {
        for row in size[4..].chunks_mut(8) {
            let flow = u32::from_be_bytes([row[0], row[1], row[2], row[3]]) + 500_000;
            row[..4].copy_from_slice(&flow.to_be_bytes());
        }
    }
}

/// Eight meters that qualify in the houses of the flow call, each with less loss than the one before, so that the best so far
/// changes at each.
pub fn meters() -> Vec<u8> {
    let meter = |place: u16| [&[2][..], &(150 * (9 - place)).to_be_bytes(), &[0xff, 0xff]].concat();
    (1..=8).flat_map(meter).collect()
}

/// A loss for each section, such as pipes have: 5 to 48 cm.
pub fn losses(sections: usize) -> Vec<u8> {
    (1..=sections as u32).flat_map(|own| (5 + own * 31 % 44).to_be_bytes()).collect()
}

fn state_length(mut bytes: Vec<u8>) -> Vec<u8> {
    let length = (bytes.len() as u32).to_be_bytes();
    bytes[..4].copy_from_slice(&length);
    bytes
}
