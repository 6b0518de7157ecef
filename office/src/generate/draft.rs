//! A job, a list of meters and a catalogue as fields, before they become bytes.

use super::lines::Line;

#[derive(Clone, Debug)]
pub struct DraftSection {
    pub parent: u8,
    pub kind: u8,
    pub fixtures: u16,
    pub length: u16,
    pub elevation: i16,
    pub free: u16,
}

#[derive(Clone, Debug)]
pub struct Draft {
    pub line: Line,
    pub k: u8,
    pub hours: u8,
    pub meter: u16,
    pub guaranteed: u16,
    pub delivered: u16,
    pub limit: u16,
    /// Kind c at place c - 1.
    pub residents: [u16; 12],
    pub sections: Vec<DraftSection>,
}

impl Draft {
    pub fn bytes(&self) -> Vec<u8> {
        let mut job = vec![0, 0, 0, 0, self.line.version(), self.k, self.sections.len() as u8, self.hours];
        let head = [self.meter, self.guaranteed, self.delivered, self.limit];
        head.iter().chain(&self.residents).for_each(|field| job.extend(field.to_be_bytes()));
        job.extend(self.line.service());
        for s in &self.sections {
            job.extend([s.parent, s.kind]);
            job.extend(s.fixtures.to_be_bytes());
            job.extend(s.length.to_be_bytes());
            job.extend(s.elevation.to_be_bytes());
            job.extend(s.free.to_be_bytes());
        }
        restate(&mut job);
        job
    }

    /// The house's fixtures of a kind.
    pub fn fixtures(&self, kind: usize) -> i64 {
        self.sections.iter().filter(|s| usize::from(s.kind) == kind).map(|s| i64::from(s.fixtures)).sum()
    }

    pub fn kinds(&self) -> Vec<usize> {
        (1..=12).filter(|kind| self.fixtures(*kind) > 0).collect()
    }
}

#[derive(Clone, Debug)]
pub struct DraftMeter {
    pub design: u8,
    pub resistance: u16,
    pub service: u16,
}

/// A list's bytes.
pub fn meter_bytes(list: &[DraftMeter]) -> Vec<u8> {
    let mut bytes = Vec::new();
    for meter in list {
        bytes.push(meter.design);
        bytes.extend(meter.resistance.to_be_bytes());
        bytes.extend(meter.service.to_be_bytes());
    }
    bytes
}

#[derive(Clone, Debug)]
pub struct DraftSize {
    pub bore: u16,
    pub price: u16,
    /// Flow, velocity and slope.
    pub rows: Vec<(u32, u16, u16)>,
}

/// A catalogue's bytes; all sizes have as many rows.
pub fn catalogue_bytes(sizes: &[DraftSize]) -> Vec<u8> {
    let mut cat = vec![0, 0, 0, 0, 1, sizes.len() as u8, sizes[0].rows.len() as u8];
    for size in sizes {
        cat.extend(size.bore.to_be_bytes());
        cat.extend(size.price.to_be_bytes());
        for (flow, velocity, slope) in &size.rows {
            cat.extend(flow.to_be_bytes());
            cat.extend(velocity.to_be_bytes());
            cat.extend(slope.to_be_bytes());
        }
    }
    restate(&mut cat);
    cat
}

/// Writes the length that a record or a catalogue has into its first four bytes.
pub fn restate(bytes: &mut [u8]) {
    let length = (bytes.len() as u32).to_be_bytes();
    bytes.iter_mut().zip(length).for_each(|(byte, of)| *byte = of);
}
