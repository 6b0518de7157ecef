//! The fields of a job record as its bytes hold them, before anybody judges them.
//!
//! Document 01's ranges are the library's business. What is read here is whatever fits the layout, so that a refused record
//! can be shown too.

use std::fmt;

/// Bytes of the fields that every version has, and bytes of a section.
pub const HEAD: usize = 40;
pub const SECTION: usize = 10;
/// The version whose records have a service.
pub const SERVED: u8 = 2;

/// Where the sections of a version begin: in version 2 behind the service's byte. A version that there is not has the layout of
/// version 1.
pub fn sections_from(version: u8) -> usize {
    HEAD + usize::from(version == SERVED)
}

/// The bytes of a record of a version with so many sections.
pub fn length(version: u8, sections: u8) -> usize {
    sections_from(version) + SECTION * usize::from(sections)
}

#[derive(Clone, Copy, Debug, Default, PartialEq, Eq)]
pub struct Section {
    /// 0 is the pump.
    pub parent: u8,
    pub kind: u8,
    pub fixtures: u16,
    /// dm
    pub length: u16,
    /// cm above the pump axis
    pub elevation: i16,
    /// cm
    pub free: u16,
}

#[derive(Clone, Debug, Default, PartialEq, Eq)]
pub struct Record {
    /// The length that the record states of itself.
    pub stated: u32,
    pub version: u8,
    /// Local losses in tenths, k.
    pub tenths: u8,
    pub hours: u8,
    /// cm
    pub meter: u16,
    /// cm
    pub guaranteed: u16,
    /// cm
    pub delivered: u16,
    /// mm/s
    pub limit: u16,
    /// Kind 1 is at place 0.
    pub residents: [u16; 12],
    /// 0 where the version has none, which means all water.
    pub service: u8,
    /// Section 1 is at place 0; at most 255, which is what the count's byte holds.
    pub sections: Vec<Section>,
}

/// Bytes whose length is not that of their version and section count.
#[derive(Clone, Debug, PartialEq, Eq)]
pub struct NoRecord {
    pub given: usize,
    /// The version and the section count that the bytes state, where they reach that far.
    pub stated: Option<(u8, u8)>,
}

impl fmt::Display for NoRecord {
    fn fmt(&self, f: &mut fmt::Formatter) -> fmt::Result {
        let given = self.given;
        match self.stated {
            Some((version, count)) if given >= HEAD => {
                let (asked, of) = (length(version, count), in_version(version));
                write!(f, "{given} bytes, but a job record with section count {count} has {asked}{of}")
            }
            _ => write!(f, "{given} bytes, but a job record has at least {HEAD}"),
        }
    }
}

/// The version in words, where the length of a record goes by it.
pub fn in_version(version: u8) -> &'static str {
    if version == SERVED { " in version 2" } else { "" }
}

impl std::error::Error for NoRecord {}

impl Record {
    /// The fields of any bytes whose length is that of the version and the section count that they state.
    pub fn read(bytes: &[u8]) -> Result<Record, NoRecord> {
        let stated = bytes.get(6).map(|count| (bytes[4], *count));
        let no = NoRecord { given: bytes.len(), stated };
        let Some((version, _)) = stated.filter(|(version, count)| bytes.len() == length(*version, *count)) else {
            return Err(no);
        };
        let mut residents = [0; 12];
        for (place, kept) in residents.iter_mut().enumerate() {
            *kept = u16_at(bytes, 16 + 2 * place);
        }
        Ok(Record {
            stated: u32::from_be_bytes([bytes[0], bytes[1], bytes[2], bytes[3]]),
            version,
            tenths: bytes[5],
            hours: bytes[7],
            meter: u16_at(bytes, 8),
            guaranteed: u16_at(bytes, 10),
            delivered: u16_at(bytes, 12),
            limit: u16_at(bytes, 14),
            residents,
            service: if version == SERVED { bytes[HEAD] } else { 0 },
            sections: bytes[sections_from(version)..].chunks_exact(SECTION).map(section).collect(),
        })
    }

    /// The record's bytes. The stated length is written as it is kept, right or wrong.
    pub fn bytes(&self) -> Vec<u8> {
        let mut bytes = Vec::with_capacity(self.len());
        bytes.extend(self.stated.to_be_bytes());
        bytes.extend([self.version, self.tenths, self.sections.len() as u8, self.hours]);
        for two in [self.meter, self.guaranteed, self.delivered, self.limit].iter().chain(&self.residents) {
            bytes.extend(two.to_be_bytes());
        }
        bytes.extend(self.stated_service());
        for section in &self.sections {
            bytes.extend([section.parent, section.kind]);
            bytes.extend(section.fixtures.to_be_bytes());
            bytes.extend(section.length.to_be_bytes());
            bytes.extend(section.elevation.to_be_bytes());
            bytes.extend(section.free.to_be_bytes());
        }
        bytes
    }

    /// How many bytes the record has.
    pub fn len(&self) -> usize {
        sections_from(self.version) + SECTION * self.sections.len()
    }

    /// The service, where the record has a byte for it.
    pub fn stated_service(&self) -> Option<u8> {
        (self.version == SERVED).then_some(self.service)
    }

    /// A record is never empty: its head is there.
    pub fn is_empty(&self) -> bool {
        false
    }

    /// The sections with their numbers, from 1.
    pub fn numbered(&self) -> impl Iterator<Item = (u8, &Section)> {
        (1..=255).zip(&self.sections)
    }

    /// The fixtures of a kind in the whole house.
    pub fn fixtures(&self, kind: u8) -> u64 {
        self.sections.iter().filter(|s| s.kind == kind).map(|s| u64::from(s.fixtures)).sum()
    }
}

fn section(ten: &[u8]) -> Section {
    Section {
        parent: ten[0],
        kind: ten[1],
        fixtures: u16_at(ten, 2),
        length: u16_at(ten, 4),
        elevation: i16::from_be_bytes([ten[6], ten[7]]),
        free: u16_at(ten, 8),
    }
}

fn u16_at(bytes: &[u8], at: usize) -> u16 {
    u16::from_be_bytes([bytes[at], bytes[at + 1]])
}
