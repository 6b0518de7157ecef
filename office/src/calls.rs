//! The library's calls with typed results. Any bytes may be given; each gives its result or its refusal.
//!
//! The buffers that the library writes are made here and are always long enough, so 14 and 15 do not come from these
//! functions. A program that lends buffers of its own uses `ffi`.

use crate::ffi;
use crate::refusal::Refusal;

/// Design flows of a house.
#[derive(Clone, Debug, PartialEq, Eq)]
pub struct Flow {
    /// Greatest hour, l/h.
    pub hour: u32,
    /// Greatest day, litres.
    pub day: u32,
    /// Mean hour, l/h.
    pub mean_hour: u32,
    /// Each section's design flow in ml/s; section 1 is at place 0.
    pub flows: Vec<u32>,
}

/// A job with a meter from a list.
#[derive(Clone, Debug, PartialEq, Eq)]
pub struct Metered {
    /// The meter's place in the list, from 1.
    pub place: u8,
    /// The job record with the meter's loss, and every other byte as it was.
    pub job: Vec<u8>,
}

/// One section as rated.
#[derive(Clone, Copy, Debug, PartialEq, Eq)]
pub struct Rated {
    /// mm/s
    pub velocity: u16,
    /// cm
    pub loss: u32,
}

/// A house as rated with a list of sizes.
#[derive(Clone, Debug, PartialEq, Eq)]
pub struct Rating {
    /// Required head in cm; it may be negative.
    pub required: i32,
    /// Pump head in cm.
    pub pump: u32,
    /// The lowest number of the sections whose end asks for the required head.
    pub dictating: u8,
    /// Section 1 is at place 0.
    pub sections: Vec<Rated>,
}

/// One section with the size that a list gives it, without heads.
#[derive(Clone, Copy, Debug, PartialEq, Eq)]
pub struct SectionLoss {
    /// ml/s
    pub flow: u32,
    /// mm/s
    pub velocity: u16,
    /// cm
    pub loss: u32,
}

/// What a house asks of its pump set with the losses that its sections are given.
#[derive(Clone, Copy, Debug, PartialEq, Eq)]
pub struct Heads {
    /// Required head in cm; it may be negative.
    pub required: i32,
    /// Pump head in cm.
    pub pump: u32,
    /// The lowest number of the sections whose end asks for the required head.
    pub dictating: u8,
}

impl Rating {
    /// The heads of the rating alone.
    pub fn heads(&self) -> Heads {
        Heads { required: self.required, pump: self.pump, dictating: self.dictating }
    }
}

/// The heat flow of a hot line.
#[derive(Clone, Copy, Debug, PartialEq, Eq)]
pub struct Heat {
    /// In the mean hour, watts.
    pub mean_hour: u32,
    /// In the greatest hour, watts.
    pub greatest_hour: u32,
}

/// A cheapest suitable list of sizes.
#[derive(Clone, Debug, PartialEq, Eq)]
pub struct Choice {
    /// In tenths of the price unit.
    pub cost: u32,
    /// Each section's size number, from 1; section 1 is at place 0.
    pub sizes: Vec<u8>,
}

/// The greatest section count and delivered head of an accepted job.
pub const MOST_SECTIONS: usize = 63;
const MOST_HEAD: usize = 6_000;
/// The longest record of an accepted job: one of version 2, whose sections begin at 41.
const MOST_RECORD: usize = 41 + 10 * MOST_SECTIONS;

/// Design flows of a job record.
pub fn flow(job: &[u8]) -> Result<Flow, Refusal> {
    let mut out = [0; 12 + 4 * MOST_SECTIONS];
    refused(ffi::flow(job, &mut out))?;
    let flows = &out[12..12 + 4 * sections(job)];
    Ok(Flow {
        hour: u32_at(&out, 0),
        day: u32_at(&out, 4),
        mean_hour: u32_at(&out, 8),
        flows: flows.chunks_exact(4).map(|four| u32_at(four, 0)).collect(),
    })
}

/// The design flow of the whole house in ml/s, which its pump set has to deliver.
pub fn duty(job: &[u8]) -> Result<u32, Refusal> {
    let mut out = [0; 4];
    refused(ffi::duty(job, &mut out))?;
    Ok(u32::from_be_bytes(out))
}

/// The meter of least loss that a list offers a job record, and the record with its loss.
pub fn meter(job: &[u8], meters: &[u8]) -> Result<Metered, Refusal> {
    let mut out = [0; 1 + MOST_RECORD];
    refused(ffi::meter(job, meters, &mut out))?;
    Ok(Metered { place: out[0], job: out[1..=job.len()].to_vec() })
}

/// Rating of a job record with a catalogue and one size number for each section.
pub fn rate(job: &[u8], cat: &[u8], sizes: &[u8]) -> Result<Rating, Refusal> {
    let mut out = [0; 9 + 6 * MOST_SECTIONS];
    refused(ffi::rate(job, cat, sizes, &mut out))?;
    let rated = &out[9..9 + 6 * sections(job)];
    Ok(Rating {
        required: u32_at(&out, 0) as i32,
        pump: u32_at(&out, 4),
        dictating: out[8],
        sections: rated
            .chunks_exact(6)
            .map(|six| Rated { velocity: u16::from_be_bytes([six[0], six[1]]), loss: u32_at(six, 2) })
            .collect(),
    })
}

/// Flow, velocity and loss of each section of a job record with a catalogue and one size number for each section; section 1 is at
/// place 0.
pub fn losses(job: &[u8], cat: &[u8], sizes: &[u8]) -> Result<Vec<SectionLoss>, Refusal> {
    let mut out = [0; 10 * MOST_SECTIONS];
    refused(ffi::losses(job, cat, sizes, &mut out))?;
    let own = |ten: &[u8]| SectionLoss {
        flow: u32_at(ten, 0),
        velocity: u16::from_be_bytes([ten[4], ten[5]]),
        loss: u32_at(ten, 6),
    };
    Ok(out[..10 * sections(job)].chunks_exact(10).map(own).collect())
}

/// The heads of a job record with one loss of 4 bytes for each section, whoever worked it out or measured it.
pub fn heads(job: &[u8], losses: &[u8]) -> Result<Heads, Refusal> {
    let mut out = [0; 9];
    refused(ffi::heads(job, losses, &mut out))?;
    Ok(Heads { required: u32_at(&out, 0) as i32, pump: u32_at(&out, 4), dictating: out[8] })
}

/// A cheapest suitable list of sizes for a job record and a catalogue.
pub fn choose(job: &[u8], cat: &[u8]) -> Result<Choice, Refusal> {
    let mut out = [0; 4 + MOST_SECTIONS];
    let mut work = vec![0; work_bytes(job)];
    refused(ffi::choose(job, cat, &mut work, &mut out))?;
    Ok(Choice { cost: u32_at(&out, 0), sizes: out[4..4 + sections(job)].to_vec() })
}

/// The heat flow of a job record of service 2, hot, with cold water of `t` °C, 0 to 30, and a stated loss of 0 to 1,000,000 W.
pub fn heat(job: &[u8], t: u32, loss: u32) -> Result<Heat, Refusal> {
    let mut out = [0; 8];
    refused(ffi::heat(job, t, loss, &mut out))?;
    Ok(Heat { mean_hour: u32_at(&out, 0), greatest_hour: u32_at(&out, 4) })
}

/// The record read and written again: the same bytes, or why it can't be read.
pub fn copy(job: &[u8]) -> Result<Vec<u8>, Refusal> {
    let mut out = [0; MOST_RECORD];
    refused(ffi::copy(job, &mut out))?;
    Ok(out[..job.len()].to_vec())
}

fn refused(number: u32) -> Result<(), Refusal> {
    match Refusal::from_number(number) {
        None => Ok(()),
        Some(refusal) => Err(refusal),
    }
}

/// The section count of a job that was accepted.
fn sections(job: &[u8]) -> usize {
    usize::from(job[6])
}

/// The workspace that the job asks for. A job that states more than any accepted one gets the greatest: it is refused before
/// the workspace is looked at.
fn work_bytes(job: &[u8]) -> usize {
    if job.len() < 14 {
        return 0;
    }
    let head = usize::from(u16::from_be_bytes([job[12], job[13]]));
    4 * (sections(job).min(MOST_SECTIONS) + 1) * (head.min(MOST_HEAD) + 1_001)
}

fn u32_at(bytes: &[u8], at: usize) -> u32 {
    u32::from_be_bytes([bytes[at], bytes[at + 1], bytes[at + 2], bytes[at + 3]])
}
