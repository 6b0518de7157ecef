//! A rated house, section by section: what the library's answers say of each pipe, put together for tables and drawings.

use crate::calls::{Flow, Rating, SectionLoss};
use crate::catalogue::{Catalogue, Size};
use crate::places::{first_row_mark, gentlest, reading};
use crate::record::{Record, Section};
use crate::taps::Taps;
use crate::walk::{Turn, walk};

/// One section with its size. Where no size serves it, its size is 0.
#[derive(Clone, Debug, Default, PartialEq, Eq)]
pub struct Pipe {
    pub number: u8,
    pub section: Section,
    pub size: u8,
    /// mm
    pub bore: u16,
    /// Per metre.
    pub price: u16,
    /// The flow of its size's first row, in ml/s.
    pub first_row: u32,
    /// ml/s
    pub flow: u32,
    /// The kinds of which one tap sets the flow; none where the average flow stands.
    pub taps: Vec<u8>,
    /// mm/s
    pub velocity: u16,
    /// cm
    pub loss: u32,
    /// What all pipes up to this end lose together, in cm.
    pub path_loss: i64,
    /// Head left at the end, in cm, when the pump delivers the delivered head: it less the meter loss, the path loss and the
    /// elevation. It is to be at least the free head.
    pub left: i64,
    /// Whether the section lies between the pump and the dictating end.
    pub dictating: bool,
}

impl Pipe {
    /// In tenths of the price unit: the price is per metre, the length in dm.
    pub fn cost(&self) -> u64 {
        u64::from(self.price) * u64::from(self.section.length)
    }

    /// The head that the end asks for in a house with this meter loss, in cm. The greatest of all ends is the required head.
    pub fn asked(&self, meter: u16) -> i64 {
        i64::from(meter) + i64::from(self.section.elevation) + i64::from(self.section.free) + self.path_loss
    }

    /// Whether its flow is under the first row of its size, where velocity and slope go by the line from zero.
    pub fn is_under_first_row(&self) -> bool {
        self.flow < self.first_row
    }

    /// The same in words, where it is so.
    pub fn first_row_mark(&self) -> Option<String> {
        first_row_mark(self.flow, self.first_row)
    }

    /// Gives it a size of the table.
    fn put_size(&mut self, number: u8, of_table: &Size) {
        (self.size, self.bore, self.price) = (number, of_table.bore, of_table.price);
        self.first_row = of_table.first_flow();
    }
}

/// What `under the first row` means, for below a table or a drawing in which it stands.
pub const UNDER_FIRST_ROW: &str = "under the first row: the rows of the size begin at a greater flow; velocity is flow x first velocity / \
    first flow, rounded up, slope likewise";

/// What is known of a house's flows: the library's, and which of them one tap sets.
type Flows<'a> = (&'a Flow, &'a Taps);

/// The pipes of a house, section 1 first. The job, the catalogue and the sizes are ones that the library has rated; if the
/// answers are not of this house there are no pipes.
pub fn pipes(job: &[u8], cat: &[u8], sizes: &[u8], flows: Flows, rating: &Rating) -> Option<Vec<Pipe>> {
    let rated: Vec<_> = rating.sections.iter().map(|rated| (rated.velocity, rated.loss)).collect();
    let mut pipes = with_sizes(job, cat, sizes, flows, &rated)?;
    put_heads(&mut pipes, &Record::read(job).ok()?, rating.dictating)?;
    Some(pipes)
}

/// The same of a house whose losses alone were worked out: heads are 0 and not to be shown.
pub fn without_heads(job: &[u8], cat: &[u8], sizes: &[u8], flows: Flows, losses: &[SectionLoss]) -> Option<Vec<Pipe>> {
    let rated: Vec<_> = losses.iter().map(|own| (own.velocity, own.loss)).collect();
    with_sizes(job, cat, sizes, flows, &rated)
}

/// The pipes of a house with losses that are given: sizes and velocities are 0 and not to be shown.
pub fn without_sizes(job: &[u8], flows: Flows, losses: &[u32], dictating: u8) -> Option<Vec<Pipe>> {
    let record = Record::read(job).ok()?;
    let mut pipes = bare(&record, flows)?;
    let given: Vec<_> = losses.iter().map(|loss| (0, *loss)).collect();
    put_losses(&mut pipes, &given)?;
    put_heads(&mut pipes, &record, dictating)?;
    Some(pipes)
}

/// The pipes of a house for which no list of sizes suits: each section with the size of the least loss that serves it. Without
/// a size for each there is no rating, so losses and heads are 0 and not to be shown.
pub fn sketch(job: &[u8], cat: &[u8], flows: Flows) -> Option<Vec<Pipe>> {
    let record = Record::read(job).ok()?;
    let catalogue = Catalogue::read(cat).ok()?;
    let mut pipes = bare(&record, flows)?;
    let sizes = gentlest(&record, &catalogue, &flows.0.flows);
    for (pipe, size) in pipes.iter_mut().zip(sizes) {
        let Some((number, size)) = size.and_then(|number| Some((number, catalogue.size(number)?))) else { continue };
        pipe.put_size(number, size);
        pipe.velocity = reading(size, pipe.flow).map_or(0, |reading| reading.velocity as u16);
    }
    Some(pipes)
}

/// The pipes with their flows, and all else 0.
fn bare(record: &Record, (flow, taps): Flows) -> Option<Vec<Pipe>> {
    if [flow.flows.len(), taps.sections.len()] != [record.sections.len(); 2] {
        return None;
    }
    let flows = flow.flows.iter().zip(&taps.sections);
    let pipes = record.numbered().zip(flows).map(|((number, section), (flow, taps))| Pipe {
        number,
        section: *section,
        flow: *flow,
        taps: taps.clone(),
        ..Pipe::default()
    });
    Some(pipes.collect())
}

/// The pipes with their sizes, and the velocity and the loss of each.
fn with_sizes(job: &[u8], cat: &[u8], sizes: &[u8], flows: Flows, rated: &[(u16, u32)]) -> Option<Vec<Pipe>> {
    let catalogue = Catalogue::read(cat).ok()?;
    let mut pipes = bare(&Record::read(job).ok()?, flows)?;
    if sizes.len() != pipes.len() {
        return None;
    }
    for (pipe, size) in pipes.iter_mut().zip(sizes) {
        pipe.put_size(*size, catalogue.size(*size)?);
    }
    put_losses(&mut pipes, rated)?;
    Some(pipes)
}

/// Puts velocities and losses into the pipes of a house.
fn put_losses(pipes: &mut [Pipe], rated: &[(u16, u32)]) -> Option<()> {
    if rated.len() != pipes.len() {
        return None;
    }
    for (pipe, rated) in pipes.iter_mut().zip(rated) {
        (pipe.velocity, pipe.loss) = *rated;
    }
    Some(())
}

/// Puts path losses and heads left into pipes that have their losses, and marks those on the way to the dictating end.
fn put_heads(pipes: &mut [Pipe], record: &Record, dictating: u8) -> Option<()> {
    let losses: Vec<u32> = pipes.iter().map(|pipe| pipe.loss).collect();
    let path = turns(record, pipes, dictating);
    for pipe in pipes {
        pipe.path_loss = walk(&record.sections, &losses, pipe.number)?.last()?.sum;
        let elevation = i64::from(pipe.section.elevation);
        pipe.left = i64::from(record.delivered) - i64::from(record.meter) - pipe.path_loss - elevation;
        pipe.dictating = path.iter().any(|turn| turn.section == pipe.number);
    }
    Some(())
}

/// The walk from a section to the pump, with the losses that the pipes have; no turn where the house has no such section.
pub fn turns(record: &Record, pipes: &[Pipe], section: u8) -> Vec<Turn> {
    let losses: Vec<u32> = pipes.iter().map(|pipe| pipe.loss).collect();
    walk(&record.sections, &losses, section).unwrap_or_default()
}
