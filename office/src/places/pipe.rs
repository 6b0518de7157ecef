//! A size read at a flow, and a section's loss: what 13 and 16 are explained by.

use crate::catalogue::{Row, Size};

/// What a size gives at a flow.
#[derive(Clone, Copy, Debug, PartialEq, Eq)]
pub struct Reading {
    /// mm/s
    pub velocity: u64,
    /// mm per metre
    pub slope: u64,
}

/// Velocity and slope by the straight line, each up; the line to the first row comes from zero. Over the last row there is none, nor
/// at flow 0, which no section of an accepted job has.
pub fn read(size: &Size, flow: u32) -> Option<Reading> {
    let zero = Row::default();
    let mut lines = std::iter::once(&zero).chain(&size.rows).zip(&size.rows);
    let (low, high) = lines.find(|(low, high)| low.flow < flow && flow <= high.flow)?;
    Some(Reading {
        velocity: between(flow, low, high, |row| row.velocity),
        slope: between(flow, low, high, |row| row.slope),
    })
}

fn between(flow: u32, low: &Row, high: &Row, value: impl Fn(&Row) -> u16) -> u64 {
    let (from, to) = (u64::from(value(low)), u64::from(value(high)));
    let rise = to.saturating_sub(from) * u64::from(flow - low.flow);
    from + rise.div_ceil(u64::from(high.flow - low.flow))
}

/// What is said of a figure at a flow that is under the first row of its size; nothing where it is not.
pub fn first_row_mark(flow: u32, first_row: u32) -> Option<String> {
    (flow < first_row).then(|| format!("under the first row, {first_row} ml/s"))
}
