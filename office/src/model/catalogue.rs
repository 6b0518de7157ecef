//! The catalogue: its fields, the refusals 10 and 11, and a size read at a flow.

use super::bytes::{number, up};
use super::faults::Faults;

pub struct Row {
    pub flow: i128,
    pub velocity: i128,
    pub slope: i128,
}

pub struct Size {
    pub bore: i128,
    pub price: i128,
    pub rows: Vec<Row>,
}

/// A size read at a flow.
#[derive(Clone, Copy)]
pub struct Reading {
    pub velocity: i128,
    pub slope: i128,
}

pub struct Catalogue {
    lent: i128,
    stated: i128,
    version: i128,
    rows: i128,
    /// Size t at place t - 1. Empty where the counts are out of range: then nothing says where a size stands.
    pub sizes: Vec<Size>,
}

impl Catalogue {
    pub fn of(cat: &[u8]) -> Catalogue {
        let (count, rows) = (number(cat, 5, 1), number(cat, 6, 1));
        let counts_ok = (1..=12).contains(&count) && (2..=64).contains(&rows);
        let sizes = if counts_ok { count as usize } else { 0 };
        Catalogue {
            lent: cat.len() as i128,
            stated: number(cat, 0, 4),
            version: number(cat, 4, 1),
            rows,
            sizes: (0..sizes).map(|place| size(cat, 7 + place * (4 + 8 * rows as usize), rows as usize)).collect(),
        }
    }

    /// Which of 10 and 11 apply, each asked without regard to the other.
    pub fn faults(&self) -> Faults {
        let length = 7 + self.sizes.len() as i128 * (4 + 8 * self.rows);
        let mut faults = Faults::default();
        faults.note(
            10,
            self.lent < 7
                || self.version != 1
                || self.sizes.is_empty()
                || self.stated != self.lent
                || self.lent != length,
        );
        let bores_fall = self.sizes.windows(2).any(|two| two[1].bore <= two[0].bore);
        faults.note(11, bores_fall || self.sizes.iter().any(Size::breaks_rules));
        faults
    }
}

impl Size {
    fn breaks_rules(&self) -> bool {
        self.bore < 1
            || !(1..=10_000).contains(&self.price)
            || self.rows.iter().any(|r| !(1..=1_000_000).contains(&r.flow) || r.velocity < 1 || r.slope < 1)
            || self.rows.windows(2).any(|two| {
                two[1].flow <= two[0].flow || two[1].velocity < two[0].velocity || two[1].slope < two[0].slope
            })
    }

    /// By the straight line between the rows on either side, under the first row by the one from zero to it; `None` where the
    /// flow is over the last row.
    pub fn read(&self, flow: i128) -> Option<Reading> {
        let high = self.rows.iter().find(|row| flow <= row.flow)?;
        let low = self.rows.iter().rev().find(|row| row.flow <= flow).unwrap_or(&ZERO);
        let line = |of: fn(&Row) -> i128| match high.flow - low.flow {
            // At a row the row itself.
            0 => of(high),
            apart => up(of(low) * (high.flow - flow) + of(high) * (flow - low.flow), apart),
        };
        Some(Reading { velocity: line(|row| row.velocity), slope: line(|row| row.slope) })
    }
}

/// Where the line to a first row starts.
const ZERO: Row = Row { flow: 0, velocity: 0, slope: 0 };

fn size(cat: &[u8], from: usize, rows: usize) -> Size {
    let row = |place: usize| {
        let at = from + 4 + 8 * place;
        Row { flow: number(cat, at, 4), velocity: number(cat, at + 4, 2), slope: number(cat, at + 6, 2) }
    };
    Size { bore: number(cat, from, 2), price: number(cat, from + 2, 2), rows: (0..rows).map(row).collect() }
}
