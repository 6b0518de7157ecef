//! Columns and rows of the drawing: a section's column is its distance from the pump, and each end has a row of its own.

use crate::pipes::Pipe;

/// Sizes of the drawing's grid, in its own units. A column holds the longest text of a section, a row its lines.
pub const COLUMN: i64 = 240;
pub const LEFT: i64 = 126;
pub const TOP: i64 = 130;
/// From one line of text below a pipe to the next.
pub const LINE: i64 = 14;
/// A row in which no pipe has more than `LINES` lines below it; each further line makes the rows higher.
const ROW: i64 = 90;
const LINES: usize = 4;

/// Where a section begins.
#[derive(Clone, Copy, Debug, Default, PartialEq, Eq)]
pub struct Place {
    pub x: i64,
    pub y: i64,
}

/// The height of a row for pipes with at most this many lines below them.
pub fn row(lines: usize) -> i64 {
    ROW + LINE * lines.saturating_sub(LINES) as i64
}

/// The place of every section, section 1 first, in rows of this height. A section's column is as many as there are sections
/// between it and the pump. Children follow their parent in the order of their numbers; the first keeps the parent's row, each
/// other starts below all that hangs from those before it.
pub fn places(pipes: &[Pipe], row: i64) -> Vec<Place> {
    let mut places = vec![Place::default(); pipes.len()];
    let mut rows = 0;
    // Sections still to be placed, the next one last, so that a branch is finished before the one beside it begins.
    let mut open: Vec<(u8, i64, bool)> =
        children(pipes, 0).into_iter().map(|(child, first)| (child, 0, first)).collect();
    while let Some((number, column, straight)) = open.pop() {
        if !straight {
            rows += 1;
        }
        places[usize::from(number) - 1] = Place { x: LEFT + column * COLUMN, y: TOP + rows * row };
        open.extend(children(pipes, number).into_iter().map(|(child, first)| (child, column + 1, first)));
    }
    places
}

/// The sections that hang from one, last first, and whether each is the first.
fn children(pipes: &[Pipe], parent: u8) -> Vec<(u8, bool)> {
    let mut children: Vec<u8> = pipes
        .iter()
        .filter(|pipe| pipe.section.parent == parent && pipe.number > parent)
        .map(|pipe| pipe.number)
        .collect();
    children.reverse();
    let last = children.len();
    children.into_iter().enumerate().map(|(place, child)| (child, place + 1 == last)).collect()
}

/// Where the last column and the last row end.
pub fn extent(places: &[Place], row: i64) -> (i64, i64) {
    let right = places.iter().map(|place| place.x).max().unwrap_or(LEFT);
    let below = places.iter().map(|place| place.y).max().unwrap_or(TOP);
    (right + COLUMN, below + row)
}
