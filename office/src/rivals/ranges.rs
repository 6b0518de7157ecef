//! The dense search row by row, as good as it can be: over the sizes that are left, in rows that start at the raised need and
//! end at the most head of use. Rows lie one after another, and the first child of a section writes where the others add.

use super::tree::{Fit, Found, Tree};
use super::trim::Trim;

/// Where no size was offered yet. It is over every cost of 63 sections, and a section's cost more is still a number of 32
/// bits, so that no sum has to be watched.
const MARK: u32 = u32::MAX - 50_000_000;

#[derive(Default)]
pub struct Ranges {
    pub trim: Trim,
    /// How often a size was offered to a cell in the last search.
    pub visits: usize,
    cells: Vec<u32>,
    /// Where each row starts in `cells`; place 0 is the pump.
    starts: Vec<usize>,
    /// Whether a row has anything in it.
    begun: Vec<bool>,
    best: Vec<u32>,
}

/// A finished row, from the raised need of its section to the most head of use.
struct Row<'a> {
    cells: &'a [u32],
    low: usize,
    high: usize,
}

impl Ranges {
    pub fn choose(&mut self, tree: &Tree) -> Found {
        if !self.trim.trim(tree) {
            return None;
        }
        self.lay(tree.parts.len());
        self.fill(tree);
        let cost = self.cells[self.trim.cells(0) - 1];
        Some((cost, self.read_back(tree)))
    }

    /// Lays the rows out.
    fn lay(&mut self, sections: usize) {
        self.starts.clear();
        let mut end = 0;
        for own in 0..=sections {
            self.starts.push(end);
            end += self.trim.cells(own);
        }
        if self.cells.len() < end {
            self.cells.resize(end, 0);
        }
        self.begun.clear();
        self.begun.resize(sections + 1, false);
        self.visits = 0;
    }

    fn fill(&mut self, tree: &Tree) {
        for (place, part) in tree.parts.iter().enumerate().rev() {
            let (own, parent) = (place + 1, part.parent);
            if !self.begun[own] {
                // Nothing hangs below: the row is one cell.
                self.cells[self.starts[own]] = 0;
            }
            let (above, below) = self.cells.split_at_mut(self.starts[own]);
            let row =
                Row { cells: &below[..self.trim.cells(own)], low: self.trim.lows[own], high: self.trim.highs[own] };
            let start = self.trim.lows[parent];
            let target = &mut above[self.starts[parent]..][..self.trim.cells(parent)];
            self.best.clear();
            self.best.resize(target.len(), MARK);
            self.visits += offer_all(self.trim.fits(own), &row, start, &mut self.best);
            if self.begun[parent] {
                target.iter_mut().zip(&self.best).for_each(|(cell, best)| *cell += *best);
            } else {
                target.copy_from_slice(&self.best);
            }
            self.begun[parent] = true;
        }
    }

    /// Sizes by choosing again, section by section, at the head that the parent's end has, or the most of use there.
    fn read_back(&self, tree: &Tree) -> Vec<u8> {
        let trim = &self.trim;
        let mut heads = vec![trim.highs[0]];
        let mut list = Vec::with_capacity(tree.parts.len());
        for (part, own) in tree.parts.iter().zip(1..) {
            let (low, high) = (trim.lows[own], trim.highs[own]);
            let row = &self.cells[self.starts[own]..];
            let head = heads[part.parent];
            let below = |fit: &Fit| (head - fit.loss).min(high);
            let fits = trim.fits(own).iter().filter(|fit| fit.loss + low <= head);
            let fit = fits.min_by_key(|fit| fit.cost + row[below(fit) - low]).expect("a size fits here");
            list.push(fit.size);
            heads.push(below(fit));
        }
        list
    }
}

/// The least over the sizes of a section, for the heads from `start` on at its parent's end. A size costs `enough` where the
/// head is enough for every list below. Gives how many cells were visited.
fn offer_all(fits: &[Fit], row: &Row, start: usize, best: &mut [u32]) -> usize {
    let end = start + best.len();
    let least = row.cells[row.cells.len() - 1];
    let mut visits = 0;
    // From `flat` on the best is at most `low`, so that a size which never costs less need not be offered there.
    let (mut flat, mut low) = (end, MARK);
    for fit in fits {
        let enough = least + fit.cost;
        let stop = if low <= enough { flat } else { end };
        let from = start.max(row.low + fit.loss).min(stop);
        let mid = (row.high + fit.loss + 1).clamp(from, stop);
        if from < mid {
            offer(&mut best[from - start..mid - start], &row.cells[from - fit.loss - row.low..], fit.cost);
        }
        best[mid - start..stop - start].iter_mut().for_each(|best| *best = (*best).min(enough));
        visits += stop - from;
        (flat, low) = ((row.high + fit.loss).clamp(start, end), enough);
    }
    visits
}

/// The loop that all the time goes to.
pub fn offer(best: &mut [u32], below: &[u32], cost: u32) {
    for (best, below) in best.iter_mut().zip(below) {
        *best = (*best).min(below + cost);
    }
}
