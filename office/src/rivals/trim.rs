//! What a search for a cheapest list may leave out, found before it in one pass from the last section to the first: sizes
//! that no cheapest list needs, heads that are too small for anything below, and heads beyond those of use.

use super::tree::{Fit, Tree};
use std::ops::Range;

/// Sections at their own places; place 0 is the pump.
#[derive(Default)]
pub struct Trim {
    /// The raised needs: with less head at an end, some end at or below it is short whatever the sizes.
    pub lows: Vec<usize>,
    /// The most head of use at an end: with more, every list of the sizes left works below it just as well.
    pub highs: Vec<usize>,
    kept: Vec<Fit>,
    /// Where a section's sizes stand in `kept`.
    spans: Vec<Range<usize>>,
}

impl Trim {
    /// Says whether every section has a size left. Where one has none, no list suits.
    pub fn trim(&mut self, tree: &Tree) -> bool {
        self.start(tree);
        for (place, part) in tree.parts.iter().enumerate().rev() {
            let (own, parent) = (place + 1, part.parent);
            let from = self.kept.len();
            let room = tree.head.checked_sub(self.lows[own]);
            part.fits.iter().for_each(|fit| self.offer(from, *fit, room));
            self.spans[own] = from..self.kept.len();
            let Some((least, most)) = ends(&self.kept[from..]) else { return false };
            self.lows[parent] = self.lows[parent].max(self.lows[own] + least);
            self.highs[parent] = self.highs[parent].max((self.highs[own] + most).min(tree.head));
        }
        true
    }

    /// The sizes of a section that are left, by their numbers.
    pub fn fits(&self, section: usize) -> &[Fit] {
        &self.kept[self.spans[section].clone()]
    }

    /// How many heads the row of a section, or of the pump, has.
    pub fn cells(&self, section: usize) -> usize {
        self.highs[section] - self.lows[section] + 1
    }

    fn start(&mut self, tree: &Tree) {
        self.lows.clear();
        self.lows.push(0);
        self.lows.extend(tree.parts.iter().map(|part| part.need));
        self.highs.clone_from(&self.lows);
        self.kept.clear();
        self.spans.clear();
        self.spans.resize(tree.parts.len() + 1, 0..0);
    }

    /// Keeps a size, unless it loses more than there is room for, or no less than the last one kept at no less cost.
    fn offer(&mut self, from: usize, fit: Fit, room: Option<usize>) {
        let too_long = room.is_none_or(|room| room < fit.loss);
        let last = self.kept[from..].last();
        let no_better = last.is_some_and(|last| last.loss <= fit.loss && last.cost <= fit.cost);
        if !too_long && !no_better {
            self.kept.push(fit);
        }
    }
}

/// The least and the greatest loss.
fn ends(fits: &[Fit]) -> Option<(usize, usize)> {
    let losses = || fits.iter().map(|fit| fit.loss);
    losses().min().zip(losses().max())
}
