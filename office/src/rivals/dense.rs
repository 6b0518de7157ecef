//! The straightforward search for a cheapest list: for each section and each centimetre of head the least cost of all that
//! hangs below the section's end, in rows of all heads.

use super::tree::{Found, Part, Tree};

/// Where nothing fits. Costs stay under it, and sums stop at it.
const NONE: u32 = u32::MAX;

/// How a row is filled.
#[derive(Clone, Copy, Debug, PartialEq, Eq)]
pub enum Form {
    /// Head by head, the sizes inside: the sentence of the definition.
    CellByCell,
    /// Size by size, the heads inside, so that the compiler can work on several cells at once; it takes one row more.
    RowByRow,
}

#[derive(Default)]
pub struct Dense {
    cells: Vec<u32>,
    spare: Vec<u32>,
}

impl Dense {
    pub fn choose(&mut self, tree: &Tree, form: Form) -> Found {
        self.fill(tree, form);
        let cost = self.cells[tree.head];
        (cost != NONE).then(|| (cost, self.read_back(tree)))
    }

    /// Row 0 is the pump's, row s that of section s. From the leaves up, each section's row is done before it is added to its
    /// parent's.
    fn fill(&mut self, tree: &Tree, form: Form) {
        let width = tree.width;
        self.cells.resize((tree.parts.len() + 1) * width, 0);
        self.cells.fill(0);
        self.spare.resize(width, 0);
        for (place, part) in tree.parts.iter().enumerate().rev() {
            let (above, below) = self.cells.split_at_mut((place + 1) * width);
            let parent = &mut above[part.parent * width..][..width];
            let own = &below[..width];
            match form {
                Form::CellByCell => add_cell_by_cell(part, own, parent),
                Form::RowByRow => add_row_by_row(part, own, parent, &mut self.spare),
            }
        }
    }

    /// Sizes by choosing again, section by section, at the head that the parent's end has.
    fn read_back(&self, tree: &Tree) -> Vec<u8> {
        let mut heads = vec![tree.head];
        let mut list = Vec::with_capacity(tree.parts.len());
        for (part, own) in tree.parts.iter().zip(1..) {
            let row = &self.cells[own * tree.width..][..tree.width];
            let head = heads[part.parent];
            let fits = part.fits.iter().filter(|fit| fit.loss + part.need <= head);
            let fit = fits.min_by_key(|fit| fit.cost.saturating_add(row[head - fit.loss])).expect("a size fits here");
            list.push(fit.size);
            heads.push(head - fit.loss);
        }
        list
    }
}

fn add_cell_by_cell(part: &Part, own: &[u32], parent: &mut [u32]) {
    for (head, cell) in parent.iter_mut().enumerate() {
        let mut least = NONE;
        for fit in &part.fits {
            if fit.loss + part.need <= head {
                least = least.min(fit.cost.saturating_add(own[head - fit.loss]));
            }
        }
        *cell = cell.saturating_add(least);
    }
}

fn add_row_by_row(part: &Part, own: &[u32], parent: &mut [u32], least: &mut [u32]) {
    least.fill(NONE);
    for fit in part.fits.iter().filter(|fit| fit.loss + part.need < own.len()) {
        let from = fit.loss + part.need;
        for (least, below) in least[from..].iter_mut().zip(&own[part.need..]) {
            *least = (*least).min(fit.cost.saturating_add(*below));
        }
    }
    for (cell, least) in parent.iter_mut().zip(least) {
        *cell = cell.saturating_add(*least);
    }
}
