//! How the library's choosing grows, beside what the machine can do at best with as many cells.

use super::Load;
use super::houses::Pipes;
use super::timing::{Spread, micros, race};
use crate::ffi;
use crate::model::judge;
use crate::rivals::ranges::{Ranges, offer};
use crate::rivals::tree::Tree;
use std::fmt::Write;
use std::hint::black_box;

const GROWTH: &str = "\
|pipes|S|H|sizes|library µs|cells|visits|limit µs|over limit|
|-|-|-|-|-|-|-|-|-|";

pub fn table() -> String {
    let mut text =
        format!("\nhow the library's choosing grows, and the machine's limit for as many visits\n{GROWTH}\n");
    let mut put = |sections: usize, head: usize, sizes: usize, pipes: Pipes| {
        let _ = writeln!(text, "{}", growth(&Load { sections, head, sizes, pipes }));
    };
    [1, 8, 16, 32, 63].iter().for_each(|sections| put(*sections, 6_000, 12, Pipes::WorstChain));
    [1_000, 2_000, 4_000].iter().for_each(|head| put(63, *head, 12, Pipes::WorstChain));
    [3, 6].iter().for_each(|sizes| put(63, 6_000, *sizes, Pipes::WorstChain));
    for pipes in [Pipes::Real, Pipes::AllServe] {
        [8, 32, 63].iter().for_each(|sections| put(*sections, 6_000, 12, pipes));
    }
    text
}

fn growth(load: &Load) -> String {
    let case = load.case();
    let tree = Tree::of(&judge(&case).order());
    let mut ranges = Ranges::default();
    assert!(ranges.choose(&tree).is_some(), "the benchmark's house has a suitable list");
    let cells: usize = (0..=load.sections).map(|row| ranges.trim.cells(row)).sum();
    let visits = ranges.visits;
    let (mut work, mut out) = (vec![0; case.work.length], vec![0; case.out.length]);
    let mut library = || {
        black_box(ffi::choose(black_box(&case.job), &case.cat, &mut work, &mut out));
    };
    let mut passes = Passes::default();
    let mut limit = || passes.run(black_box(visits));
    let times = race(&mut [&mut library, &mut limit]);
    let Load { sections, head, sizes, pipes } = load;
    let (own, least) = (micros(&times[0]), micros(&times[1]));
    let over = Spread::of_ratios(&times[0], &times[1]);
    format!("|{pipes}|{sections}|{head}|{sizes}|{own}|{cells}|{visits}|{least}|{over}|")
}

/// As many cells as the nearest cache holds of two rows.
const PIECE: usize = 4_096;

/// The loop of offering one size to a row, over cells that stay in the nearest cache, and nothing else.
struct Passes {
    best: Vec<u32>,
    below: Vec<u32>,
}

impl Default for Passes {
    fn default() -> Passes {
        Passes { best: vec![u32::MAX; PIECE], below: (0..PIECE as u32).rev().collect() }
    }
}

impl Passes {
    fn run(&mut self, visits: usize) {
        for from in (0..visits).step_by(PIECE) {
            let piece = PIECE.min(visits - from);
            offer(black_box(&mut self.best[..piece]), &self.below[..piece], from as u32);
        }
    }
}
