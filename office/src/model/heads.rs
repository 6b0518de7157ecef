//! The heads that the sections' losses ask for; and document 02's request L3, where the losses are given: refusal 19.

use super::bytes::{number, put};
use super::faults::Faults;
use super::house::House;

/// Losses over this many cm no table can give.
pub const MOST_LOSS: i128 = 4_259_775;

/// Losses as they are lent.
pub struct Losses {
    lent: usize,
    /// Section i's own loss at place i - 1, as many as are whole.
    pub all: Vec<i128>,
}

impl Losses {
    pub fn of(list: &[u8]) -> Losses {
        Losses { lent: list.len(), all: list.chunks_exact(4).map(|four| number(four, 0, 4)).collect() }
    }

    /// Whether 19 applies.
    pub fn faults(&self, house: &House) -> Faults {
        let mut faults = Faults::default();
        faults.note(19, self.lent as i128 != 4 * house.count() || self.any_over());
        faults
    }

    /// Whether a loss is over the most.
    pub fn any_over(&self) -> bool {
        self.all.iter().any(|loss| *loss > MOST_LOSS)
    }
}

/// What each end asks for, and the greatest of it.
pub struct Heads {
    /// Above the pump's axis: elevation, free head and path loss; section i at place i - 1.
    pub reaches: Vec<i128>,
    pub required: i128,
    pub pump: i128,
    pub dictating: usize,
}

impl Heads {
    /// Of an accepted job with a loss for each section. What a section loses is asked for by every end at or below it.
    pub fn of(house: &House, losses: &[i128]) -> Heads {
        let mut reaches: Vec<i128> = house.sections.iter().map(|s| s.elevation + s.free).collect();
        for (below, loss) in house.below.iter().zip(losses) {
            below.members().for_each(|end| reaches[end - 1] += loss);
        }
        Heads::at(house, reaches)
    }

    /// Of an accepted job whose ends ask for this.
    pub fn at(house: &House, reaches: Vec<i128>) -> Heads {
        let greatest = *reaches.iter().max().expect("an accepted job has a section");
        let required = house.meter + greatest;
        Heads {
            required,
            pump: (required - house.guaranteed).max(0),
            dictating: 1 + reaches.iter().position(|reach| *reach == greatest).expect("the greatest is one of them"),
            reaches,
        }
    }

    /// How many ends ask for the greatest.
    pub fn equals(&self) -> usize {
        let greatest = self.reaches[self.dictating - 1];
        self.reaches.iter().filter(|reach| **reach == greatest).count()
    }

    pub fn bytes(&self) -> Vec<u8> {
        let mut bytes = Vec::new();
        put(&mut bytes, self.required, 4);
        put(&mut bytes, self.pump, 4);
        put(&mut bytes, self.dictating as i128, 1);
        bytes
    }
}
