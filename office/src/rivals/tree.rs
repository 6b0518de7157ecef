//! What a search is given: everything about pipes is worked out before.
//!
//! Heads are counted from 1,000 cm under the pump's axis, so that they are places in a row.

use crate::model::rating::Order;

/// One size of one section that serves within the limit.
#[derive(Clone, Copy, Debug, PartialEq, Eq)]
pub struct Fit {
    pub size: u8,
    pub loss: usize,
    pub cost: u32,
}

pub struct Part {
    pub parent: usize,
    pub need: usize,
    pub fits: Vec<Fit>,
}

pub struct Tree {
    /// Section i at place i - 1.
    pub parts: Vec<Part>,
    /// How many heads a row of the workspace has.
    pub width: usize,
    /// The head at the pump.
    pub head: usize,
}

/// A cheapest suitable list with its cost; `None` where no list suits.
pub type Found = Option<(u32, Vec<u8>)>;

impl Tree {
    /// The tree of an accepted job and an accepted catalogue.
    pub fn of(order: &Order) -> Tree {
        let house = order.house;
        let fit = |section: usize, t: usize| {
            let loss = order.fitted(section, t)?.loss as usize;
            Some(Fit { size: t as u8, loss, cost: order.price(section, t) as u32 })
        };
        let parts = house.sections.iter().zip(1..).map(|(s, own)| Part {
            parent: s.parent,
            need: (s.elevation + 1_000 + s.free) as usize,
            fits: (1..=order.cat.sizes.len()).filter_map(|t| fit(own, t)).collect(),
        });
        Tree {
            parts: parts.collect(),
            width: (house.delivered + 1_001) as usize,
            head: (house.delivered + 1_000 - house.meter) as usize,
        }
    }
}
