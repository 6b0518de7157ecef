//! Rating a list of sizes: the refusals 12 and 13, losses, heads; and whether a list suits and what it costs.

use super::bytes::{put, up};
use super::catalogue::Catalogue;
use super::heads::Heads;
use super::house::House;

/// An accepted job and an accepted catalogue.
pub struct Order<'a> {
    pub house: &'a House,
    pub cat: &'a Catalogue,
    /// Section i's flow at place i - 1.
    pub flows: &'a [i128],
}

/// One section with one size.
#[derive(Clone, Copy)]
pub struct Fitted {
    pub velocity: i128,
    pub loss: i128,
}

pub struct Rating {
    /// Section i at place i - 1.
    pub sections: Vec<Fitted>,
    pub heads: Heads,
}

impl Order<'_> {
    /// Whether 12 applies to a list.
    pub fn list_wrong(&self, list: &[u8]) -> bool {
        list.len() != self.house.sections.len()
            || list.iter().any(|t| !(1..=self.cat.sizes.len()).contains(&usize::from(*t)))
    }

    /// A section with size t, from 1; `None` where the section is over the size's last row or over the limit.
    pub fn fitted(&self, section: usize, t: usize) -> Option<Fitted> {
        let reading = self.cat.sizes[t - 1].read(self.flows[section - 1])?;
        let length = self.house.sections[section - 1].length;
        let loss = up(reading.slope * length * (10 + self.house.k), 1_000);
        (reading.velocity <= self.house.limit).then_some(Fitted { velocity: reading.velocity, loss })
    }

    /// The price of a section in size t, from 1.
    pub fn price(&self, section: usize, t: usize) -> i128 {
        self.cat.sizes[t - 1].price * self.house.sections[section - 1].length
    }

    /// Each section of a list that 12 lets through; `None` where 13 applies.
    pub fn fit(&self, list: &[u8]) -> Option<Vec<Fitted>> {
        list.iter().zip(1..).map(|(t, section)| self.fitted(section, usize::from(*t))).collect()
    }

    /// The same with its heads.
    pub fn rate(&self, list: &[u8]) -> Option<Rating> {
        let sections = self.fit(list)?;
        let losses: Vec<i128> = sections.iter().map(|fitted| fitted.loss).collect();
        Some(Rating { heads: Heads::of(self.house, &losses), sections })
    }

    /// Whether a list suits, in document 01's words.
    pub fn suits(&self, list: &[u8]) -> bool {
        !self.list_wrong(list) && self.rate(list).is_some_and(|rating| rating.heads.required <= self.house.delivered)
    }

    /// The cost of a list that 12 lets through.
    pub fn cost(&self, list: &[u8]) -> i128 {
        list.iter().zip(1..).map(|(t, section)| self.price(section, usize::from(*t))).sum()
    }
}

impl Fitted {
    /// Velocity and loss.
    fn put(&self, bytes: &mut Vec<u8>) {
        put(bytes, self.velocity, 2);
        put(bytes, self.loss, 4);
    }
}

impl Rating {
    pub fn bytes(&self) -> Vec<u8> {
        let mut bytes = self.heads.bytes();
        self.sections.iter().for_each(|fitted| fitted.put(&mut bytes));
        bytes
    }
}

/// The result of the losses call.
pub fn losses_bytes(flows: &[i128], sections: &[Fitted]) -> Vec<u8> {
    let mut bytes = Vec::new();
    for (flow, fitted) in flows.iter().zip(sections) {
        put(&mut bytes, *flow, 4);
        fitted.put(&mut bytes);
    }
    bytes
}
