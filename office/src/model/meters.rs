//! Document 02's request L1: the list of meters with refusal 17, what a meter loses, and the meters that qualify in their order.

use super::bytes::{number, up};
use super::faults::Faults;

pub struct Meter {
    /// 1 vane, 2 turbine.
    pub design: i128,
    /// Ten-thousandths of m per (l/s) squared.
    pub resistance: i128,
    /// l/h
    pub service: i128,
}

pub struct Meters {
    lent: usize,
    /// The meter at place t, from 1, at t - 1. The last one may be cut short.
    pub all: Vec<Meter>,
}

impl Meters {
    pub fn of(list: &[u8]) -> Meters {
        let meter = |five: &[u8]| Meter {
            design: number(five, 0, 1),
            resistance: number(five, 1, 2),
            service: number(five, 3, 2),
        };
        Meters { lent: list.len(), all: list.chunks(5).map(meter).collect() }
    }

    /// Whether 17 applies.
    pub fn faults(&self) -> Faults {
        let mut faults = Faults::default();
        let bytes_wrong = self.lent % 5 != 0 || self.lent < 5 || self.lent > 40;
        faults.note(17, bytes_wrong || self.all.iter().any(Meter::breaks_rules));
        faults
    }

    /// Loss and place of each meter that qualifies at the house's flow and mean hour, the one that wins first.
    pub fn ranked(&self, flow: i128, mean: i128) -> Vec<(i128, usize)> {
        let qualifying = self.all.iter().zip(1..).filter(|(meter, _)| meter.qualifies(flow, mean));
        let mut ranked: Vec<(i128, usize)> = qualifying.map(|(meter, place)| (meter.loss(flow), place)).collect();
        ranked.sort_unstable();
        ranked
    }
}

impl Meter {
    fn breaks_rules(&self) -> bool {
        ![1, 2].contains(&self.design) || self.resistance == 0 || self.service == 0
    }

    /// cm, at a flow in ml/s.
    pub fn loss(&self, flow: i128) -> i128 {
        up(self.resistance * flow * flow, 100_000_000)
    }

    /// The most that it may lose, cm.
    pub fn most(&self) -> i128 {
        if self.design == 1 { 500 } else { 250 }
    }

    /// Its loss is at most that. Nothing is rounded here: the most is whole, so that rounding up does not pass it.
    pub fn passes(&self, flow: i128) -> bool {
        self.resistance * flow * flow <= self.most() * 100_000_000
    }

    /// The mean hour is at most its service flow.
    pub fn serves(&self, mean: i128) -> bool {
        self.service >= mean
    }

    pub fn qualifies(&self, flow: i128, mean: i128) -> bool {
        self.passes(flow) && self.serves(mean)
    }
}
