//! Catalogues that document 01 accepts, made to measure for a house's flows.

use super::draft::DraftSize;
use super::rng::Rng;

/// What a catalogue is made for.
pub struct Measure {
    /// Flows of the house's sections; empty where the job is refused.
    pub flows: Vec<i64>,
    /// A slope at which a path of the house loses some metres.
    pub slope: i64,
    pub limit: i64,
}

/// What all sizes of a catalogue have in common.
struct Range {
    count: i64,
    rows: i64,
    /// The greatest flow of the house.
    most: i64,
    /// In a row of real pipes a wider one is dearer, slower and flatter; nothing in document 01 asks for that.
    real: bool,
    price: i64,
    one_price: bool,
}

pub fn catalogue(rng: &Rng, measure: &Measure) -> Vec<DraftSize> {
    let range = Range {
        count: rng.pick(&[1, 2, 2, 3, 3, 4, 6, 12]),
        rows: rng.pick(&[2, 2, 3, 4, 8, 16, 64]),
        most: measure.flows.iter().copied().max().unwrap_or(1_000).clamp(100, 900_000),
        real: !rng.once_in(4),
        price: rng.scaled(20, 1_500),
        one_price: rng.once_in(8),
    };
    let twins = rng.once_in(8);
    let mut bore = rng.between(1, 60);
    let mut sizes: Vec<DraftSize> = Vec::new();
    for place in 0..range.count {
        // The same pipe under another bore, so that two sizes lose the same and cost the same.
        let twin = sizes.last().filter(|_| twins && rng.once_in(2)).cloned();
        let size = twin.unwrap_or_else(|| range.size(rng, measure, place));
        sizes.push(DraftSize { bore: bore as u16, ..size });
        bore += rng.scaled(1, 1_000);
    }
    sizes
}

impl Range {
    /// The size at a place, without its bore.
    fn size(&self, rng: &Rng, measure: &Measure, place: i64) -> DraftSize {
        let Range { count, rows, most, real, .. } = *self;
        let last = if real && !rng.once_in(8) { most + rng.between(0, most) } else { rng.between(rows, 2 * most) };
        let share = if real { count - place } else { rng.between(1, count) };
        // Of a wide pipe the rows begin far above the house's flows, so many times as far up in all columns.
        let times = if rng.once_in(8) { rng.between(2, 50) } else { 1 };
        let velocity = (times * measure.limit * share * 3 / (2 * count)).clamp(1, 65_535);
        let slope = (times * measure.slope * share * share / count).clamp(1, 65_535);
        let flows = flows(rng, rows, times * last, measure);
        let velocities = rising(rng, rows, velocity);
        let slopes = rising(rng, rows, slope);
        let rows = flows.into_iter().zip(velocities).zip(slopes);
        DraftSize {
            bore: 0,
            price: self.price_at(rng, place).clamp(1, 10_000) as u16,
            rows: rows.map(|((flow, velocity), slope)| (flow, velocity, slope)).collect(),
        }
    }

    fn price_at(&self, rng: &Rng, place: i64) -> i64 {
        match self.real {
            _ if self.one_price => self.price,
            true => self.price + self.price * place / 2,
            false => rng.between(1, 10_000),
        }
    }
}

/// Strictly rising flows; some are flows of sections or one beside them.
fn flows(rng: &Rng, count: i64, last: i64, measure: &Measure) -> Vec<u32> {
    let mut flows: Vec<i64> =
        (1..=count).map(|place| place * (last / count).max(1) - rng.between(0, last / count / 2)).collect();
    if !measure.flows.is_empty() {
        for _ in 0..rng.below(4) {
            let beside = rng.pick(&[-1, 0, 0, 0, 1]);
            let place = rng.pick(&[0, count - 1, rng.between(0, count - 1)]);
            flows[place as usize] = rng.pick(&measure.flows) + beside;
        }
    }
    flows.sort_unstable();
    // Equal ones move up, and those that the end of the range stops move down.
    for place in 1..flows.len() {
        flows[place] = flows[place].max(flows[place - 1] + 1);
    }
    for (place, flow) in flows.iter_mut().enumerate() {
        *flow = (*flow).clamp(1 + place as i64, 1_000_000 - count + 1 + place as i64);
    }
    flows.into_iter().map(|flow| flow as u32).collect()
}

/// Numbers from 1 that don't fall, up to about this one.
fn rising(rng: &Rng, count: i64, most: i64) -> Vec<u16> {
    let mut numbers: Vec<u16> = (0..count).map(|_| rng.between(1, most) as u16).collect();
    numbers.sort_unstable();
    numbers
}
