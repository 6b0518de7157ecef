//! An independent model of document 01 and of the requests of document 02 that have landed, written from the papers alone and
//! by other means than the proved library: whole numbers of 128 bits, sets of sections, every rule asked of every input, brute
//! force and fronts in place of rows of heads, meters put in order, each loss counted at the ends below it, heat by whole lots and the
//! rest. The tests compare the two.

pub mod alpha;
pub mod brute;
pub mod bytes;
pub mod catalogue;
pub mod demand;
pub mod faults;
pub mod fronts;
pub mod heads;
pub mod heat;
pub mod house;
pub mod meters;
pub mod norms;
pub mod rating;
pub mod set;

use crate::case::{Call, Case};
use bytes::put;
use catalogue::Catalogue;
use demand::Demand;
use faults::Faults;
use heads::{Heads, Losses};
use heat::Asked;
use house::House;
use meters::Meters;
use rating::{Order, Rating, losses_bytes};

/// What the papers say of one call.
pub struct Judged {
    pub house: House,
    pub demand: Demand,
    pub meters: Meters,
    pub losses: Losses,
    pub cat: Catalogue,
    /// Each section's flow; empty where the job is refused.
    pub flows: Vec<i128>,
    /// All refusals that apply. 13 and 16 can be asked only of an accepted job and catalogue, 18 of an accepted job and a list
    /// of meters by its rules.
    pub faults: Faults,
    /// What the call gives back.
    pub number: u32,
    pub result: Expected,
}

/// What the model says of the result's bytes.
pub enum Expected {
    /// The call is refused and writes nothing.
    Nothing,
    /// A copy, a flow result, a duty, a place with a job, flow, velocity and loss of each section, heat flows.
    Bytes(Vec<u8>),
    Headed(Heads),
    Rated(Rating),
    /// A suitable list of this cost, the least; the list here is one of them.
    Chosen {
        cost: i128,
        list: Vec<u8>,
    },
}

/// The order in which each call's refusals are given back.
pub fn order_of(call: Call) -> &'static [u32] {
    match call {
        Call::Copy => &[1, 2, 3, 4, 5, 6, 7, 14],
        Call::Flow | Call::Duty => &[1, 2, 3, 4, 5, 6, 7, 8, 9, 14],
        Call::Meter => &[1, 2, 3, 4, 5, 6, 7, 8, 9, 17, 14, 18],
        Call::Losses | Call::Rate => &[1, 2, 3, 4, 5, 6, 7, 8, 9, 10, 11, 12, 14, 13],
        Call::Heads => &[1, 2, 3, 4, 5, 6, 7, 8, 9, 19, 14],
        Call::Choose => &[1, 2, 3, 4, 5, 6, 7, 8, 9, 10, 11, 14, 15, 16],
        Call::Heat => &[1, 2, 3, 4, 5, 6, 7, 8, 9, 20, 21, 14],
    }
}

/// The bytes of a call's result for a house.
pub fn result_bytes(call: Call, house: &House) -> usize {
    let sections = house.sections.len();
    match call {
        Call::Copy => house.record_bytes(),
        Call::Flow => 12 + 4 * sections,
        Call::Duty => 4,
        Call::Meter => 1 + house.record_bytes(),
        Call::Losses => 10 * sections,
        Call::Heads => 9,
        Call::Rate => 9 + 6 * sections,
        Call::Choose => 4 + sections,
        Call::Heat => 8,
    }
}

/// The bytes of workspace for this many sections at this delivered head.
pub fn work_bytes(sections: usize, delivered: usize) -> usize {
    4 * (sections + 1) * (delivered + 1_001)
}

/// What the papers say of a case.
pub fn judge(case: &Case) -> Judged {
    let house = House::of(&case.job);
    let demand = Demand::of(&house);
    let (meters, losses, cat) = (Meters::of(&case.meters), Losses::of(&case.losses), Catalogue::of(&case.cat));
    let mut faults = house.faults();
    if case.call != Call::Copy {
        faults.join(demand.faults());
    }
    let flows = if faults.any() || case.call == Call::Copy { Vec::new() } else { demand.flows() };
    match case.call {
        Call::Copy | Call::Flow | Call::Duty => {}
        Call::Meter => faults.join(meters.faults()),
        Call::Heads => faults.join(losses.faults(&house)),
        Call::Losses | Call::Rate | Call::Choose => faults.join(cat.faults()),
        Call::Heat => faults.join(Asked::of(case.t, case.loss).faults(&house)),
    }
    let nothing = Expected::Nothing;
    let mut judged = Judged { house, demand, meters, losses, cat, flows, faults, number: 0, result: nothing };
    faults.note(12, case.call.takes_sizes() && judged.order().list_wrong(&case.sizes));
    if !faults.any() {
        match judged.result_of(case) {
            Ok(result) => judged.result = result,
            Err(number) => faults.note(number, true),
        }
    }
    faults.note(14, case.out.length < result_bytes(case.call, &judged.house));
    let work = work_bytes(judged.house.sections.len(), judged.house.delivered as usize);
    faults.note(15, case.call == Call::Choose && case.work.length < work);
    judged.faults = faults;
    judged.number = faults.first(order_of(case.call));
    if judged.number != 0 {
        judged.result = Expected::Nothing;
    }
    judged
}

impl Judged {
    /// The accepted job and catalogue.
    pub fn order(&self) -> Order<'_> {
        Order { house: &self.house, cat: &self.cat, flows: &self.flows }
    }

    /// The result of inputs in which nothing was found so far, or 13, 16 or 18.
    fn result_of(&self, case: &Case) -> Result<Expected, u32> {
        let (order, demand) = (self.order(), &self.demand);
        Ok(match case.call {
            Call::Copy => Expected::Bytes(case.job.clone()),
            Call::Flow => Expected::Bytes(flow_bytes(demand, &self.flows)),
            Call::Duty => {
                let mut bytes = Vec::new();
                put(&mut bytes, demand.house_flow(), 4);
                Expected::Bytes(bytes)
            }
            Call::Meter => {
                let ranked = self.meters.ranked(demand.house_flow(), demand.mean_hour());
                let (loss, place) = ranked.first().ok_or(18u32)?;
                Expected::Bytes(metered(&case.job, *loss, *place))
            }
            Call::Losses => Expected::Bytes(losses_bytes(&self.flows, &order.fit(&case.sizes).ok_or(13u32)?)),
            Call::Heads => Expected::Headed(Heads::of(&self.house, &self.losses.all)),
            Call::Rate => Expected::Rated(order.rate(&case.sizes).ok_or(13u32)?),
            Call::Choose => {
                let (cost, list) = fronts::least(&order).ok_or(16u32)?;
                Expected::Chosen { cost, list }
            }
            Call::Heat => Expected::Bytes(Asked::of(case.t, case.loss).bytes(demand)),
        })
    }
}

/// A place, and the job with another meter loss.
fn metered(job: &[u8], loss: i128, place: usize) -> Vec<u8> {
    let mut bytes = Vec::new();
    put(&mut bytes, place as i128, 1);
    bytes.extend(&job[..8]);
    put(&mut bytes, loss, 2);
    bytes.extend(&job[10..]);
    bytes
}

fn flow_bytes(demand: &Demand, flows: &[i128]) -> Vec<u8> {
    let mut bytes = Vec::new();
    let house = [demand.hour(), demand.day, demand.mean_hour()];
    house.iter().chain(flows).for_each(|value| put(&mut bytes, *value, 4));
    bytes
}
