//! The sheet by the model: the input cut into job, catalogue and size list, and the text of their rating.

use office::case::{Buffer, Call, Case};
use office::model::faults::Faults;
use office::model::{Expected, judge};

/// The record at the front, and what follows it.
fn record(data: &[u8]) -> (&[u8], &[u8]) {
    let stated = data.first_chunk().map_or(data.len(), |four| u32::from_be_bytes(*four) as usize);
    data.split_at(stated.min(data.len()))
}

/// The text that the sheet program prints for an input, and the refusals that apply.
pub fn of(input: &[u8]) -> (String, Faults) {
    let (job, rest) = record(&input[..input.len().min(65_536)]);
    let (cat, sizes) = record(rest);
    let case = Case {
        call: Call::Rate,
        job: job.to_vec(),
        meters: Vec::new(),
        losses: Vec::new(),
        cat: cat.to_vec(),
        sizes: sizes.to_vec(),
        t: 0,
        loss: 0,
        work: Buffer::default(),
        // Longer than any result, also of a record that states 255 sections: 14 has no meaning here.
        out: Buffer { length: 2_000, pattern: Vec::new() },
    };
    let judged = judge(&case);
    let Expected::Rated(rating) = &judged.result else {
        return (format!("refused {}\n", judged.number), judged.faults);
    };
    let demand = &judged.demand;
    let mut text = format!("house {} {} {}\n", demand.hour(), demand.day, demand.mean_hour());
    for ((fitted, flow), i) in rating.sections.iter().zip(&judged.flows).zip(1..) {
        text += &format!("section {i} {flow} {} {}\n", fitted.velocity, fitted.loss);
    }
    let heads = &rating.heads;
    text += &format!("head {} {} {}\n", heads.required, heads.pump, heads.dictating);
    (text, judged.faults)
}
