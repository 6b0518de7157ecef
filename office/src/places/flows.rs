//! The sections' flows that 13 and 16 are about, with what sets them.

use crate::calls::{self, Flow};
use crate::taps::{self, Taps};

pub struct Flows {
    /// Section 1 is at place 0, in ml/s; the library's own.
    pub flows: Vec<u32>,
    taps: Taps,
}

impl Flows {
    /// None where the library refuses the job.
    pub fn of(job: &[u8]) -> Option<Flows> {
        Some(Flows::with(job, calls::flow(job).ok()?, calls::duty(job).ok()?))
    }

    /// With the library's answers. Where the model has other flows nothing is said of what sets them: the refusal is the
    /// library's and stands.
    fn with(job: &[u8], flow: Flow, duty: u32) -> Flows {
        let taps = Taps::of(job, &flow, duty).unwrap_or_default();
        Flows { flows: flow.flows, taps }
    }

    /// The sections with their flows, and these in words: `300 ml/s (one tap of hotel-100)`.
    pub fn sections(&self) -> impl Iterator<Item = (u8, u32, String)> {
        (1..=255).zip(&self.flows).map(|(section, flow)| {
            let kinds = self.taps.sections.get(usize::from(section) - 1).map_or(&[][..], Vec::as_slice);
            (section, *flow, format!("{flow} ml/s{}", taps::behind(kinds)))
        })
    }
}

#[cfg(test)]
mod tests {
    use super::*;
    use crate::house;

    /// Section 1 has basins at its end and leads to a bath, whose tap sets its flow.
    const MIXED: &str = "local losses 0.3\nhours 24\nmeter loss 50 cm\nguaranteed head 500 cm\ndelivered head 1200 cm\n\
        velocity limit 1500 mm/s\nresidents hotel-100 1\nresidents offices 1\n\
        section 1 from pump length 5 m elevation 300 cm kind offices fixtures 40 free 200 cm\n\
        section 2 from 1 length 5 m elevation 300 cm kind hotel-100 fixtures 1 free 200 cm\n\
        section 3 from pump length 5 m elevation 300 cm kind hotel-100 fixtures 3 free 200 cm\n";

    /// A flow that the model has otherwise is named, and no flow has a mark then, nor where it is the house's that differs.
    #[test]
    fn no_mark_where_the_model_differs() {
        let job = house::pack(MIXED).expect("a house");
        let words = |flows: &Flows| flows.sections().map(|(_, _, words)| words).collect::<Vec<_>>();
        let own = Flows::of(&job).expect("accepted");
        assert_eq!(words(&own)[..2], ["300 ml/s (one tap of hotel-100)", "300 ml/s"]);
        let (flow, duty) = (calls::flow(&job).expect("accepted"), calls::duty(&job).expect("accepted"));
        assert_eq!(words(&Flows::with(&job, flow.clone(), duty + 1))[..2], ["300 ml/s", "300 ml/s"]);
        let other = Flow { flows: [&[300, 301], &flow.flows[2..]].concat(), ..flow };
        assert_eq!(words(&Flows::with(&job, other, duty))[..2], ["300 ml/s", "301 ml/s"]);
        assert!(Flows::of(&job[..59]).is_none());
    }
}
