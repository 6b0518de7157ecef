//! `office losses`: what each section loses with a list of sizes, without heads.

use super::arguments::Arguments;
use super::network::{Demand, service_fields};
use super::outcome::{Misuse, Outcome};
use super::rating::{bytes, sizes_line, sizes_of};
use super::refused::Given;
use super::report::{self, Fields, Unanswered};
use super::sections::{self, Known};
use office::pipes::{Pipe, without_heads};
use office::record::Record;
use office::{SectionLoss, calls, service};

pub fn losses(arguments: &Arguments) -> Result<Outcome, Misuse> {
    let (job, cat) = (arguments.file(0).job()?, arguments.file(1).catalogue()?);
    let sizes = arguments.file(2).sizes()?;
    let given = Given { job: Some(&job), cat: Some(&cat), sizes: &sizes, ..Given::default() };
    match Lost::of(&given) {
        Ok(lost) => report::answer(arguments, &given, || lost.fields(), || lost.chart().into_bytes()),
        Err(why) => report::unanswered(arguments, &why, &given),
    }
}

/// The library's losses, section by section.
struct Lost {
    record: Record,
    sizes: Vec<u8>,
    demand: Demand,
    pipes: Vec<Pipe>,
}

impl Lost {
    fn of(given: &Given) -> Result<Lost, Unanswered> {
        let (job, cat) = (bytes(given.job), bytes(given.cat));
        let found = calls::losses(job, cat, given.sizes)?;
        let demand = Demand::of(job)?;
        if let Some(why) = difference(&found, &demand) {
            return Err(Unanswered::Differs(why));
        }
        // What the library has rated can be read; were it otherwise there would be no pipes to show.
        let flows = (&demand.flow, &demand.taps);
        let pipes = without_heads(job, cat, given.sizes, flows, &found).unwrap_or_default();
        Ok(Lost { record: Record::read(job).unwrap_or_default(), sizes: given.sizes.to_vec(), demand, pipes })
    }

    fn fields(&self) -> Fields {
        let mut fields = service_fields(&self.demand);
        fields.extend([
            ("local_losses_tenths", self.record.tenths.into()),
            ("sizes", sizes_of(&self.sizes)),
            ("sections", sections::list(&self.pipes, Known::Sizes)),
        ]);
        fields
    }

    fn chart(&self) -> String {
        let marked = self.demand.taps.sections.iter().any(|kinds| !kinds.is_empty());
        let table = sections::table(&self.pipes, Known::Sizes);
        let legends = sections::legends(&self.pipes, marked);
        let service = self.demand.service.map(|service| format!("service  {}\n", service::name(service)));
        format!("{}{}\n{table}{LEGEND}{legends}", sizes_line(&self.sizes), service.unwrap_or_default())
    }
}

const LEGEND: &str = "\
loss: what the section's own pipe loses at its flow, with its local losses; `office heads` gives the heads with such losses
";

/// The first flow that comes with the losses and is another than the flow call's, whose marks stand beside it.
fn difference(found: &[SectionLoss], demand: &Demand) -> Option<String> {
    let flows = &demand.flow.flows;
    if found.len() != flows.len() {
        return Some(format!("losses come for {} sections and flows for {}", found.len(), flows.len()));
    }
    let mut both = (1..).zip(found.iter().zip(flows));
    let (section, (own, flow)): (usize, _) = both.find(|(_, (own, flow))| own.flow != **flow)?;
    Some(format!("section {section} has {} ml/s with its loss and {flow} ml/s without", own.flow))
}

#[cfg(test)]
mod tests {
    use super::*;
    use office::house;

    const OWN: &str = include_str!("../../../examples/own-case.txt");

    /// Losses with other flows than those that are marked beside them are not shown.
    #[test]
    fn flows_that_differ_are_found() {
        let job = house::pack(OWN).expect("document 01's own case");
        let Ok(demand) = Demand::of(&job) else { panic!("the library takes it") };
        let own = SectionLoss { flow: 2_052, velocity: 1_026, loss: 71 };
        assert_eq!(difference(&[own], &demand), None);
        for (found, wanted) in [
            (vec![SectionLoss { flow: 2_053, ..own }], "section 1 has 2053 ml/s with its loss and 2052 ml/s without"),
            (vec![own, own], "losses come for 2 sections and flows for 1"),
            (Vec::new(), "losses come for 0 sections and flows for 1"),
        ] {
            assert_eq!(difference(&found, &demand).as_deref(), Some(wanted));
        }
    }
}
