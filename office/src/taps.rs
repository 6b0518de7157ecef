//! Which design flows one tap sets, and of which kind: where a fixture draws more than the average of the kinds served.
//!
//! The flows are the library's. What sets them is worked out by the model, so the model has to have the same flows.

use crate::calls::Flow;
use crate::case::Call;
use crate::kinds;
use crate::model::demand::Demand;
use crate::model::house::House;
use crate::model::order_of;

/// The kinds of which one tap sets a design flow, rising; none where the average flow stands.
#[derive(Clone, Debug, Default, PartialEq, Eq)]
pub struct Taps {
    pub house: Vec<u8>,
    /// Section 1 is at place 0.
    pub sections: Vec<Vec<u8>>,
}

impl Taps {
    /// Of a job that the library has accepted, with its flows and the house's. Where the model has others, these in words:
    /// either of the two is wrong then, and nothing may be said of what sets a flow.
    pub fn of(job: &[u8], flow: &Flow, duty: u32) -> Result<Taps, String> {
        let house = House::of(job);
        let demand = Demand::of(&house);
        let mut faults = house.faults();
        faults.join(demand.faults());
        if faults.any() {
            let number = faults.first(order_of(Call::Flow));
            return Err(format!("the library takes a house that the command refuses with {number}"));
        }
        match difference(&demand, flow, duty) {
            Some(why) => Err(why),
            None => Ok(Taps { house: demand.house_taps(), sections: demand.section_taps() }),
        }
    }

    /// Whether one tap sets any flow, of the house or of a section.
    pub fn any(&self) -> bool {
        self.sections.iter().chain([&self.house]).any(|kinds| !kinds.is_empty())
    }
}

/// The first flow of the library that the model has otherwise.
fn difference(demand: &Demand, flow: &Flow, duty: u32) -> Option<String> {
    let flows = demand.flows();
    if flows.len() != flow.flows.len() {
        let (library, command) = (flow.flows.len(), flows.len());
        return Some(format!("the house has {library} sections by the library and {command} by the command"));
    }
    let of_section = |(section, (library, model))| (format!("section {section}"), library, model);
    let sections = (1..).zip(flow.flows.iter().copied().zip(flows)).map(of_section);
    let mut all = sections.chain([("the house".to_string(), duty, demand.house_flow())]);
    let (whose, library, model) = all.find(|(_, library, model)| i128::from(*library) != *model)?;
    Some(format!("the design flow of {whose} is {library} ml/s by the library and {model} ml/s by the command"))
}

/// What sets a flow, in words: `one tap of hotel-75 or hotel-100`; nothing where the average flow stands.
pub fn words(kinds: &[u8]) -> String {
    if kinds.is_empty() { String::new() } else { format!("one tap of {}", any_of(kinds, kinds::name)) }
}

/// The same of several kinds by their numbers, which take less room: `one tap of kinds 7 or 8`.
pub fn numbers(kinds: &[u8]) -> String {
    format!("one tap of kinds {}", any_of(kinds, |kind| kind.to_string()))
}

/// The kinds as `show` has each of them.
fn any_of(kinds: &[u8], show: impl Fn(u8) -> String) -> String {
    let all: Vec<String> = kinds.iter().map(|kind| show(*kind)).collect();
    match all.split_last() {
        Some((last, others)) if !others.is_empty() => format!("{} or {last}", others.join(", ")),
        _ => all.concat(),
    }
}

/// The same right behind the unit of a flow, so that what follows is said of the flow and not of the tap.
pub fn behind(kinds: &[u8]) -> String {
    if kinds.is_empty() { String::new() } else { format!(" ({})", words(kinds)) }
}

/// What the words mean, for below a table or a drawing in which they stand.
pub const LEGEND: &str = "one tap of a kind: one fixture of this kind draws more than the formula gives for all that is served; the \
    flow is what it draws";

#[cfg(test)]
mod tests {
    use super::*;
    use crate::{calls, house};

    #[test]
    fn kinds_in_words() {
        for (kinds, said) in [
            (&[][..], ""),
            (&[8], "one tap of hotel-100"),
            (&[7, 8], "one tap of hotel-75 or hotel-100"),
            (&[2, 5, 9], "one tap of hostel-showers, hotel-showers or hospital"),
        ] {
            assert_eq!(words(kinds), said);
        }
        assert_eq!(numbers(&[7, 8]), "one tap of kinds 7 or 8");
        assert_eq!(numbers(&[1, 4, 6, 7, 8]), "one tap of kinds 1, 4, 6, 7 or 8");
        assert_eq!((behind(&[]), behind(&[8])), (String::new(), " (one tap of hotel-100)".to_string()));
    }

    /// A house of two sections of one kind each, in which the average flow stands whatever sets a flow.
    const PLAIN: &str = "local losses 0.3\nhours 24\nmeter loss 50 cm\nguaranteed head 500 cm\ndelivered head 1200 cm\n\
        velocity limit 1500 mm/s\nresidents dwelling 84\nresidents offices 30\n\
        section 1 from pump length 10 m elevation 600 cm kind dwelling fixtures 80 free 200 cm\n\
        section 2 from pump length 10 m elevation 600 cm kind offices fixtures 20 free 200 cm\n";

    /// Nothing is said of flows that are not the model's, whichever of them it is.
    #[test]
    fn every_difference_is_found() {
        let job = house::pack(PLAIN).expect("a house");
        let (flow, duty) = (calls::flow(&job).expect("accepted"), calls::duty(&job).expect("accepted"));
        let none = Taps { house: Vec::new(), sections: vec![Vec::new(); 2] };
        assert_eq!(Taps::of(&job, &flow, duty), Ok(none.clone()));
        assert!(!none.any());
        assert!(Taps { house: vec![8], ..none.clone() }.any());
        assert!(Taps { sections: vec![Vec::new(), vec![8]], ..none }.any());
        let with = |flows: &[u32]| Flow { flows: flows.to_vec(), ..flow.clone() };
        let (first, second) = (flow.flows[0], flow.flows[1]);
        for (flow, duty, wanted) in [
            (
                with(&[first + 1, second]),
                duty,
                format!("section 1 is {} ml/s by the library and {first} ml/s", first + 1),
            ),
            (with(&[first, second - 1]), duty, format!("section 2 is {} ml/s by the library", second - 1)),
            (flow.clone(), duty + 1, format!("the house is {} ml/s by the library and {duty} ml/s", duty + 1)),
            (with(&[first]), duty, "the house has 1 sections by the library and 2 by the command".to_string()),
        ] {
            let said = Taps::of(&job, &flow, duty).expect_err("they differ");
            assert!(said.contains(&wanted), "{said}");
        }
        // A house that the model refuses has no flow by it.
        let refused = Taps::of(&job[..59], &flow, duty).expect_err("they differ");
        assert_eq!(refused, "the library takes a house that the command refuses with 1");
    }
}
