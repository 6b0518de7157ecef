//! What a case reached of a job's version and service, by the model: document 02's request L4.

use super::{Counters, Situation};
use crate::case::{Call, Case};
use crate::model::demand::Demand;
use crate::model::house::{House, SERVICE};
use crate::model::rating::Order;
use crate::model::{Expected, Judged, fronts, norms};

/// A job's version and service, in words.
pub(super) const NAMES: [&str; 4] = ["version 1", "all the water in version 2", "a cold line", "a hot line"];

/// The places of those for which a call may give a result.
pub(super) fn results(call: Call) -> impl Iterator<Item = (usize, &'static str)> {
    NAMES.into_iter().enumerate().filter(move |(place, _)| call != Call::Heat || *place == 3)
}

/// The place of an accepted job's.
fn place(house: &House) -> usize {
    if house.version == 1 { 0 } else { 1 + house.service as usize }
}

/// More sections than this are not chosen for a second time, so that the count takes no longer than the comparison.
pub(super) const FEW: usize = 12;

impl Counters {
    /// Counts a job of version 1 to which version 2 with service 0 gives the same number and the same figures.
    pub fn note_twin(&mut self, number: u32) {
        self.saw(Situation::TwinResult, number == 0);
        self.saw(Situation::TwinRefused, number != 0);
    }

    /// The record's version, its length and its service.
    pub(super) fn note_version(&mut self, case: &Case, judged: &Judged) {
        use Situation::*;
        let (house, number, lent) = (&judged.house, judged.number, case.job.len());
        let (one, two) = (house.version == 1, house.version == 2);
        if number == 0 {
            self.lines[case.call as usize][place(house)] += 1;
        }
        let stated = 10 * house.sections.len();
        self.saw(OneByteLong, number == 4 && one && lent == 41 + stated);
        self.saw(OneByteShort, number == 4 && two && lent == 40 + stated);
        self.saw(NoService4, number == 4 && two && lent == SERVICE);
        self.saw(NoService3, number == 3 && two && lent == SERVICE);
        let of_service = number == 3 && house.head_in_range();
        self.saw(ServiceOver, of_service && house.service == 3);
        self.saw(ServiceFar, of_service && house.service == 255);
        self.saw(ServiceBefore4, of_service && judged.faults.has(4));
        let parent = house.sections.first().map_or(0, |section| section.parent);
        self.saw(ParentOver, number == 5 && one && parent > 2);
        self.saw(ParentAsLine, number == 5 && one && [1, 2].contains(&parent));
    }

    /// An accepted job of a cold or a hot line beside the same house with all the water.
    pub(super) fn note_line(&mut self, case: &Case, judged: &Judged) {
        use Situation::*;
        let house = &judged.house;
        if house.service == norms::TOTAL {
            return;
        }
        let all = Demand::of(&with_all_the_water(case));
        self.saw(LineAlone8, judged.number == 0 && all.faults().has(8));
        let under = |(own, flow): (usize, &i128)| {
            (1..=12).any(|kind| house.served(own, kind) > 0 && *flow < 10 * norms::of(norms::TOTAL, kind).fixture)
        };
        self.saw(UnderTotalTap, judged.number == 0 && (1..).zip(&judged.flows).any(under));
        if all.faults().any() {
            return;
        }
        if let (Expected::Chosen { cost, .. }, true) = (&judged.result, judged.flows.len() <= FEW) {
            let flows = all.flows();
            let least = fronts::least(&Order { flows: &flows, ..judged.order() });
            self.saw(LineCheaper, least.as_ref().is_some_and(|(least, _)| cost < least));
            self.saw(LineSuits, least.is_none());
        }
    }

    /// A job of a cold or a hot line that 9 refuses.
    pub(super) fn note_crowded_line(&mut self, case: &Case, judged: &Judged) {
        let of_line = judged.number == 9 && judged.house.service != norms::TOTAL;
        let passes = || !Demand::of(&with_all_the_water(case)).faults().any();
        self.saw(Situation::LineCrowded, of_line && passes());
    }
}

/// The same house in version 2 with service 0.
fn with_all_the_water(case: &Case) -> House {
    let mut job = case.job.clone();
    job[SERVICE] = norms::TOTAL as u8;
    House::of(&job)
}

#[cfg(test)]
mod tests {
    use super::*;
    use crate::model::judge;
    use Situation::*;

    /// Document 01's own case with these bytes from its version to T, so many residents of one kind, and these bytes from 40 on.
    fn job(head: [u8; 4], kind: usize, residents: u16, rest: &[u8]) -> Vec<u8> {
        let mut job = vec![0, 0, 0, 40 + rest.len() as u8];
        job.extend(head);
        job.extend([0, 50, 1, 244, 4, 176, 5, 220]);
        job.extend([0; 24]);
        job[14 + 2 * kind..16 + 2 * kind].copy_from_slice(&residents.to_be_bytes());
        job.extend(rest);
        job
    }

    fn reached<const N: usize>(text: &str, job: Vec<u8>, situations: [Situation; N]) -> [u64; N] {
        let case = Case { job, ..Case::parse(text).expect("a case") };
        let mut counters = Counters::default();
        counters.note(&case, &judge(&case));
        situations.map(|situation| counters.reached(situation))
    }

    /// The own case's section with another first byte.
    fn end(parent: u8) -> [u8; 10] {
        [parent, 7, 0, 80, 0, 100, 2, 88, 0, 200]
    }

    fn copied<const N: usize>(head: [u8; 4], rest: &[u8], situations: [Situation; N]) -> [u64; N] {
        reached("call copy\nout 700", job(head, 7, 71, rest), situations)
    }

    #[test]
    fn lengths_of_the_versions() {
        let ask = [OneByteLong, OneByteShort, NoService4, NoService3];
        let (one, two) = ([1, 3, 1, 24], [2, 3, 1, 24]);
        let long = [&[0][..], &end(0)].concat();
        assert_eq!(copied(one, &end(0), ask), [0; 4], "accepted");
        assert_eq!(copied(two, &long, ask), [0; 4], "accepted");
        assert_eq!(copied(one, &long, ask), [1, 0, 0, 0]);
        assert_eq!(copied(two, &end(0), ask), [0, 1, 0, 0]);
        assert_eq!(copied(two, &[], ask), [0, 0, 1, 0]);
        assert_eq!(copied([2, 4, 1, 24], &[], ask), [0, 0, 0, 1]);
        assert_eq!(copied(one, &[], ask), [0; 4], "version 1 has no service");
        assert_eq!(copied([2, 3, 2, 24], &end(0), ask), [0; 4], "as long as with one section");
    }

    #[test]
    fn services_and_first_parents() {
        let ask = [ServiceOver, ServiceFar, ServiceBefore4, ParentOver, ParentAsLine];
        let with = |service: u8| [&[service][..], &end(0)].concat();
        let (one, two) = ([1, 3, 1, 24], [2, 3, 1, 24]);
        assert_eq!(copied(two, &with(2), ask), [0; 5]);
        assert_eq!(copied(two, &with(3), ask), [1, 0, 0, 0, 0]);
        assert_eq!(copied(two, &with(255), ask), [0, 1, 0, 0, 0]);
        assert_eq!(copied([2, 4, 1, 24], &with(3), ask), [0; 5], "3 by k too");
        assert_eq!(copied([2, 3, 2, 24], &with(4), ask), [0, 0, 1, 0, 0]);
        assert_eq!(copied(one, &end(3), ask), [0, 0, 0, 1, 0]);
        assert_eq!(copied(one, &end(2), ask), [0, 0, 0, 0, 1]);
        assert_eq!(copied(two, &[&[2][..], &end(3)].concat(), ask), [0; 5], "5 in version 2");
        // As a service the 3 would be 3.
        assert_eq!(copied(one, &with(3), ask), [0; 5], "4: a byte too many");
    }

    #[test]
    fn results_by_line() {
        let counted = |head: [u8; 4], rest: &[u8]| {
            let case = Case { job: job(head, 7, 71, rest), ..Case::parse("call duty\nout 4").expect("a case") };
            let mut counters = Counters::default();
            counters.note(&case, &judge(&case));
            counters.lines[Call::Duty as usize]
        };
        assert_eq!(counted([1, 3, 1, 24], &end(0)), [1, 0, 0, 0]);
        for service in 0..3 {
            let mut expected = [0; 4];
            expected[1 + usize::from(service)] = 1;
            assert_eq!(counted([2, 3, 1, 24], &[&[service][..], &end(0)].concat()), expected, "{service}");
        }
        assert_eq!(counted([2, 3, 1, 24], &[&[3][..], &end(0)].concat()), [0; 4], "refused");
        let of_heat: Vec<&str> = results(Call::Heat).map(|(_, name)| name).collect();
        assert_eq!((of_heat, results(Call::Flow).count()), (vec!["a hot line"], 4));
    }

    /// 4,900 residents of kind 8 have an hour sum of 490,000,000 with all the water and 392,000,000 in the hot line. 100 residents of
    /// kind 3 and 120 fixtures have 12,000,000 and 12,500,000.
    #[test]
    fn a_line_beside_all_the_water() {
        let ask = [LineAlone8, LineCrowded];
        let flow = |service: u8, kind: u8, fixtures: u8, residents: u16| {
            let rest = [service, 0, kind, 0, fixtures, 0, 100, 2, 88, 0, 200];
            reached("call flow\nout 16", job([2, 3, 1, 24], kind.into(), residents, &rest), ask)
        };
        let many = |service: u8, residents: u16| {
            let rest = [service, 0, 8, 1, 0, 0, 100, 2, 88, 0, 200];
            reached("call flow\nout 16", job([2, 3, 1, 24], 8, residents, &rest), ask)
        };
        assert_eq!((many(2, 4_900), many(2, 4_000), many(0, 4_900)), ([1, 0], [0, 0], [0, 0]));
        assert_eq!((flow(2, 3, 120, 100), flow(0, 3, 120, 100), flow(2, 3, 125, 100)), ([0, 1], [0, 0], [0, 0]));
        assert_eq!(flow(2, 3, 119, 100), [0, 0], "9 with all the water too");
    }

    /// A hotel's 1,206 ml/s of hot water, 1,112 of cold and 2,052 of all: size 1 serves at 1,642 mm/s, 938 cm and less.
    #[test]
    fn lists_of_a_line() {
        let ask = [LineCheaper, LineSuits, UnderTotalTap];
        let cat = "0000002f0102020028038400 0003e803200028 00000bb80960012c 00320514000003e801f4000c00000bb805dc005a";
        let chosen = |service: u8, head: [u8; 2]| {
            let mut job = job([2, 3, 1, 24], 7, 71, &[&[service][..], &end(0)].concat());
            job[12..14].copy_from_slice(&head);
            reached(&format!("call choose\ncat {cat}\nwork 20000\nout 5"), job, ask)
        };
        assert_eq!(chosen(2, [4, 176]), [1, 0, 0], "90,000 and 130,000");
        assert_eq!(chosen(2, [3, 152]), [0, 1, 0], "920 cm");
        assert_eq!(chosen(1, [3, 152]), [0, 1, 0], "920 cm");
        assert_eq!(chosen(0, [4, 176]), [0, 0, 0]);
        // One bath in the hot line has 200 ml/s, under the 300 of all the water.
        let bath = job([2, 3, 1, 24], 4, 1, &[2, 0, 4, 0, 9, 0, 100, 2, 88, 0, 200]);
        assert_eq!(reached("call flow\nout 16", bath.clone(), [UnderTotalTap]), [1]);
        assert_eq!(reached("call flow\nout 15", bath, [UnderTotalTap]), [0], "14");
    }
}
