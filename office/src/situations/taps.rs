//! What one tap did in a case, by the model: document 02's request L2.

use super::{Counters, Situation};
use crate::case::{Call, Case};
use crate::model::demand::Served;
use crate::model::house::House;
use crate::model::rating::Order;
use crate::model::{Expected, Judged, fronts, norms};

impl Counters {
    /// An accepted job.
    pub(super) fn note_taps(&mut self, case: &Case, judged: &Judged) {
        match case.call {
            Call::Copy | Call::Heads | Call::Heat => {}
            Call::Flow | Call::Losses | Call::Rate | Call::Choose => self.note_tapped_sections(case, judged),
            Call::Duty | Call::Meter => self.note_tapped_house(case, judged),
        }
    }

    fn note_tapped_sections(&mut self, case: &Case, judged: &Judged) {
        use Situation::*;
        let taps = judged.demand.section_taps();
        let tapped = taps.iter().any(|kinds| !kinds.is_empty());
        let done = tapped && judged.number == 0;
        self.saw(TapInFlow, done && case.call == Call::Flow);
        self.saw(TapInLosses, done && case.call == Call::Losses);
        self.saw(TapInRating, done && case.call == Call::Rate);
        self.saw(TapInChoice, done && case.call == Call::Choose);
        if judged.number == 0 {
            self.note_averages(judged);
        }
        if done {
            self.note_tapped(judged, &taps);
        }
        if tapped {
            self.note_by_averages(case, judged);
        }
    }

    /// Averages at one tap and beside it.
    fn note_averages(&mut self, judged: &Judged) {
        use Situation::*;
        let (house, sections) = (&judged.house, &judged.demand.sections);
        let over = |s: &Served| s.average_flow() - s.one_tap();
        let any =
            |by: i128| (1..).zip(sections).any(|(own, s)| over(s) == by && several(|kind| house.served(own, kind)));
        self.saw(AverageUnderTap, any(-1));
        self.saw(AverageAtTap, any(0));
        self.saw(AverageOverTap, any(1));
    }

    /// Sections whose flow one tap sets, by the kinds of that tap; section i at place i - 1.
    fn note_tapped(&mut self, judged: &Judged, taps: &[Vec<u8>]) {
        use Situation::*;
        let (house, demand, flows) = (&judged.house, &judged.demand, &judged.flows);
        let tapped = |own: usize| !taps[own - 1].is_empty();
        let any = |of: &dyn Fn(usize) -> bool| (1..=taps.len()).any(of);
        let draws = |own: usize| demand.sections[own - 1].one_tap();
        let total = house.service == norms::TOTAL;
        self.saw(Tap200, any(&|own| total && tapped(own) && draws(own) == 200));
        self.saw(Tap300, any(&|own| total && tapped(own) && draws(own) == 300));
        self.saw(TapLine140, any(&|own| !total && tapped(own) && draws(own) == 140));
        self.saw(TapLine200, any(&|own| !total && tapped(own) && draws(own) == 200));
        self.saw(TapOfOwnEnd, any(&|own| of_own_end(house, own, &taps[own - 1])));
        let from_below = |own: usize| !taps[own - 1].contains(&(house.sections[own - 1].kind as u8));
        self.saw(TapFromBelow, any(&|own| tapped(own) && from_below(own)));
        self.saw(TapBesideMore, any(&|own| tapped(own) && draws(own) < demand.house.one_tap()));
        let pair = |of: &dyn Fn(usize, usize) -> bool| {
            any(&|own| {
                let parent = house.sections[own - 1].parent;
                parent > 0 && of(own, parent)
            })
        };
        self.saw(TapUnderAverage, pair(&|own, parent| tapped(own) && !tapped(parent)));
        let mixed = |own: usize| several(|kind| house.served(own, kind));
        self.saw(TapOverAverage, pair(&|own, parent| tapped(parent) && !tapped(own) && mixed(own)));
        self.saw(TapUnderMore, pair(&|own, parent| tapped(parent) && flows[own - 1] > flows[parent - 1]));
    }

    /// What the call would give if document 01's values were the flows.
    fn note_by_averages(&mut self, case: &Case, judged: &Judged) {
        use Situation::*;
        let averages = judged.demand.averages();
        let order = Order { flows: &averages, ..judged.order() };
        match (judged.number, &judged.result) {
            (13, _) => self.saw(TapAlone13, order.fit(&case.sizes).is_some()),
            (16, _) => self.saw(TapAlone16, fronts::least(&order).is_some()),
            (_, Expected::Chosen { cost, .. }) => {
                self.saw(TapDearer, fronts::least(&order).is_some_and(|(least, _)| least < *cost));
            }
            _ => {}
        }
    }

    fn note_tapped_house(&mut self, case: &Case, judged: &Judged) {
        use Situation::*;
        if judged.number != 0 {
            return;
        }
        let (house, demand) = (&judged.house, &judged.demand);
        let tapped = !demand.house_taps().is_empty();
        let in_section = demand.section_taps().iter().any(|kinds| !kinds.is_empty());
        self.saw(TapInDuty, tapped && case.call == Call::Duty);
        self.saw(TapInMeter, tapped && case.call == Call::Meter);
        self.saw(TapInHouseAlone, tapped && !in_section);
        self.saw(TapInSectionAlone, in_section && !tapped);
        let average = demand.house.average_flow();
        self.saw(HouseAverageAtTap, average == demand.house.one_tap() && several(|kind| house.fixtures(kind)));
        let place = |flow: i128| judged.meters.ranked(flow, demand.mean_hour()).first().map(|(_, place)| *place);
        self.saw(TapOtherMeter, place(average) != place(demand.house_flow()));
    }
}

/// Whether kinds of several Z have fixtures. Kinds that differ in it in one service differ in all of them.
fn several(fixtures: impl Fn(usize) -> i128) -> bool {
    let mut rates = (1..=12).filter(|kind| fixtures(*kind) > 0).map(|kind| norms::of(norms::TOTAL, kind).fixture);
    let first = rates.next();
    rates.any(|rate| Some(rate) != first)
}

/// Whether the kind at a section's own end alone has the tap that sets its flow, and no section below has that kind.
fn of_own_end(house: &House, own: usize, kinds: &[u8]) -> bool {
    let section = &house.sections[own - 1];
    kinds.iter().map(|kind| usize::from(*kind)).eq([section.kind])
        && house.served(own, section.kind) == section.fixtures
}

#[cfg(test)]
mod tests {
    use super::*;
    use crate::case::Buffer;
    use crate::model::judge;
    use Situation::*;

    /// A section's parent, kind and fixtures.
    type End = (u8, u8, u16);

    /// Document 01's own case with other sections and residents.
    fn job(ends: &[End], residents: &[(usize, u16)]) -> Vec<u8> {
        let mut people = [0; 12];
        residents.iter().for_each(|(kind, number)| people[kind - 1] = *number);
        let mut job = vec![0, 0, 0, 40 + 10 * ends.len() as u8, 1, 3, ends.len() as u8, 24];
        [50, 500, 1_200, 1_500].iter().chain(&people).for_each(|field: &u16| job.extend(field.to_be_bytes()));
        for (parent, kind, fixtures) in ends {
            let free = if *kind == 0 { 0 } else { 200 };
            job.extend([*parent, *kind]);
            [*fixtures, 100, 600, free].iter().for_each(|field| job.extend(field.to_be_bytes()));
        }
        job
    }

    /// Two baths over 20 basins have 300 and 144 ml/s; document 01's values are 240 and 144.
    fn baths_over_basins() -> Vec<u8> {
        job(&[(0, 4, 2), (1, 11, 20)], &[(4, 1), (11, 2)])
    }

    /// Section 1 serves so many of 100 basins and one of four baths, section 3 the others; the house has 358 ml/s.
    fn bath_and(basins: u16) -> Vec<u8> {
        job(&[(0, 11, basins), (1, 8, 1), (0, 11, 100 - basins), (3, 8, 3)], &[(8, 1), (11, 20)])
    }

    fn case(call: Call, job: &[u8]) -> Case {
        let lent = |length| Buffer { length, pattern: Vec::new() };
        let (job, none) = (job.to_vec(), Vec::new());
        let (meters, losses, cat) = (none.clone(), none.clone(), none.clone());
        Case { call, job, meters, losses, cat, sizes: none, t: 0, loss: 0, work: lent(60_000), out: lent(200) }
    }

    fn reached<const N: usize>(case: &Case, situations: [Situation; N]) -> [u64; N] {
        let mut counters = Counters::default();
        counters.note(case, &judge(case));
        situations.map(|situation| counters.reached(situation))
    }

    fn in_flow<const N: usize>(job: &[u8], situations: [Situation; N]) -> [u64; N] {
        reached(&case(Call::Flow, job), situations)
    }

    /// The same job as one of version 2 with this service.
    fn in_line(service: u8, job: &[u8]) -> Vec<u8> {
        let mut line = job.to_vec();
        line.insert(40, service);
        (line[3], line[4]) = (job[3] + 1, 2);
        line
    }

    /// In a line a tap of a clinic draws 140 ml/s and a bath 200.
    #[test]
    fn taps_of_the_lines() {
        let ask = [Tap200, Tap300, TapLine140, TapLine200];
        let clinic = job(&[(0, 12, 20), (1, 10, 2)], &[(10, 1), (12, 1)]);
        assert_eq!(in_flow(&clinic, ask), [1, 0, 0, 0]);
        assert_eq!(in_flow(&in_line(0, &clinic), ask), [1, 0, 0, 0]);
        assert_eq!(in_flow(&in_line(1, &clinic), ask), [0, 0, 1, 0]);
        assert_eq!(in_flow(&in_line(2, &clinic), ask), [0, 0, 1, 0]);
        assert_eq!(in_flow(&baths_over_basins(), ask), [0, 1, 0, 0]);
        assert_eq!(in_flow(&in_line(1, &baths_over_basins()), ask), [0, 0, 0, 1]);
        assert_eq!(in_flow(&in_line(2, &baths_over_basins()), ask), [0, 0, 0, 1]);
    }

    #[test]
    fn which_tap() {
        let ask = [TapInFlow, Tap200, Tap300, TapOfOwnEnd, TapFromBelow, TapBesideMore];
        assert_eq!(in_flow(&baths_over_basins(), ask), [1, 0, 1, 1, 0, 0]);
        let below = job(&[(0, 11, 20), (1, 4, 2)], &[(4, 1), (11, 2)]);
        assert_eq!(in_flow(&below, ask), [1, 0, 1, 0, 1, 0]);
        let both = job(&[(0, 4, 1), (1, 11, 20), (2, 4, 1)], &[(4, 1), (11, 2)]);
        assert_eq!(in_flow(&both, ask), [1, 0, 1, 0, 1, 0], "the baths of section 1 are at its own end and below it");
        let clinic = job(&[(0, 12, 20), (1, 10, 2)], &[(10, 1), (12, 1)]);
        assert_eq!(in_flow(&clinic, ask), [1, 1, 0, 0, 1, 0], "165 by document 01");
        let three = [(0, 0, 0), (1, 0, 0), (2, 12, 20), (2, 10, 2), (1, 4, 2)];
        assert_eq!(in_flow(&job(&three, &[(4, 1), (10, 1), (12, 1)]), ask), [1, 1, 1, 0, 1, 1]);
        let beside = job(&[(0, 4, 2), (0, 11, 20)], &[(4, 1), (11, 2)]);
        assert_eq!(in_flow(&beside, ask), [0, 0, 0, 0, 0, 0], "a kind alone");
        let short = Case { out: Buffer::default(), ..case(Call::Flow, &baths_over_basins()) };
        assert_eq!(reached(&short, ask), [0, 0, 0, 0, 0, 0], "refused by 14");
    }

    #[test]
    fn parents() {
        let ask = [TapUnderAverage, TapOverAverage, TapUnderMore, ChildDrawsMore];
        assert_eq!(in_flow(&baths_over_basins(), ask), [0, 0, 0, 0], "basins alone serve one Z");
        let row = job(&[(0, 0, 0), (1, 4, 2), (2, 11, 20)], &[(4, 1), (11, 2)]);
        assert_eq!(in_flow(&row, ask), [0, 0, 0, 0], "one tap sets both");
        let under = [(0, 0, 0), (1, 11, 40), (2, 8, 1), (1, 11, 60), (4, 8, 3)];
        assert_eq!(in_flow(&job(&under, &[(8, 1), (11, 20)]), ask), [1, 0, 0, 1], "300 under 358, 326 under 306");
        let over = [(0, 8, 1), (1, 11, 70), (2, 10, 1), (0, 11, 30), (4, 10, 1), (0, 8, 99)];
        assert_eq!(in_flow(&job(&over, &[(8, 1), (10, 1), (11, 10)]), ask), [0, 1, 0, 0], "300 for 204, over 203");
        let more = [(0, 11, 10), (1, 8, 1), (0, 8, 2)];
        assert_eq!(in_flow(&job(&more, &[(8, 2), (11, 1)]), ask), [0, 0, 1, 1], "317 under 300 for 289");
        let child = job(&[(0, 11, 2), (1, 8, 1)], &[(8, 1), (11, 4)]);
        assert_eq!(in_flow(&child, ask), [0, 0, 0, 1], "349 under 310");
    }

    #[test]
    fn averages() {
        let ask = [AverageUnderTap, AverageAtTap, AverageOverTap];
        assert_eq!(in_flow(&bath_and(94), ask), [1, 0, 0], "299 and 297");
        assert_eq!(in_flow(&bath_and(95), ask), [0, 1, 1], "300 and 301");
        assert_eq!(in_flow(&bath_and(96), ask), [0, 0, 1], "301 and 303");
        let basins = job(&[(0, 11, 20), (1, 12, 20)], &[(11, 1), (12, 1)]);
        assert_eq!(in_flow(&basins, ask), [0, 0, 0], "140 of one Z");
    }

    /// A size that costs 100 and ends at this flow, alone or with a dearer one that ends at 400.
    fn catalogue(last: u32, two: bool) -> Vec<u8> {
        let mut cat = vec![0, 0, 0, if two { 47 } else { 27 }, 1, 1 + u8::from(two), 2];
        for (bore, price, last) in [(20u16, 100u16, last), (30, 300, 400)].into_iter().take(cat[5].into()) {
            [bore, price].iter().for_each(|field| cat.extend(field.to_be_bytes()));
            for (flow, slope) in [(140, 10u16), (last, 40)] {
                cat.extend(flow.to_be_bytes());
                [500, slope].iter().for_each(|field: &u16| cat.extend(field.to_be_bytes()));
            }
        }
        cat
    }

    #[test]
    fn lists() {
        for (call, of_call) in [(Call::Rate, TapInRating), (Call::Losses, TapInLosses)] {
            let ask = [of_call, TapAlone13];
            let listed =
                |last| Case { cat: catalogue(last, false), sizes: vec![1, 1], ..case(call, &baths_over_basins()) };
            assert_eq!(reached(&listed(300), ask), [1, 0]);
            assert_eq!(reached(&listed(299), ask), [0, 1]);
            assert_eq!(reached(&listed(240), ask), [0, 1]);
            assert_eq!(reached(&listed(239), ask), [0, 0], "13 by the average too");
        }
        let ask = [TapInChoice, TapAlone16, TapDearer];
        let choice = |last, two| Case { cat: catalogue(last, two), ..case(Call::Choose, &baths_over_basins()) };
        assert_eq!(reached(&choice(300, true), ask), [1, 0, 0]);
        assert_eq!(reached(&choice(299, true), ask), [1, 0, 1]);
        assert_eq!(reached(&choice(240, true), ask), [1, 0, 1]);
        assert_eq!(reached(&choice(239, true), ask), [1, 0, 0], "as dear by the average");
        assert_eq!(reached(&choice(299, false), ask), [0, 1, 0]);
        assert_eq!(reached(&choice(239, false), ask), [0, 0, 0], "16 by the average too");
    }

    #[test]
    fn houses() {
        let ask = [TapInDuty, TapInHouseAlone, TapInSectionAlone, HouseAverageAtTap];
        let duty = |job: &[u8]| reached(&case(Call::Duty, job), ask);
        assert_eq!(duty(&baths_over_basins()), [1, 0, 0, 0]);
        assert_eq!(duty(&job(&[(0, 4, 2), (0, 11, 20)], &[(4, 1), (11, 2)])), [1, 1, 0, 0]);
        assert_eq!(duty(&bath_and(40)), [0, 0, 1, 0]);
        assert_eq!(duty(&job(&[(0, 1, 10), (0, 12, 20)], &[(1, 1), (12, 18)])), [0, 0, 0, 1]);
        assert_eq!(duty(&job(&[(0, 11, 20), (0, 12, 20)], &[(11, 1), (12, 1)])), [0, 0, 0, 0], "140 of one Z");
    }

    /// At 300 ml/s 1,700 and 1,100 lose 1.53 and 0.99 cm, at 240 0.98 and 0.63.
    #[test]
    fn meters() {
        let ask = [TapInMeter, TapOtherMeter];
        let meter = |meters: &[u8]| Case { meters: meters.to_vec(), ..case(Call::Meter, &baths_over_basins()) };
        assert_eq!(reached(&meter(&[1, 6, 164, 0, 7, 1, 4, 76, 0, 7]), ask), [1, 1]);
        assert_eq!(reached(&meter(&[1, 4, 76, 0, 7, 1, 6, 164, 0, 7]), ask), [1, 0]);
        assert_eq!(reached(&meter(&[1, 6, 164, 0, 7, 1, 4, 76, 0, 6]), ask), [1, 0], "the second does not qualify");
        assert_eq!(reached(&meter(&[1, 6, 164, 0, 6]), ask), [0, 0], "18");
    }

    /// 18 residents of kind 11 and one of kind 8 have an hour sum of 1,000,000, with 10 fixtures.
    #[test]
    fn crowded() {
        let few = |residents| job(&[(0, 11, 1), (1, 8, 1), (0, 11, 5), (3, 8, 3)], &[(8, 1), (11, residents)]);
        let ask = [TapCrowded, TapTooCrowded];
        assert_eq!(in_flow(&few(17), ask), [0, 0]);
        assert_eq!(in_flow(&few(18), ask), [1, 0]);
        assert_eq!(in_flow(&few(19), ask), [0, 1]);
        let alone = |residents| job(&[(0, 8, 10)], &[(8, residents)]);
        assert_eq!(in_flow(&alone(10), ask), [0, 0], "one kind at 100,000 for each");
        assert_eq!(in_flow(&alone(11), ask), [0, 0]);
    }
}
