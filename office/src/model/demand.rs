//! Shares, m, design flows, hour, day and mean hour, and the refusals 8 and 9.

use super::alpha::alpha;
use super::bytes::up;
use super::faults::Faults;
use super::house::House;
use super::norms;

/// What a section, or the house, serves.
pub struct Served {
    /// Of all kinds.
    pub fixtures: i128,
    /// The sum of the shares.
    pub m: i128,
    /// The sum of share × Z.
    weighted: i128,
    /// The kinds served whose Z is the largest, rising.
    largest: Vec<u8>,
    /// That Z, in hundredths of l/s; 0 where nothing is served.
    fixture: i128,
}

impl Served {
    /// Document 01's value in ml/s, of an accepted job.
    pub fn average_flow(&self) -> i128 {
        up(self.weighted * alpha(self.m), 20_000 * self.m)
    }

    /// What one tap of the largest Z draws, ml/s; 0 where nothing is served.
    pub fn one_tap(&self) -> i128 {
        10 * self.fixture
    }

    /// ml/s
    fn flow(&self) -> i128 {
        self.average_flow().max(self.one_tap())
    }

    /// The kinds of the tap that sets the flow.
    fn taps(&self) -> Vec<u8> {
        if self.one_tap() > self.average_flow() { self.largest.clone() } else { Vec::new() }
    }
}

pub struct Demand {
    pub house: Served,
    /// Section i at place i - 1.
    pub sections: Vec<Served>,
    pub hour_sum: i128,
    hour_weighted: i128,
    pub day: i128,
    hours: i128,
}

impl Demand {
    pub fn of(house: &House) -> Demand {
        let totals = by_kind(|kind| house.fixtures(kind));
        let sections =
            (1..=house.sections.len()).map(|at| served(house, &totals, by_kind(|kind| house.served(at, kind))));
        let norm = |kind| norms::of(house.service, kind);
        let hour_share = by_kind(|kind| match totals[kind] {
            0 => 0,
            _ => up(100_000 * norm(kind).hour * house.residents[kind], norm(kind).fixture_hour),
        });
        Demand {
            house: served(house, &totals, totals),
            sections: sections.collect(),
            hour_sum: hour_share.iter().sum(),
            hour_weighted: (1..=12).map(|kind| hour_share[kind] * norm(kind).fixture_hour).sum(),
            day: (1..=12).map(|kind| norm(kind).day * house.residents[kind]).sum(),
            hours: house.hours,
        }
    }

    /// Which of 8 and 9 apply.
    pub fn faults(&self) -> Faults {
        let crowded = |fixtures: i128, sum: i128| fixtures <= 200 && sum > 100_000 * fixtures;
        let mut faults = Faults::default();
        faults.note(8, self.house.m > 400_000_000 || self.hour_sum > 400_000_000);
        faults.note(
            9,
            crowded(self.house.fixtures, self.house.m)
                || crowded(self.house.fixtures, self.hour_sum)
                || self.sections.iter().any(|s| crowded(s.fixtures, s.m)),
        );
        faults
    }

    /// Each section's flow in ml/s, of an accepted job.
    pub fn flows(&self) -> Vec<i128> {
        self.sections.iter().map(Served::flow).collect()
    }

    /// Each section's average flow, document 01's value, in ml/s, of an accepted job.
    pub fn averages(&self) -> Vec<i128> {
        self.sections.iter().map(Served::average_flow).collect()
    }

    /// The house's design flow in ml/s, of an accepted job: that of its own m, with all of its fixtures.
    pub fn house_flow(&self) -> i128 {
        self.house.flow()
    }

    /// Of each section the kinds of which one tap sets the flow, rising; empty where document 01's value stands. Of an
    /// accepted job.
    pub fn section_taps(&self) -> Vec<Vec<u8>> {
        self.sections.iter().map(Served::taps).collect()
    }

    /// The same of the house.
    pub fn house_taps(&self) -> Vec<u8> {
        self.house.taps()
    }

    /// l/h, of an accepted job.
    pub fn hour(&self) -> i128 {
        up(self.hour_weighted * alpha(self.hour_sum), 200_000 * self.hour_sum)
    }

    /// l/h, of an accepted job.
    pub fn mean_hour(&self) -> i128 {
        up(self.day, self.hours)
    }
}

fn by_kind(of: impl Fn(usize) -> i128) -> [i128; 13] {
    let mut all = [0; 13];
    (1..=12).for_each(|kind| all[kind] = of(kind));
    all
}

fn served(house: &House, totals: &[i128; 13], fixtures: [i128; 13]) -> Served {
    let norm = |kind| norms::of(house.service, kind);
    let share = by_kind(|kind| match totals[kind] {
        0 => 0,
        total => up(25_000 * norm(kind).hour * house.residents[kind] * fixtures[kind], 9 * norm(kind).fixture * total),
    });
    let with: Vec<usize> = (1..=12).filter(|kind| fixtures[*kind] > 0).collect();
    let fixture = with.iter().map(|kind| norm(*kind).fixture).max().unwrap_or(0);
    Served {
        fixtures: fixtures.iter().sum(),
        m: share.iter().sum(),
        weighted: (1..=12).map(|kind| share[kind] * norm(kind).fixture).sum(),
        largest: with.iter().filter(|kind| norm(**kind).fixture == fixture).map(|kind| *kind as u8).collect(),
        fixture,
    }
}

#[cfg(test)]
mod tests {
    use super::*;

    /// The demand of an accepted job with these sections, given as parent, kind and fixtures.
    fn demand(ends: &[(u8, u8, u8)], residents: &[(usize, u8)]) -> Demand {
        demand_of(&job(ends, residents))
    }

    fn job(ends: &[(u8, u8, u8)], residents: &[(usize, u8)]) -> Vec<u8> {
        let mut job = vec![0; 40 + 10 * ends.len()];
        (job[3], job[4], job[5], job[6], job[7], job[15]) = (job.len() as u8, 1, 2, ends.len() as u8, 24, 1);
        residents.iter().for_each(|(kind, number)| job[15 + 2 * kind] = *number);
        for (section, (parent, kind, fixtures)) in job[40..].chunks_mut(10).zip(ends) {
            (section[0], section[1], section[3], section[5]) = (*parent, *kind, *fixtures, 1);
        }
        job
    }

    /// The same as a job of version 2 with this service.
    fn in_line(service: u8, ends: &[(u8, u8, u8)], residents: &[(usize, u8)]) -> Demand {
        let mut job = job(ends, residents);
        job.insert(40, service);
        (job[3], job[4]) = (job[3] + 1, 2);
        demand_of(&job)
    }

    fn demand_of(job: &[u8]) -> Demand {
        let house = House::of(job);
        let demand = Demand::of(&house);
        assert!(!house.faults().any() && !demand.faults().any());
        demand
    }

    /// Shares 11,575 and 15,874 with α 231,347: (11,575 × 30 + 15,874 × 14) × 231,347 / (20,000 × 27,449) is 239.99.
    #[test]
    fn a_bath_over_basins() {
        let demand = demand(&[(0, 4, 2), (1, 11, 20)], &[(4, 1), (11, 2)]);
        assert_eq!(demand.averages(), [240, 144]);
        assert_eq!(demand.flows(), [300, 144]);
        assert_eq!(demand.section_taps(), [vec![4], vec![]]);
        assert_eq!((demand.house.average_flow(), demand.house_flow(), demand.house_taps()), (240, 300, vec![4]));
        assert_eq!(demand.hour(), 283);
    }

    /// With 95 basins and a bath the average is 299.78, up to 300: equal, so that nothing is named.
    #[test]
    fn an_average_equal_to_one_tap() {
        let taps = |basins| {
            let ends = [(0, 11, basins), (1, 8, 1), (0, 11, 100 - basins), (3, 8, 3)];
            demand(&ends, &[(8, 1), (11, 20)]).section_taps()
        };
        assert_eq!(taps(94), [vec![8], vec![], vec![8], vec![]]);
        assert_eq!(taps(95), [vec![], vec![], vec![], vec![]]);
    }

    #[test]
    fn every_kind_of_the_largest_z() {
        let ends = [(0, 0, 0), (1, 11, 20), (1, 8, 1), (1, 4, 1), (1, 10, 1), (0, 8, 9), (0, 4, 9)];
        let demand = demand(&ends, &[(4, 1), (8, 1), (10, 1), (11, 2)]);
        assert_eq!(demand.section_taps()[0], [4, 8]);
        assert_eq!(demand.house_taps(), []);
    }
    /// Document 01's own case: 71 residents of kind 7 have the shares 25,000 × 150 × 71 / (9 × 20) and 100,000 × 150 × 71 / 190 in
    /// the hot line, 25,000 × 130 × 71 / 180 and 100,000 × 130 × 71 / 190 in the cold one.
    #[test]
    fn the_lines_of_the_own_case() {
        let own = |service: u8| in_line(service, &[(0, 7, 80)], &[(7, 71)]);
        let figures =
            |demand: &Demand| (demand.house.m, demand.hour_sum, demand.house_flow(), demand.hour(), demand.mean_hour());
        assert_eq!(figures(&own(2)), (1_479_167, 5_605_264, 1_206, 2_624, 444));
        assert_eq!(figures(&own(1)), (1_281_945, 4_857_895, 1_112, 2_385, 296));
        assert_eq!(figures(&own(0)), (1_840_741, 7_100_000, 2_052, 4_542, 740));
        assert_eq!(figures(&demand(&[(0, 7, 80)], &[(7, 71)])), figures(&own(0)));
        assert_eq!([0, 1, 2].map(|service| own(service).day), [17_750, 7_100, 10_650]);
    }

    /// In a line a bath draws 200 ml/s and a basin 100.
    #[test]
    fn one_tap_of_a_line() {
        for service in [1, 2] {
            let demand = in_line(service, &[(0, 4, 2), (1, 11, 20)], &[(4, 1), (11, 2)]);
            assert_eq!((demand.flows()[0], demand.house_flow()), (200, 200), "service {service}");
            assert_eq!(demand.section_taps(), [vec![4], vec![]], "service {service}");
            assert!(demand.averages()[0] < 200 && demand.flows()[1] == demand.averages()[1], "service {service}");
        }
    }
}
