//! Refusals 8 and 9: m and the hour's sum, for the house and for each section, in millionths, and what would pass.

use super::Place;
use crate::at::{At, Field};
use crate::kinds::{self, Norm};
use crate::record::Record;
use crate::service::{HOT, TOTAL};

/// The end of Table 2, and the greatest demand for one fixture, in millionths.
const TABLE_END: u64 = 400_000_000;
const EACH: u64 = 100_000;
/// From 201 fixtures on, 9 doesn't apply.
const FEW: u64 = 200;

/// 8: the house's m or the hour's sum beyond the table; behind it, for each kind that can mend it alone, how many residents
/// would pass, the heaviest first.
pub fn over_table(job: &[u8]) -> Vec<Place> {
    let Some(demand) = Demand::of(job) else { return Vec::new() };
    let sums = [demand.house_sum(), demand.hour_sum()];
    let over: Vec<&Sum> = sums.iter().filter(|sum| sum.total() > TABLE_END).collect();
    let place =
        |sum: &&Sum| Place::new(At::House, format!("{} is {} millionths, over {TABLE_END}", sum.what, sum.total()));
    let mut found: Vec<Place> = over.iter().map(place).collect();
    let Some(worst) = over.iter().max_by_key(|sum| sum.total()) else { return found };
    let mut kinds: Vec<usize> = (0..12).filter(|kind| worst.shares[*kind] > 0).collect();
    kinds.sort_by_key(|kind| std::cmp::Reverse(worst.shares[*kind]));
    for kind in kinds {
        let (given, share) = (demand.record.residents[kind], worst.shares[kind]);
        let Some(pass) = demand.residents_that_pass(kind) else { continue };
        let why = format!("{given} given, {share} of {} millionths; {pass} would pass", worst.total());
        found.push(Place::new(At::Residents(kind as u8 + 1), why));
    }
    if found.iter().all(|place| place.at == At::House) {
        found.push(Place::new(At::House, "no kind alone can mend it: several need fewer residents"));
    }
    found
}

/// What 9 means for a cold or a hot line, whose residents are not to be made fewer.
const OF_A_LINE: &str = "a line may be refused where all water of the house is not, since it may feed fewer fixtures and each gives less; \
    its residents stay those of the whole house, and its fixtures are those that it feeds";

/// 9: too few fixtures for the demand; behind the house's places the kinds that are over what their own fixtures carry.
pub fn over_fixtures(job: &[u8]) -> Vec<Place> {
    let Some(demand) = Demand::of(job) else { return Vec::new() };
    let sums: Vec<Sum> = demand.sums().into_iter().filter(Sum::is_over).collect();
    let (house, sections): (Vec<&Sum>, Vec<&Sum>) = sums.iter().partition(|sum| sum.at == At::House);
    let worst = house.iter().max_by_key(|sum| sum.total()).or(sections.first());
    let mut found: Vec<Place> = house.iter().map(|sum| sum.place()).collect();
    found.extend(demand.is_a_line().then(|| Place::new(At::Field(Field::Service), OF_A_LINE)));
    found.extend(worst.map_or(Vec::new(), |sum| demand.crowded(sum)));
    found.extend(sections.iter().map(|sum| sum.place()));
    found
}

/// A sum that 8 and 9 look at: its shares by kind, and the fixtures that have to carry it.
struct Sum {
    at: At,
    what: &'static str,
    shares: Counts,
    served: Counts,
}

impl Sum {
    fn total(&self) -> u64 {
        self.shares.iter().sum()
    }

    fn fixtures(&self) -> u64 {
        self.served.iter().sum()
    }

    /// Whether 9 refuses it.
    fn is_over(&self) -> bool {
        self.fixtures() <= FEW && self.total() > EACH * self.fixtures()
    }

    fn place(&self) -> Place {
        let (what, sum, fixtures) = (self.what, self.total(), self.fixtures());
        let most = EACH * fixtures;
        let why = format!(
            "{what} is {sum} millionths; the fixtures it serves, {fixtures}, carry at most {most} ({EACH} each)"
        );
        Place::new(self.at, why)
    }
}

/// Fixtures of kinds 1 to 12.
type Counts = [u64; 12];

#[derive(Clone)]
struct Demand {
    record: Record,
}

impl Demand {
    /// Only a record that refusals 1 to 7 have passed is worth counting.
    fn of(job: &[u8]) -> Option<Demand> {
        let record = Record::read(job).ok()?;
        let sound = record.numbered().all(|(number, section)| section.parent < number && section.kind <= 12);
        let sound = sound && record.service <= HOT;
        sound.then_some(Demand { record })
    }

    fn is_a_line(&self) -> bool {
        self.record.service != TOTAL
    }

    /// The norms of the house's service, of the kind at a place.
    fn norm(&self, kind: usize) -> Norm {
        kinds::ALL[kind].norm(self.record.service)
    }

    fn house(&self) -> Counts {
        std::array::from_fn(|place| self.record.fixtures(place as u8 + 1))
    }

    /// For each section the fixtures at its end and below it, from the leaves up.
    fn served(&self) -> Vec<Counts> {
        let sections = &self.record.sections;
        let mut served = vec![[0; 12]; sections.len()];
        for place in (0..sections.len()).rev() {
            let section = &sections[place];
            if section.kind > 0 {
                served[place][usize::from(section.kind) - 1] += u64::from(section.fixtures);
            }
            if section.parent > 0 {
                let own = served[place];
                let above = &mut served[usize::from(section.parent) - 1];
                above.iter_mut().zip(own).for_each(|(sum, more)| *sum += more);
            }
        }
        served
    }

    /// The shares of m by kind, each rounded up.
    fn shares(&self, house: &Counts, served: &Counts) -> Counts {
        std::array::from_fn(|kind| match house[kind] {
            0 => 0,
            all => {
                let Norm { hour, fixture, .. } = self.norm(kind);
                (25_000 * hour * u64::from(self.record.residents[kind]) * served[kind]).div_ceil(9 * fixture * all)
            }
        })
    }

    fn house_sum(&self) -> Sum {
        let house = self.house();
        Sum { at: At::House, what: "m", shares: self.shares(&house, &house), served: house }
    }

    /// The hour's sum by kind, each share rounded up.
    fn hour_sum(&self) -> Sum {
        let shares = std::array::from_fn(|kind| {
            let Norm { hour, fixture_hour, .. } = self.norm(kind);
            (100_000 * hour * u64::from(self.record.residents[kind])).div_ceil(fixture_hour)
        });
        Sum { at: At::House, what: "the hour's sum", shares, served: self.house() }
    }

    /// All sums that 9 looks at.
    fn sums(&self) -> Vec<Sum> {
        let house = self.house();
        let mut sums = vec![self.house_sum(), self.hour_sum()];
        for (number, served) in (1..=255).zip(self.served()) {
            sums.push(Sum { at: At::Section(number), what: "m", shares: self.shares(&house, &served), served });
        }
        sums
    }

    /// Whether neither 8 nor 9 refuses it.
    fn passes(&self) -> bool {
        let end = [self.house_sum(), self.hour_sum()].iter().all(|sum| sum.total() <= TABLE_END);
        end && !self.sums().iter().any(Sum::is_over)
    }

    /// The most residents of a kind with which the house passes, the others as they are; none where not even one would.
    fn residents_that_pass(&self, kind: usize) -> Option<u16> {
        let with = |residents: u16| {
            let mut other = self.clone();
            other.record.residents[kind] = residents;
            other.passes()
        };
        // Every sum grows with the residents, so the least number that fails lies behind all that pass.
        let (mut low, mut high) = (0, self.record.residents[kind]);
        while high - low > 1 {
            let middle = low + (high - low) / 2;
            if with(middle) { low = middle } else { high = middle }
        }
        (low > 0).then_some(low)
    }

    /// The fewest fixtures of a kind to be added to one section, and the section, so that the house passes.
    fn fixtures_that_do(&self, kind: usize) -> Option<(u16, u8)> {
        let places: Vec<usize> = (0..self.record.sections.len())
            .filter(|place| usize::from(self.record.sections[*place].kind) == kind + 1)
            .collect();
        // The house's two sums don't change with its fixtures, so fewer than they ask for needn't be tried; and with over 200
        // fixtures 9 ends.
        let sums = [self.house_sum(), self.hour_sum()];
        let asked = sums.iter().map(|sum| sum.total().div_ceil(EACH)).max().unwrap_or(0).min(FEW + 1);
        let least = asked.saturating_sub(sums[0].fixtures()).max(1) as u16;
        (least..=FEW as u16 + 1).find_map(|more| {
            let place = places.iter().find(|place| {
                let mut other = self.clone();
                let fixtures = &mut other.record.sections[**place].fixtures;
                *fixtures = fixtures.saturating_add(more);
                other.passes()
            })?;
            Some((more, *place as u8 + 1))
        })
    }

    /// How many residents of a kind would pass. Those of a line are not advised on: they are those of the whole house.
    fn fewer(&self, kind: usize) -> String {
        if self.is_a_line() {
            return String::new();
        }
        match self.residents_that_pass(kind) {
            Some(pass) => format!("; {pass} residents would pass"),
            None => "; fewer residents of this kind alone don't do".to_string(),
        }
    }

    /// The kinds whose share is over what their own fixtures carry, the most crowded first, with what would pass: where a
    /// sum is over, at least one kind of it is.
    fn crowded(&self, sum: &Sum) -> Vec<Place> {
        let mut over: Vec<usize> = (0..12).filter(|kind| sum.shares[*kind] > EACH * sum.served[*kind]).collect();
        over.sort_by_key(|kind| std::cmp::Reverse(sum.shares[*kind] * 1_000 / sum.served[*kind].max(1)));
        let mut found = Vec::new();
        for kind in over {
            let (share, own) = (sum.shares[kind], sum.served[kind]);
            let residents = self.record.residents[kind];
            let fewer = self.fewer(kind);
            let more = match self.fixtures_that_do(kind) {
                Some((more, section)) => {
                    let all = self.house()[kind] + u64::from(more);
                    format!("{all} fixtures would do, {more} more in section {section}")
                }
                None => "more fixtures in one section alone don't do".to_string(),
            };
            let name = kinds::name(kind as u8 + 1);
            let why = format!(
                "{residents} residents weigh {share} millionths, and {own} fixtures of kind {name} carry {}{fewer}; {more}",
                EACH * own
            );
            found.push(Place::new(At::Residents(kind as u8 + 1), why));
        }
        found
    }
}
