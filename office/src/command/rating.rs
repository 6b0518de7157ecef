//! A rated house for tables, JSON and drawings: the library's flow, rating and choice put together.

use super::charts::figures;
use super::input::Source;
use super::json::Json;
use super::network::{Demand, house_fields, house_figures};
use super::refused::Given;
use super::report::{Fields, Unanswered};
use super::required;
use super::sections::{self, Known};
use office::draw::{self, Totals};
use office::pipes::{Pipe, pipes};
use office::record::Record;
use office::{Rating, calls};

pub struct Rated {
    pub record: Record,
    pub sizes: Vec<u8>,
    /// Price times length over all sections, in tenths of the price unit. The library's own where it chose the list.
    pub cost: u64,
    pub rating: Rating,
    pub demand: Demand,
    pub pipes: Vec<Pipe>,
}

impl Rated {
    /// The list that was given.
    pub fn with_sizes(given: &Given) -> Result<Rated, Unanswered> {
        let (job, cat) = (bytes(given.job), bytes(given.cat));
        let rating = calls::rate(job, cat, given.sizes)?;
        Rated::of(job, cat, given.sizes.to_vec(), None, rating)
    }

    /// The cheapest list.
    pub fn chosen(given: &Given) -> Result<Rated, Unanswered> {
        let (job, cat) = (bytes(given.job), bytes(given.cat));
        let choice = calls::choose(job, cat)?;
        let rating = calls::rate(job, cat, &choice.sizes)?;
        Rated::of(job, cat, choice.sizes, Some(choice.cost), rating)
    }

    /// The library's rating with each section's part in it, unless what is shown would come to other heads.
    fn of(job: &[u8], cat: &[u8], sizes: Vec<u8>, cost: Option<u32>, rating: Rating) -> Result<Rated, Unanswered> {
        let demand = Demand::of(job)?;
        // What the library has rated can be read; were it otherwise there would be no pipes to show.
        let pipes = pipes(job, cat, &sizes, (&demand.flow, &demand.taps), &rating).unwrap_or_default();
        let cost = cost.map_or_else(|| pipes.iter().map(Pipe::cost).sum(), u64::from);
        let record = Record::read(job).unwrap_or_default();
        match required::difference(&record, &pipes, &rating.heads()) {
            Some(why) => Err(Unanswered::Differs(why)),
            None => Ok(Rated { record, sizes, cost, rating, demand, pipes }),
        }
    }

    pub fn drawing(&self) -> String {
        let Demand { flow, duty, taps, .. } = &self.demand;
        let totals = Totals { duty: *duty, taps: &taps.house, flow, cost: self.cost };
        draw::draw(&self.record, &self.pipes, &self.rating, &totals)
    }

    pub fn fields(&self) -> Fields {
        let mut fields = house_fields(&self.demand);
        fields.extend([
            ("local_losses_tenths", self.record.tenths.into()),
            ("cost_tenths", Json::Number(self.cost as i64)),
            ("sizes", sizes_of(&self.sizes)),
        ]);
        fields.extend(required::fields(&self.record, &self.rating.heads()));
        fields.push(("sections", sections::list(&self.pipes, Known::SizesAndHeads)));
        fields
    }

    pub fn chart(&self) -> String {
        let heads = self.rating.heads();
        let mut rows = house_figures(&self.demand);
        rows.push(("cost", format!("{}.{}", self.cost / 10, self.cost % 10), "price units".to_string()));
        rows.extend(required::figures(&self.record, &heads));
        let (set, sizes) = (required::set(&self.demand, &heads), sizes_line(&self.sizes));
        let table = sections::table(&self.pipes, Known::SizesAndHeads);
        let legends = sections::legends(&self.pipes, self.demand.taps.any());
        format!("{set}{}{sizes}\n{table}{legends}", figures(&rows))
    }
}

pub fn bytes(source: Option<&Source>) -> &[u8] {
    source.map_or(&[], |source| &source.bytes)
}

/// A list of sizes for machines.
pub fn sizes_of(sizes: &[u8]) -> Json {
    Json::List(sizes.iter().map(|size| (*size).into()).collect())
}

/// A list of sizes on a line of its own, as `rate` takes it.
pub fn sizes_line(sizes: &[u8]) -> String {
    format!("sizes  {}\n", sizes.iter().map(u8::to_string).collect::<Vec<_>>().join(","))
}

#[cfg(test)]
mod tests {
    use super::*;
    use office::{Rated as Section, house, table};

    const OWN: &str = include_str!("../../../examples/own-case.txt");
    const OWN_TABLE: &str = include_str!("../../../examples/own-case.csv");

    /// A rating whose losses don't come to its heads is not shown.
    #[test]
    fn a_rating_that_differs_is_not_shown() {
        let job = house::pack(OWN).expect("document 01's own case");
        let cat = table::pack(OWN_TABLE).expect("document 01's own table");
        // Document 01 has 1,026 mm/s and 71 cm with size 2, and 921 cm with that loss: 50 + 600 + 200 + 71.
        let own = Section { velocity: 1_026, loss: 71 };
        let rating = Rating { required: 921, pump: 421, dictating: 1, sections: vec![own] };
        let rated = |rating: Rating| Rated::of(&job, &cat, vec![2], None, rating).err();
        assert_eq!(rated(rating.clone()), None);
        let required = |library: u32, own: u32| {
            format!("the required head is {library} cm by the library and {own} cm by the command")
        };
        for (other, why) in [
            (Rating { required: 920, ..rating.clone() }, required(920, 921)),
            (Rating { sections: vec![Section { loss: 70, ..own }], ..rating.clone() }, required(921, 920)),
            (
                Rating { dictating: 2, ..rating.clone() },
                "the dictating section is 2 by the library and 1 by the command".to_string(),
            ),
            (
                Rating { sections: Vec::new(), ..rating },
                "heads come for a house of which the command can read no section".to_string(),
            ),
        ] {
            assert_eq!(rated(other.clone()), Some(Unanswered::Differs(why)), "{other:?}");
        }
    }
}
