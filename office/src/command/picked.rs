//! The meter that the library picked, and beside it how every meter of the list fares, as a table and as JSON.

use super::charts::{chart, figures, number, words};
use super::fields::of_meter;
use super::input::Meters;
use super::json::Json;
use super::network::{Demand, duty_fields, duty_figure, legend, service_figure};
use super::report::{Fields, Unanswered};
use office::measure::RESISTANCE;
use office::meter::{self, Fit};
use office::{Metered, Refusal};

pub struct Picked {
    demand: Demand,
    fits: Vec<Fit>,
    /// The names that the list has for its meters; a record has none.
    names: Vec<String>,
    /// The winner's place, from 1, and its loss in cm, both as the library has them.
    place: usize,
    loss: u16,
    /// The meter loss of the house that was given, in cm.
    former: u16,
    /// The job with the meter.
    pub job: Vec<u8>,
}

impl Picked {
    /// The library's answer with the figures of the whole list, unless the table would show another.
    pub fn of(job: &[u8], list: &Meters, found: Result<Metered, Refusal>) -> Result<Picked, Unanswered> {
        let demand = match (Demand::of(job), &found) {
            (Ok(demand), _) => demand,
            (Err(Unanswered::Refused(_)), Err(why)) => return Err(Unanswered::Refused(*why)),
            (Err(Unanswered::Refused(why)), Ok(_)) => {
                let why = format!("a meter is picked for a house with refusal {}", why.number());
                return Err(Unanswered::Differs(why));
            }
            (Err(differs), _) => return Err(differs),
        };
        let meters = meter::read(&list.source.bytes).unwrap_or_default();
        let fit = |meter| Fit::of(meter, demand.duty, demand.flow.mean_hour);
        let fits: Vec<Fit> = meters.into_iter().map(fit).collect();
        if let Some(why) = meter::difference(job, &fits, &found) {
            return Err(Unanswered::Differs(why));
        }
        let metered = found?;
        Ok(Picked {
            demand,
            fits,
            names: list.names.clone(),
            place: metered.place.into(),
            loss: meter::meter_loss(&metered.job).unwrap_or(0),
            former: meter::meter_loss(job).unwrap_or(0),
            job: metered.job,
        })
    }

    /// The name of the meter at a place; empty where it has none.
    fn name(&self, place: usize) -> &str {
        self.names.get(place - 1).map_or("", String::as_str)
    }

    pub fn fields(&self) -> Fields {
        let meters = (1..).zip(&self.fits).map(|(place, fit)| self.of_fit(place, fit));
        let mut fields = duty_fields(&self.demand);
        fields.extend([
            ("mean_hour_l_per_h", self.demand.flow.mean_hour.into()),
            ("meter", Json::Number(self.place as i64)),
            ("meter_loss_cm", self.loss.into()),
            ("former_meter_loss_cm", self.former.into()),
            ("record", Json::hex(&self.job)),
            ("meters", Json::List(meters.collect())),
        ]);
        fields
    }

    fn of_fit(&self, place: usize, fit: &Fit) -> Json {
        let mut fields = of_meter(place as i64, &fit.meter);
        let name = self.name(place);
        fields.extend([
            ("name", if name.is_empty() { Json::Null } else { Json::text(name) }),
            ("loss_cm", Json::Number(fit.loss as i64)),
            ("limit_cm", Json::Number(fit.limit as i64)),
            ("over_limit_cm", Json::Number(fit.over_limit as i64)),
            ("over_service_flow_l_per_h", Json::Number(fit.over_service as i64)),
            ("qualifies", Json::Truth(fit.qualifies())),
        ]);
        Json::Object(fields)
    }

    /// The answer for people; `written` is the file that the house with the meter goes to.
    pub fn chart(&self, written: Option<&str>) -> String {
        let former = match written {
            _ if self.former == self.loss => "cm, as the house has it".to_string(),
            Some(_) => format!("cm; the house had {} cm", self.former),
            None => format!("cm; the house has {} cm", self.former),
        };
        let mut rows: Vec<_> = service_figure(&self.demand).into_iter().collect();
        rows.extend([
            duty_figure(&self.demand),
            ("mean hour", self.demand.flow.mean_hour.to_string(), "l/h".to_string()),
            ("meter", self.place.to_string(), self.name(self.place).to_string()),
            ("meter loss", self.loss.to_string(), former),
        ]);
        let written = written.map(|file| format!("The house with this meter loss was written to {file}.\n"));
        let tap = legend(!self.demand.taps.house.is_empty());
        format!("{}\n{}{LEGEND}{tap}{}", figures(&rows), self.listed(), written.unwrap_or_default())
    }

    /// One line a meter. A star marks the winner.
    fn listed(&self) -> String {
        let named = self.names.iter().any(|name| !name.is_empty());
        let mut columns = vec![number("meter", "")];
        columns.extend(named.then_some(words("name")));
        columns.extend([
            words("type"),
            number("resistance", "m/(l/s)2"),
            number("service flow", "l/h"),
            number("loss", "cm"),
            number("limit", "cm"),
            words(""),
        ]);
        let row = |(place, fit): (usize, &Fit)| {
            let mut row = vec![place.to_string()];
            row.extend(named.then(|| self.name(place).to_string()));
            row.extend([
                meter::name(fit.meter.design),
                RESISTANCE.show(fit.meter.resistance.into()),
                fit.meter.service.to_string(),
                fit.loss.to_string(),
                fit.limit.to_string(),
                self.verdict(place, fit),
            ]);
            row
        };
        chart(&columns, &(1..).zip(&self.fits).map(row).collect::<Vec<_>>())
    }

    /// Whether a meter qualifies, and why it did not win.
    fn verdict(&self, place: usize, fit: &Fit) -> String {
        match fit.loss.saturating_sub(self.loss.into()) {
            _ if !fit.qualifies() => fit.broken().join("; "),
            _ if place == self.place => "* qualifies with the least loss".to_string(),
            0 => "qualifies; it loses as much, and stands further down".to_string(),
            more => format!("qualifies; it loses {more} cm more"),
        }
    }
}

const LEGEND: &str = "\
loss: at the design flow, rounded up to whole cm; limit: the most that a meter of its type may lose
A meter qualifies if its loss is at most its limit and the mean hour at most its service flow; * marks the one that is picked.
The least loss wins, and a larger meter than you would fit may have it: list no meter that you would not fit.
";

#[cfg(test)]
mod tests {
    use super::*;
    use crate::command::input::Source;
    use office::at::Lines;
    use office::{calls, house};

    const OWN: &str = include_str!("../../../examples/own-case.txt");

    /// An answer of the library that the table would not show gives no table.
    #[test]
    fn an_answer_that_differs_is_not_shown() {
        let bytes = vec![1, 0x13, 0x88, 0x19, 0x00, 2, 0x05, 0x96, 0x2e, 0xe0];
        let source = Source { name: "list".to_string(), bytes, lines: Lines::default() };
        let list = Meters { source, names: Vec::new() };
        let job = house::pack(OWN).expect("document 01's own case");
        let found = calls::meter(&job, &list.source.bytes).expect("one qualifies");
        let picked = Picked::of(&job, &list, Ok(found.clone())).expect("the two agree");
        assert_eq!((picked.place, picked.loss, picked.former), (2, 61, 50));
        let mut changed = found.clone();
        changed.job[7] = 23;
        for other in [
            Ok(Metered { place: 1, ..found.clone() }),
            Ok(Metered { place: 2, job: job.clone() }),
            Ok(changed),
            Err(Refusal::NoMeter),
        ] {
            assert!(matches!(Picked::of(&job, &list, other), Err(Unanswered::Differs(_))));
        }
        // A refusal of the house, and a meter for a house that is refused.
        let short = &job[..49];
        let refused = Picked::of(short, &list, Err(Refusal::JobLength));
        assert!(matches!(refused, Err(Unanswered::Refused(Refusal::JobLength))));
        assert!(matches!(Picked::of(short, &list, Ok(found)), Err(Unanswered::Differs(_))));
    }
}
