//! `office heat`: the heat flow that a hot line's water asks for.

use super::arguments::Arguments;
use super::charts::figures;
use super::help;
use super::network::{Demand, service_fields, service_figure};
use super::outcome::{Misuse, Outcome, word};
use super::refused::Given;
use super::report::{self, Fields, Unanswered};
use office::measure::shown;
use office::places::{HOT, Heating, MOST_COLD, MOST_LOSS, PER_LITRE};
use office::{Heat, Refusal, calls, service};
use std::ffi::OsString;

pub fn heat(arguments: &Arguments) -> Result<Outcome, Misuse> {
    let cold = COLD_WATER.number(arguments.cold_water.as_ref())?;
    let heating = Heating { cold, loss: LOSS.number(arguments.loss.as_ref())? };
    let job = arguments.file(0).job()?;
    let given = Given { job: Some(&job), heating: Some(heating), ..Given::default() };
    match Heated::of(&job.bytes, heating, calls::heat(&job.bytes, cold, heating.loss)) {
        Ok(heated) => report::answer(arguments, &given, || heated.fields(), || heated.chart().into_bytes()),
        Err(why) => report::unanswered(arguments, &why, &given),
    }
}

/// A number that is given as an option.
struct Wanted {
    option: &'static str,
    what: &'static str,
    /// The numbers that the library takes, and their unit.
    most: u32,
    unit: &'static str,
    /// What to write where there is doubt.
    advice: &'static str,
}

const COLD_WATER: Wanted = Wanted {
    option: "--cold-water",
    what: "the temperature of the cold water",
    most: MOST_COLD,
    unit: "degrees C",
    advice: "where it is not known, SNiP 2.04.01-85 takes 5",
};
const LOSS: Wanted = Wanted {
    option: "--loss",
    what: "the heat that the line's pipes lose",
    most: MOST_LOSS,
    unit: "W",
    advice: "1.2 kW are 1200, and 0 is for none",
};

impl Wanted {
    /// The number of 32 bits that is handed to the library, which alone judges its range. Nothing is taken for one that is not
    /// there, and none is cut.
    fn number(&self, given: Option<&OsString>) -> Result<u32, Misuse> {
        let Wanted { option, what, most, unit, advice } = self;
        let Some(given) = given.map(|given| given.to_string_lossy()) else {
            let usage = help::usage("heat");
            return Err(Misuse::Words(format!(
                "`heat` needs `{option}`, {what} in whole {unit}, 0 to {most}; {advice}\nusage: {usage}"
            )));
        };
        let digits = !given.is_empty() && given.bytes().all(|b| b.is_ascii_digit());
        let word = word(&given);
        given.parse().ok().filter(|_| digits).ok_or_else(|| {
            Misuse::Words(match digits {
                true => format!("`{word}` for `{option}` is more than 32 bits hold; {what} is 0 to {most} {unit}"),
                false => format!(
                    "`{word}` is no whole number for `{option}`; {what} is given in whole {unit}, 0 to {most}, in digits alone, \
                     without sign, point, comma or unit; {advice}"
                ),
            })
        })
    }
}

/// The library's heat flow, and what it comes from.
struct Heated {
    heating: Heating,
    demand: Demand,
    /// Of the mean hour and of the greatest, in watts.
    watts: [u32; 2],
}

impl Heated {
    /// The library's answer, unless the sum that is shown beside it would come to another.
    fn of(job: &[u8], heating: Heating, found: Result<Heat, Refusal>) -> Result<Heated, Unanswered> {
        let Heat { mean_hour, greatest_hour } = found?;
        let heated = Heated { heating, demand: Demand::of(job)?, watts: [mean_hour, greatest_hour] };
        match heated.difference() {
            Some(why) => Err(Unanswered::Differs(why)),
            None => Ok(heated),
        }
    }

    /// The mean hour and the greatest: its name, its flow in l/h, and the library's watts.
    fn hours(&self) -> [(&'static str, u32, u32); 2] {
        let (flow, [mean, greatest]) = (&self.demand.flow, self.watts);
        [("mean hour", flow.mean_hour, mean), ("greatest hour", flow.hour, greatest)]
    }

    fn difference(&self) -> Option<String> {
        if self.demand.service != Some(service::HOT) {
            return Some("a heat flow comes for a house that is no hot line".to_string());
        }
        let own = |flow: u32| self.heating.of_water(flow) + u64::from(self.heating.loss);
        let mut hours = self.hours().into_iter();
        let (hour, flow, watts) = hours.find(|(_, flow, watts)| own(*flow) != u64::from(*watts))?;
        Some(format!("the heat flow of the {hour} is {watts} W by the library and {} W by the command", own(flow)))
    }

    fn fields(&self) -> Fields {
        let (flow, [mean, greatest]) = (&self.demand.flow, self.watts);
        let mut fields = service_fields(&self.demand);
        fields.extend([
            ("cold_water_celsius", self.heating.cold.into()),
            ("heat_loss_w", self.heating.loss.into()),
            ("mean_hour_l_per_h", flow.mean_hour.into()),
            ("mean_hour_heat_w", mean.into()),
            ("hour_l_per_h", flow.hour.into()),
            ("hour_heat_w", greatest.into()),
        ]);
        fields
    }

    fn chart(&self) -> String {
        let Heating { cold, loss } = self.heating;
        let mut rows: Vec<_> = service_figure(&self.demand).into_iter().collect();
        rows.push(("cold water", cold.to_string(), "degrees C".to_string()));
        rows.push(("heat loss", loss.to_string(), "W".to_string()));
        let mut sums = String::new();
        for (hour, flow, watts) in self.hours() {
            rows.push((hour, flow.to_string(), "l/h".to_string()));
            rows.push(("  heat flow", watts.to_string(), format!("W, which is {} kW", shown(watts.into(), 3))));
            let water = self.heating.of_water(flow);
            let sum = format!("{PER_LITRE} x {flow} x ({HOT} - {cold}) / 100, rounded up, is {water} W");
            sums.push_str(&format!("{hour}: {sum}; with the heat loss of {loss} W it is {watts} W\n"));
        }
        format!("{}\n{sums}", figures(&rows))
    }
}

#[cfg(test)]
mod tests {
    use super::*;
    use office::house;

    const OWN: &str = include_str!("../../../examples/own-case.txt");

    /// A heat flow that the sum beside it does not come to is not shown, nor one of a house that is no hot line.
    #[test]
    fn an_answer_that_differs_is_not_shown() {
        let hot = house::pack(&format!("service hot\n{OWN}")).expect("the own case as a hot line");
        let heating = Heating { cold: 5, loss: 1_200 };
        // 71 residents use 150 litres each, 10,650 a day, 444 in a mean hour; 116 x 444 x 50 / 100 is 25,752.
        let found = calls::heat(&hot, 5, 1_200).expect("a hot line");
        assert_eq!(found.mean_hour, 26_952);
        assert!(Heated::of(&hot, heating, Ok(found)).is_ok());
        let total = house::pack(OWN).expect("document 01's own case");
        for (job, heating, other) in [
            (&hot, heating, Heat { mean_hour: 26_951, ..found }),
            (&hot, heating, Heat { greatest_hour: found.greatest_hour + 1, ..found }),
            (&hot, Heating { cold: 6, ..heating }, found),
            (&hot, Heating { loss: 0, ..heating }, found),
            (&total, heating, found),
        ] {
            assert!(matches!(Heated::of(job, heating, Ok(other)), Err(Unanswered::Differs(_))), "{other:?}");
        }
        let refused = Heated::of(&total, heating, Err(Refusal::NotHot));
        assert!(matches!(refused, Err(Unanswered::Refused(Refusal::NotHot))));
    }
}
