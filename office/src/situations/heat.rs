//! What a case of the heat call reached, by the model: document 02's request L4.

use super::{Counters, Situation};
use crate::case::Case;
use crate::model::Judged;
use crate::model::bytes::up;
use crate::model::faults::Faults;
use crate::model::heat::{Asked, MOST_LOSS, MOST_T};
use crate::model::norms::{COLD, TOTAL};

impl Counters {
    /// A case of the heat call.
    pub(super) fn note_heat(&mut self, case: &Case, judged: &Judged) {
        let asked = Asked::of(case.t, case.loss);
        let alone = |number| judged.faults == Faults::only(number);
        self.saw(Situation::HeatAlone20, alone(20));
        self.saw(Situation::HeatAlone21, alone(21));
        match judged.number {
            0 => self.note_watts(judged, asked),
            20 => self.note_no_hot_line(judged),
            21 => self.note_out_of_range(asked),
            _ => {}
        }
    }

    fn note_no_hot_line(&mut self, judged: &Judged) {
        use Situation::*;
        let house = &judged.house;
        self.saw(HeatTotal, house.version == 1);
        self.saw(HeatNamed, house.version == 2 && house.service == TOTAL);
        self.saw(HeatCold, house.service == COLD);
    }

    fn note_out_of_range(&mut self, Asked { t, loss }: Asked) {
        use Situation::*;
        let (warm, lossy) = (t > MOST_T, loss > MOST_LOSS);
        self.saw(HeatOneWarmer, t == MOST_T + 1 && !lossy);
        self.saw(HeatOneLossier, loss == MOST_LOSS + 1 && !warm);
        self.saw(HeatBothOver, warm && lossy);
        self.saw(HeatOver55, t >= 55 && !lossy);
        self.saw(HeatCutT, warm && t % 256 <= MOST_T && !lossy);
        self.saw(HeatNegative, [t, loss].contains(&u32::MAX.into()));
    }

    fn note_watts(&mut self, judged: &Judged, asked: Asked) {
        use Situation::*;
        let demand = &judged.demand;
        self.saw(HeatColdest, asked.t == 0);
        self.saw(HeatWarmest, asked.t == MOST_T);
        self.saw(HeatNoLoss, asked.loss == 0);
        self.saw(HeatMostLoss, asked.loss == MOST_LOSS);
        let hours = [demand.mean_hour(), demand.hour()];
        let whole = hours.map(|litres| 116 * litres * (55 - asked.t) % 100 == 0);
        self.saw(HeatWhole, whole == [true; 2]);
        self.saw(HeatUp, whole == [false; 2]);
        let [mean, greatest] = hours.map(|litres| asked.watts(litres));
        let unrounded = up(116 * demand.day * (55 - asked.t), 100 * judged.house.hours) + asked.loss;
        self.saw(HeatMeanUp, unrounded < mean);
        self.saw(HeatMeanMore, mean > greatest);
        self.saw(HeatMeanLess, mean < greatest);
        self.saw(HeatGreat, mean.max(greatest) > 16_777_215);
    }
}

#[cfg(test)]
mod tests {
    use super::*;
    use crate::model::judge;
    use Situation::*;

    /// Document 01's own case with this version, its hours and so many residents of kind 7, with a section that begins with the
    /// service where there is one.
    fn reached<const N: usize>(version: u8, service: &[u8], asked: (u32, u32), situations: [Situation; N]) -> [u64; N] {
        of_house(version, service, 24, 71, asked, situations)
    }

    fn of_house<const N: usize>(
        version: u8,
        service: &[u8],
        hours: u8,
        residents: u8,
        (t, loss): (u32, u32),
        situations: [Situation; N],
    ) -> [u64; N] {
        let mut job = vec![0, 0, 0, 50 + service.len() as u8, version, 3, 1, hours, 0, 50, 1, 244, 4, 176, 5, 220];
        job.extend([0; 13]);
        job.push(residents);
        job.extend([0; 10]);
        job.extend(service);
        job.extend([0, 7, 0, 80, 0, 100, 2, 88, 0, 200]);
        let case = Case { job, t, loss, ..Case::parse("call heat\nout 8").expect("a case") };
        let mut counters = Counters::default();
        counters.note(&case, &judge(&case));
        situations.map(|situation| counters.reached(situation))
    }

    #[test]
    fn jobs_that_are_not_hot() {
        let ask = [HeatTotal, HeatNamed, HeatCold, HeatAlone20, HeatAlone21];
        assert_eq!(reached(1, &[], (5, 0), ask), [1, 0, 0, 1, 0]);
        assert_eq!(reached(2, &[0], (5, 0), ask), [0, 1, 0, 1, 0]);
        assert_eq!(reached(2, &[1], (5, 0), ask), [0, 0, 1, 1, 0]);
        assert_eq!(reached(2, &[1], (31, 0), ask), [0, 0, 1, 0, 0], "20 before 21");
        assert_eq!(reached(2, &[2], (31, 0), ask), [0, 0, 0, 0, 1]);
        assert_eq!(reached(2, &[2], (5, 0), ask), [0; 5]);
    }

    #[test]
    fn temperatures_and_losses() {
        let ends = [HeatColdest, HeatWarmest, HeatNoLoss, HeatMostLoss];
        assert_eq!(reached(2, &[2], (0, 1_000_000), ends), [1, 0, 0, 1]);
        assert_eq!(reached(2, &[2], (30, 0), ends), [0, 1, 1, 0]);
        assert_eq!(reached(2, &[2], (5, 1), ends), [0; 4]);
        let over = [HeatOneWarmer, HeatOneLossier, HeatBothOver, HeatOver55, HeatCutT, HeatNegative];
        assert_eq!(reached(2, &[2], (31, 0), over), [1, 0, 0, 0, 0, 0]);
        assert_eq!(reached(2, &[2], (30, 1_000_001), over), [0, 1, 0, 0, 0, 0]);
        assert_eq!(reached(2, &[2], (31, 1_000_001), over), [0, 0, 1, 0, 0, 0]);
        assert_eq!(reached(2, &[2], (55, 0), over), [0, 0, 0, 1, 0, 0]);
        assert_eq!(reached(2, &[2], (261, 0), over), [0, 0, 0, 1, 1, 0]);
        assert_eq!(reached(2, &[2], (u32::MAX, 0), over), [0, 0, 0, 1, 0, 1]);
        assert_eq!(reached(2, &[2], (5, u32::MAX), over), [0, 0, 0, 0, 0, 1]);
        assert_eq!(reached(1, &[], (31, 0), over), [0; 6], "20");
    }

    /// 444 and 2,624 l/h: at 5 °C a litre takes 58 W, at 10 °C 52.2 W. With 24 hours the mean hour is 443.75 l/h unrounded, with 25
    /// residents 156.25; with one hour it is the day, over the greatest hour.
    #[test]
    fn watts() {
        let ask = [HeatWhole, HeatUp, HeatMeanUp, HeatMeanMore, HeatMeanLess, HeatGreat];
        assert_eq!(reached(2, &[2], (5, 0), ask), [1, 0, 1, 0, 1, 0]);
        assert_eq!(reached(2, &[2], (10, 0), ask), [0, 1, 1, 0, 1, 0]);
        assert_eq!(of_house(2, &[2], 1, 71, (10, 0), ask), [0, 0, 0, 1, 0, 0], "10,650 l/h take a whole number");
        assert_eq!(of_house(2, &[2], 3, 71, (5, 0), ask), [1, 0, 0, 1, 0, 0], "3,550 l/h");
    }
}
