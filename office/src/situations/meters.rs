//! What a case of the meter call reached, by the model.

use super::{Counters, Situation};
use crate::case::Case;
use crate::model::Judged;
use crate::model::bytes::number;
use crate::model::meters::Meter;

impl Counters {
    /// A case of the meter call.
    pub(super) fn note_meters(&mut self, case: &Case, judged: &Judged) {
        use Situation::*;
        self.saw(NoMeters, judged.number == 17 && case.meters.is_empty());
        self.saw(NineMeters, judged.number == 17 && case.meters.len() == 45);
        if judged.flows.is_empty() || judged.faults.has(17) {
            return;
        }
        let (flow, mean) = (judged.demand.house_flow(), judged.demand.mean_hour());
        let cut = |meter: &Meter| meter.loss(flow) > 65_535 && meter.loss(flow) % 65_536 <= meter.most();
        let wide = judged.meters.all.iter().any(|meter| cut(meter) && meter.serves(mean));
        self.saw(WideLoss, wide && [0, 18].contains(&judged.number));
        match judged.number {
            0 => self.note_winner(case, judged, flow, mean),
            18 => self.note_no_meter(judged, flow, mean),
            _ => {}
        }
    }

    fn note_winner(&mut self, case: &Case, judged: &Judged, flow: i128, mean: i128) {
        use Situation::*;
        let ranked = judged.meters.ranked(flow, mean);
        let (loss, place) = ranked[0];
        let all = &judged.meters.all;
        let won = &all[place - 1];
        let equal: Vec<&Meter> = ranked[1..].iter().filter(|(l, _)| *l == loss).map(|(_, t)| &all[t - 1]).collect();
        self.saw(MeterTie, equal.iter().any(|meter| meter.resistance < won.resistance));
        self.saw(MetersAlike, equal.len() > 1);
        self.saw(TieOfDesigns, equal.iter().any(|meter| meter.design != won.design));
        self.saw(VaneOver250, loss > 250);
        self.saw(MostLossVane, won.design == 1 && loss == 500);
        self.saw(MostLossTurbine, won.design == 2 && loss == 250);
        self.saw(ServiceExact, won.service == mean);
        self.saw(LeastLossOut, all.iter().any(|meter| meter.loss(flow) < loss));
        self.saw(HouseFlowOwn, !judged.flows.contains(&flow));
        self.saw(MeterFirst, all.len() == 8 && place == 1);
        self.saw(MeterLast, all.len() == 8 && place == 8);
        self.saw(LossKept, number(&case.job, 8, 2) == loss);
    }

    fn note_no_meter(&mut self, judged: &Judged, flow: i128, mean: i128) {
        use Situation::*;
        let any = |of: &dyn Fn(&Meter) -> bool| judged.meters.all.iter().any(of);
        self.saw(VaneOneOver, any(&|meter| meter.design == 1 && meter.serves(mean) && meter.loss(flow) == 501));
        self.saw(TurbineOneOver, any(&|meter| meter.design == 2 && meter.serves(mean) && meter.loss(flow) == 251));
        self.saw(ServiceOneShort, any(&|meter| meter.passes(flow) && meter.service + 1 == mean));
        self.saw(ServiceAlone, any(&|meter| meter.passes(flow)));
        self.saw(LossAlone, any(&|meter| meter.serves(mean)));
        self.saw(WideMean, mean > 65_535);
        let at_section = |meter: &Meter| meter.serves(mean) && judged.flows.iter().all(|flow| meter.passes(*flow));
        self.saw(SectionWouldDo, any(&at_section));
    }
}

#[cfg(test)]
mod tests {
    use super::*;
    use crate::model::judge;
    use Situation::*;

    /// Document 01's own case, 2,052 ml/s and a mean hour of 740 l/h, with this list of meters, or with its fixtures at two
    /// sections on the pump.
    fn reached(meters: &str, two: bool) -> Counters {
        let (length, count) = if two { ("3c", "02") } else { ("32", "01") };
        let ends = if two { "0007001400640258 00c8 0007003c00640258 00c8" } else { "0007005000640258 00c8" };
        let text = format!(
            "call meter\njob 000000{length}0103{count}18003201f404b005dc 000000000000000000000000 0047 00000000000000000000\n\
             job {ends}\nmeters {meters}\nout 80"
        );
        let case = Case::parse(&text).expect("a case");
        let mut counters = Counters::default();
        counters.note(&case, &judge(&case));
        counters
    }

    fn of<const N: usize>(meters: &str, situations: [Situation; N]) -> [u64; N] {
        let counters = reached(meters, false);
        situations.map(|situation| counters.reached(situation))
    }

    #[test]
    fn meters_that_win() {
        let ties = [MeterTie, MetersAlike, TieOfDesigns];
        assert_eq!(of("01 0002 02e4  01 0001 02e4", ties), [1, 0, 0]);
        assert_eq!(of("01 0001 02e4  02 0002 02e4", ties), [0, 0, 1]);
        assert_eq!(of("01 0001 02e4  01 0002 02e4  01 0003 02e4", ties), [0, 1, 0]);
        assert_eq!(of("01 0018 02e4  01 0017 02e4", ties), [0, 0, 0], "2 and 1 cm");
        assert_eq!(of("01 0001 02e4  01 0001 02e3", ties), [0, 0, 0], "the second does not qualify");
        let most = [VaneOver250, MostLossVane, MostLossTurbine];
        assert_eq!(of("01 2e62 02e4", most), [1, 1, 0], "500 cm");
        assert_eq!(of("01 1732 02e4", most), [1, 0, 0], "251 cm");
        assert_eq!(of("01 1731 02e4", most), [0, 0, 0], "250 cm");
        assert_eq!(of("02 1731 02e4", most), [0, 0, 1], "250 cm");
        let others = [ServiceExact, LeastLossOut, LossKept, HouseFlowOwn];
        assert_eq!(of("01 0001 02e4", others), [1, 0, 0, 0]);
        assert_eq!(of("01 0001 02e3  01 0018 02e5", others), [0, 1, 0, 0]);
        assert_eq!(of("01 04a3 02e5", others), [0, 0, 1, 0], "1,187 lose 49.98 cm, and the job has 50");
        let eight =
            |at: usize| (0..8).map(|t| if t == at { "02 0001 02e4 " } else { "01 0018 02e4 " }).collect::<String>();
        assert_eq!(of(&eight(0), [MeterFirst, MeterLast]), [1, 0]);
        assert_eq!(of(&eight(7), [MeterFirst, MeterLast]), [0, 1]);
        assert_eq!(of(&eight(3), [MeterFirst, MeterLast]), [0, 0]);
    }

    #[test]
    fn no_meter() {
        let ask = [VaneOneOver, TurbineOneOver, ServiceOneShort, ServiceAlone, LossAlone];
        assert_eq!(of("01 2e63 02e4", ask), [1, 0, 0, 0, 1]);
        assert_eq!(of("02 1732 02e4", ask), [0, 1, 0, 0, 1]);
        assert_eq!(of("01 0001 02e3", ask), [0, 0, 1, 1, 0]);
        assert_eq!(of("01 0001 02e2", ask), [0, 0, 0, 1, 0]);
        assert_eq!(of("01 2e63 02e3", ask), [0, 0, 0, 0, 0], "both limits broken");
        assert_eq!(of("01 2e63 02e4  01 0001 02e4", ask), [0, 0, 0, 0, 0], "the second qualifies");
        assert_eq!(of("", [NoMeters, NineMeters]), [1, 0]);
        assert_eq!(of(&"01 0001 02e4 ".repeat(9), [NoMeters, NineMeters]), [0, 1]);
        assert_eq!(of("01 0001", [NoMeters, NineMeters]), [0, 0]);
    }

    /// 20 and 60 fixtures at the pump have 979 and 1,739 ml/s, the house still 2,052.
    #[test]
    fn two_sections_at_the_pump() {
        assert_eq!(reached("01 0001 02e4", true).reached(HouseFlowOwn), 1);
        assert_eq!(reached("01 2e63 02e4", true).reached(SectionWouldDo), 1);
        assert_eq!(reached("01 2e63 02e4", false).reached(SectionWouldDo), 0);
        // At 1,739 ml/s 16,600 lose 502.0 cm.
        assert_eq!(reached("01 40d8 02e4", true).reached(SectionWouldDo), 0);
    }
}
