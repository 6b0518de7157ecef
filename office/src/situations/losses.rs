//! What a case of document 02's request L3 reached, by the model: the losses call, the heads call, and rating beside the two.

use super::{Counters, Situation};
use crate::case::{Call, Case};
use crate::model::bytes::number;
use crate::model::heads::{Heads, MOST_LOSS};
use crate::model::{Expected, Judged, result_bytes};

impl Counters {
    /// A case of the losses call.
    pub(super) fn note_losses(&mut self, case: &Case, judged: &Judged) {
        use Situation::*;
        let rating = result_bytes(Call::Rate, &judged.house);
        self.saw(LossesInLess, judged.number == 0 && case.out.length < rating);
        self.saw(LossesNeedMore, judged.number == 14 && case.out.length >= rating);
        if let Expected::Bytes(bytes) = &judged.result {
            self.saw(GreatestLoss, bytes.chunks(10).any(|ten| number(ten, 6, 4) == MOST_LOSS));
        }
    }

    /// Counts parts for which rating and the two calls in turn gave this number, or the same figures.
    pub fn note_in_turn(&mut self, number: u32) {
        use Situation::*;
        self.saw(InTurn, number == 0);
        self.saw(InTurnRefused, number != 0);
    }

    /// A case of the heads call.
    pub(super) fn note_given(&mut self, case: &Case, judged: &Judged) {
        use Situation::*;
        if judged.number != 19 {
            return;
        }
        let (lent, right) = (case.losses.len(), 4 * judged.house.sections.len());
        let (over, all) = (judged.losses.any_over(), &judged.losses.all);
        let alone = |place: usize| all.iter().enumerate().all(|(at, loss)| (*loss > MOST_LOSS) == (at == place));
        self.saw(LossOneOver, lent == right && all.iter().max() == Some(&(MOST_LOSS + 1)));
        self.saw(FirstLossOver, lent == right && all.len() > 1 && alone(0));
        self.saw(LastLossOver, lent == right && all.len() > 1 && alone(all.len() - 1));
        self.saw(LossByteShort, lent + 1 == right);
        self.saw(LossByteLong, lent == right + 1);
        self.saw(LossTooFew, lent > 0 && lent + 4 == right && !over);
        self.saw(LossTooMany, lent == right + 4 && !over);
        self.saw(LossTens, 2 * lent == 5 * right);
        self.saw(LossesBothWrong, lent != right && over);
        self.saw(NoLosses, lent == 0);
    }

    /// Heads of given losses.
    pub(super) fn note_heads(&mut self, judged: &Judged, heads: &Heads) {
        use Situation::*;
        let (house, losses) = (&judged.house, &judged.losses.all);
        self.saw(LossAtMost, losses.contains(&MOST_LOSS));
        self.saw(GivenZero, losses.iter().all(|loss| *loss == 0));
        self.saw(GivenUnderOne, heads.required < Heads::of(house, &vec![1; losses.len()]).required);
        self.saw(GivenLeast, heads.required == -1_000);
        self.saw(GivenNegative, heads.required < 0);
        self.saw(GivenGreat, heads.required > 100_000_000);
        self.saw(GivenTie, heads.equals() > 1);
        self.saw(GivenKind0, house.sections[heads.dictating - 1].kind == 0);
        let alone = house.sections.iter().zip(losses).map(|(s, loss)| s.elevation + s.free + loss);
        let as_paths = Heads::at(house, alone.collect());
        self.saw(GivenNoPath, as_paths.required != heads.required);
        self.saw(GivenOtherSection, as_paths.dictating != heads.dictating);
        self.saw(GivenPumpZero, heads.pump == 0);
        self.saw(GivenPumpOne, heads.pump == 1);
        self.saw(GivenAtGuaranteed, heads.required == house.guaranteed);
        self.saw(Given63, losses.len() == 63);
    }
}

#[cfg(test)]
mod tests {
    use super::*;
    use crate::model::judge;
    use Situation::*;

    /// Document 01's own case with this meter loss and guaranteed head, and of each section parent, elevation and free head;
    /// its 80 fixtures are at each section with a free head.
    fn job(meter: u16, guaranteed: u16, sections: &[(u8, i16, u16)]) -> Vec<u8> {
        let mut job = (40 + 10 * sections.len() as u32).to_be_bytes().to_vec();
        job.extend([1, 3, sections.len() as u8, 24]);
        [meter, guaranteed, 1_200, 1_500].iter().for_each(|field| job.extend(field.to_be_bytes()));
        job.extend([0; 12]);
        job.extend([0, 71]);
        job.extend([0; 10]);
        for (parent, elevation, free) in sections {
            let (kind, fixtures) = if *free == 0 { (0, 0) } else { (7, 80) };
            job.extend([*parent, kind, 0, fixtures, 0, 100]);
            job.extend(elevation.to_be_bytes());
            job.extend(free.to_be_bytes());
        }
        job
    }

    fn reached<const N: usize>(text: &str, job: Vec<u8>, situations: [Situation; N]) -> [u64; N] {
        let case = Case { job, ..Case::parse(text).expect("a case") };
        let mut counters = Counters::default();
        counters.note(&case, &judge(&case));
        situations.map(|situation| counters.reached(situation))
    }

    /// Two ends in a row, at 600 cm with a free head of 200.
    fn row() -> Vec<u8> {
        job(50, 500, &[(0, 600, 200), (1, 600, 200)])
    }

    fn given<const N: usize>(losses: &str, job: Vec<u8>, situations: [Situation; N]) -> [u64; N] {
        reached(&format!("call heads\nlosses {losses}\nout 9"), job, situations)
    }

    #[test]
    fn losses_that_are_refused() {
        let over = [LossOneOver, FirstLossOver, LastLossOver, LossesBothWrong];
        assert_eq!(given("0040ffc0 00000000", row(), over), [1, 1, 0, 0]);
        assert_eq!(given("00000000 0040ffc0", row(), over), [1, 0, 1, 0]);
        assert_eq!(given("0040ffc0 0040ffc0", row(), over), [1, 0, 0, 0]);
        assert_eq!(given("0040ffc0 0040ffc1", row(), over), [0, 0, 0, 0]);
        assert_eq!(given("0040ffc0", row(), over), [0, 0, 0, 1]);
        assert_eq!(given("0040ffbf 00000000", row(), over), [0, 0, 0, 0], "a result");
        let own = || job(50, 500, &[(0, 600, 200)]);
        assert_eq!(given("0040ffc0", own(), over), [1, 0, 0, 0], "one loss is not the first of several");
        let lengths = [LossByteShort, LossByteLong, LossTooFew, LossTooMany, LossTens, NoLosses];
        assert_eq!(given("00000000 000000", row(), lengths), [1, 0, 0, 0, 0, 0]);
        assert_eq!(given("00000000 00000000 00", row(), lengths), [0, 1, 0, 0, 0, 0]);
        assert_eq!(given("00000000", row(), lengths), [0, 0, 1, 0, 0, 0]);
        assert_eq!(given("0040ffc0", row(), lengths), [0; 6]);
        assert_eq!(given("00000000 00000000 0040ffbf", row(), lengths), [0, 0, 0, 1, 0, 0]);
        assert_eq!(given("00000000 00000000 0040ffc0", row(), lengths), [0, 0, 0, 0, 0, 0]);
        assert_eq!(given(&"00000000".repeat(5), row(), lengths), [0, 0, 0, 0, 1, 0]);
        assert_eq!(given("", row(), lengths), [0, 0, 0, 0, 0, 1]);
        assert_eq!(given("", own(), lengths), [0, 0, 0, 0, 0, 1], "none at all is not one too few");
        assert_eq!(given("00000000 000000", vec![0; 50], lengths), [0; 6], "1");
    }

    #[test]
    fn heads_of_losses() {
        let least = [GivenZero, GivenUnderOne, GivenLeast, GivenNegative, LossAtMost];
        // A cellar: the section at the pump has no free head.
        let cellar = || job(0, 0, &[(0, -1_000, 0), (1, -1_000, 1)]);
        assert_eq!(given("00000000 00000000", cellar(), least), [1, 1, 0, 1, 0], "-999");
        assert_eq!(given("00000001 00000001", cellar(), least), [0, 0, 0, 1, 0], "-997");
        assert_eq!(given("00000001 00000000", cellar(), least), [0, 1, 0, 1, 0], "-998");
        assert_eq!(given("000003e7 00000000", cellar(), least), [0; 5], "0");
        assert_eq!(given("000003e6 00000000", cellar(), least), [0, 0, 0, 1, 0], "-1");
        assert_eq!(given("0040ffbf 00000000", cellar(), least), [0, 0, 0, 0, 1]);
        let mut lowest = cellar();
        lowest[59] = 0;
        assert_eq!(given("00000000 00000000", lowest, least), [1, 1, 1, 1, 0]);
        let others = [GivenTie, GivenKind0, GivenNoPath, GivenOtherSection];
        assert_eq!(given("00000047 00000000", row(), others), [1, 0, 0, 0]);
        assert_eq!(given("00000047 00000001", row(), others), [0, 0, 1, 1], "as path losses section 1 would dictate");
        assert_eq!(given("00000047 00000048", row(), others), [0, 0, 1, 0]);
        assert_eq!(given("00000000 00000001", row(), others), [0, 0, 0, 0]);
        let high = job(50, 500, &[(0, 900, 0), (1, 600, 200)]);
        assert_eq!(given("00000001 00000002", high, others), [0, 1, 0, 0]);
    }

    /// The row of two requires 850 and both losses.
    #[test]
    fn pump_heads() {
        let ask = [GivenPumpZero, GivenPumpOne, GivenAtGuaranteed];
        let of = |guaranteed: u16| job(50, guaranteed, &[(0, 600, 200), (1, 600, 200)]);
        assert_eq!(given("00000000 00000000", of(851), ask), [1, 0, 0]);
        assert_eq!(given("00000001 00000000", of(851), ask), [1, 0, 1]);
        assert_eq!(given("00000001 00000001", of(851), ask), [0, 1, 0]);
        assert_eq!(given("00000001 00000002", of(851), ask), [0, 0, 0]);
    }

    /// Of 63 sections and of great heads: a row under the pump.
    #[test]
    fn long_rows() {
        let row = |count: u8| -> Vec<(u8, i16, u16)> { (0..count).map(|parent| (parent, 0, 1)).collect() };
        let ask = [Given63, GivenGreat];
        let of = |count: u8, loss: &str| given(&loss.repeat(count.into()), job(0, 0, &row(count)), ask);
        assert_eq!(of(63, "00000000"), [1, 0]);
        assert_eq!(of(63, "0040ffbf"), [1, 1]);
        assert_eq!(of(62, "0040ffbf"), [0, 1]);
        assert_eq!(of(23, "0040ffbf"), [0, 0], "97,974,825 cm and 1");
    }

    /// One size that has this slope at every flow.
    fn losses(slope: &str, out: usize, sections: &[(u8, i16, u16)]) -> [u64; 3] {
        let size = format!("0032 0001 00000001 0001 {slope} 000f4240 0001 {slope}");
        let list = "01".repeat(sections.len());
        let text = format!("call losses\ncat 0000001b 01 01 02 {size}\nsizes {list}\nout {out}");
        let mut job = job(50, 500, sections);
        (0..sections.len()).for_each(|place| job[44 + 10 * place..][..2].copy_from_slice(&5_000u16.to_be_bytes()));
        reached(&text, job, [GreatestLoss, LossesInLess, LossesNeedMore])
    }

    #[test]
    fn losses_of_a_list() {
        let end = (0, 600, 200);
        assert_eq!(losses("ffff", 15, &[end]), [1, 0, 0]);
        assert_eq!(losses("fffe", 14, &[end]), [0, 1, 0]);
        assert_eq!(losses("ffff", 9, &[end]), [0, 0, 0], "14 for both");
        assert_eq!(losses("0001", 20, &[end, end]), [0, 1, 0]);
        assert_eq!(losses("0001", 27, &[end, end, end]), [0, 0, 1]);
        assert_eq!(losses("0001", 26, &[end, end, end]), [0, 0, 0]);
        assert_eq!(losses("0001", 30, &[end, end, end]), [0, 0, 0]);
    }
}
