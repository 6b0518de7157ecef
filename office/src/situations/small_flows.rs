//! What a flow under the first row of its size did in a case, by the model: document 02's request L6.

use super::lines::FEW;
use super::{Counters, Situation};
use crate::case::Case;
use crate::model::bytes::up;
use crate::model::catalogue::{Catalogue, Row, Size};
use crate::model::rating::Order;
use crate::model::{Expected, Judged, fronts};

impl Counters {
    /// A call that takes a catalogue, in which 1 to 12 found nothing.
    pub(super) fn note_small_flows(&mut self, case: &Case, judged: &Judged) {
        use Situation::*;
        let (list, of_call) = match &judged.result {
            Expected::Chosen { list, .. } => (list, SmallInChoice),
            Expected::Rated(_) => (&case.sizes, SmallInRating),
            Expected::Bytes(_) => (&case.sizes, SmallInLosses),
            _ => return,
        };
        let sizes = list.iter().map(|t| &judged.cat.sizes[usize::from(*t) - 1]);
        let small: Vec<(usize, &Size)> =
            (1..).zip(sizes).filter(|(own, size)| judged.flows[own - 1] < size.rows[0].flow).collect();
        self.saw(of_call, !small.is_empty());
        match &judged.result {
            Expected::Chosen { cost, .. } => self.note_by_whole_rows(case, judged, *cost),
            _ => small.into_iter().for_each(|(own, size)| self.note_small(judged, own, size)),
        }
    }

    /// A section whose velocity and loss were given, under the first row of its size.
    fn note_small(&mut self, judged: &Judged, own: usize, size: &Size) {
        use Situation::*;
        let (flow, first) = (judged.flows[own - 1], &size.rows[0]);
        let reading = size.read(flow).expect("the list is rated");
        // The loss of a slope that is a quotient.
        let each = judged.house.sections[own - 1].length * (10 + judged.house.k);
        let loss = |slope: i128, by: i128| up(slope * each, by * 1_000);
        let given = loss(reading.slope, 1);
        self.saw(OneUnderFirstRow, flow + 1 == first.flow);
        self.saw(SmallVelocityUp, flow * first.velocity % first.flow > 0);
        self.saw(SmallSlopeUp, loss(flow * first.slope / first.flow, 1) < given);
        self.saw(SmallSlopeExact, loss(flow * first.slope, first.flow) < given);
        self.saw(SmallSlopeOwn, loss(up(reading.velocity * first.slope, first.velocity), 1) != given);
        self.saw(SmallLimit, first.velocity > judged.house.limit);
    }

    /// What choosing would give if a flow under the first row took the whole of it.
    fn note_by_whole_rows(&mut self, case: &Case, judged: &Judged, cost: i128) {
        use Situation::*;
        if judged.flows.len() > FEW {
            return;
        }
        let least = fronts::least(&Order { cat: &with_whole_rows(&case.cat), ..judged.order() });
        self.saw(SmallCheaper, least.as_ref().is_some_and(|(least, _)| cost < *least));
        self.saw(SmallSuits, least.is_none());
    }
}

/// The catalogue with each first row at a flow of 1 ml/s too, so that every flow under it reads the whole row.
fn with_whole_rows(cat: &[u8]) -> Catalogue {
    let mut cat = Catalogue::of(cat);
    for Size { rows, .. } in &mut cat.sizes {
        let Row { flow, velocity, slope } = rows[0];
        if flow > 1 {
            rows.insert(0, Row { flow: 1, velocity, slope });
        }
    }
    cat
}

#[cfg(test)]
mod tests {
    use super::*;
    use crate::model::judge;
    use Situation::*;

    /// Document 01's own case with a basin of one office in its place, at the end of 80 m, and this head and limit: 140 ml/s.
    fn job(head: u16, limit: u16) -> Vec<u8> {
        let mut job = vec![0, 0, 0, 50, 1, 3, 1, 24, 0, 50, 1, 244];
        [head, limit].iter().for_each(|field| job.extend(field.to_be_bytes()));
        job.extend([0; 21]);
        job.extend([1, 0, 0, 0, 11, 0, 1, 3, 32, 2, 88, 0, 200]);
        job
    }

    /// A size that is priced so, with this first row and one of 3,000 ml/s.
    fn size(bore: u16, price: u16, (flow, velocity, slope): (u32, u16, u16)) -> Vec<u8> {
        let mut bytes = [bore, price].map(u16::to_be_bytes).concat();
        for (flow, velocity, slope) in [(flow, velocity, slope), (3_000, velocity.max(2_400), slope.max(300))] {
            bytes.extend(flow.to_be_bytes());
            [velocity, slope].iter().for_each(|field| bytes.extend(field.to_be_bytes()));
        }
        bytes
    }

    fn reached<const N: usize>(call: &str, job: Vec<u8>, sizes: &[Vec<u8>], ask: [Situation; N]) -> [u64; N] {
        let list = if call == "choose" { "" } else { "sizes 01" };
        let text = format!("call {call}\n{list}\nwork 100000\nout 20");
        let mut cat = vec![0, 0, 0, 7 + 20 * sizes.len() as u8, 1, sizes.len() as u8, 2];
        sizes.iter().for_each(|size| cat.extend(size));
        let case = Case { job, cat, ..Case::parse(&text).expect("a case") };
        let mut counters = Counters::default();
        counters.note(&case, &judge(&case));
        ask.map(|situation| counters.reached(situation))
    }

    /// The first rows of document 01's two sizes.
    fn own() -> [Vec<u8>; 2] {
        [size(40, 900, (1_000, 800, 40)), size(50, 1_300, (1_000, 500, 12))]
    }

    #[test]
    fn calls() {
        let ask = [SmallInLosses, SmallInRating, SmallInChoice, UnderFirstRow];
        assert_eq!(reached("losses", job(1_200, 1_500), &own(), ask), [1, 0, 0, 1]);
        assert_eq!(reached("rate", job(1_200, 1_500), &own(), ask), [0, 1, 0, 1]);
        assert_eq!(reached("choose", job(1_200, 1_500), &own(), ask), [0, 0, 1, 2]);
        assert_eq!(reached("rate", job(1_200, 111), &own(), ask), [0, 0, 0, 1], "13");
        assert_eq!(reached("choose", job(870, 1_500), &own(), ask), [0, 0, 0, 2], "16");
        // At the first row and over it.
        for flow in [139, 140] {
            let wide = [size(40, 900, (flow, 800, 40))];
            assert_eq!(reached("rate", job(1_200, 1_500), &wide, ask), [0; 4], "{flow}");
            assert_eq!(reached("choose", job(1_300, 1_500), &wide, ask), [0; 4], "{flow}");
        }
    }

    /// 140 × 800 / 1,000 is 112, and 140 × 40 / 1,000 is 5.6. A slope of 6 loses 62.4 cm, up to 63, one of 5 loses 52, and 5.6 itself
    /// 58.24.
    #[test]
    fn roundings() {
        let ask = [SmallVelocityUp, SmallSlopeUp, SmallSlopeExact, SmallSlopeOwn];
        let with = |first: (u32, u16, u16)| reached("rate", job(6_000, 3_000), &[size(40, 900, first)], ask);
        assert_eq!(with((1_000, 800, 40)), [0, 1, 1, 0]);
        // 112.14 mm/s, up to 113: 113 × 40 / 801 is 5.64, as good as 5.6.
        assert_eq!(with((1_000, 801, 40)), [1, 1, 1, 0]);
        // 0.42 mm/s, up to 1: by that ratio the slope would be 40 / 3, up to 14.
        assert_eq!(with((1_000, 3, 40)), [1, 1, 1, 1]);
        // 112 mm/s and a slope of 7.
        assert_eq!(with((1_000, 800, 50)), [0, 0, 0, 0]);
        // 0.14 mm/s, up to 1, and a slope of 7; by the ratio of 1 to 1 it would be 50.
        assert_eq!(with((1_000, 1, 50)), [1, 0, 0, 1]);
    }

    #[test]
    fn the_first_row_beside() {
        let with = |limit: u16, flow: u32| {
            let sizes = [size(40, 900, (flow, 800, 40))];
            reached("losses", job(1_200, limit), &sizes, [OneUnderFirstRow, SmallLimit])
        };
        assert_eq!(with(1_500, 141), [1, 0]);
        assert_eq!(with(1_500, 142), [0, 0]);
        assert_eq!(with(1_500, 140), [0, 0]);
        assert_eq!((with(800, 1_000), with(799, 1_000), with(112, 1_000)), ([0, 0], [0, 1], [0, 1]));
        assert_eq!(with(111, 1_000), [0, 0], "13");
    }

    /// Sizes 1 and 2 lose 63 and 21 cm, and by their whole first rows 416 and 125; the end asks for 850 cm beside that.
    #[test]
    fn choices() {
        let with = |head: u16| reached("choose", job(head, 1_500), &own(), [SmallCheaper, SmallSuits]);
        assert_eq!((with(1_265), with(1_266)), ([1, 0], [0, 0]), "size 1 either way");
        assert_eq!((with(975), with(974)), ([1, 0], [0, 1]));
        assert_eq!((with(913), with(912)), ([0, 1], [0, 1]), "size 1, and size 2");
        assert_eq!((with(871), with(870)), ([0, 1], [0, 0]), "16");
        let whole = with_whole_rows(&[&[0, 0, 0, 27, 1, 1, 2][..], &size(40, 900, (1, 800, 40))].concat());
        assert_eq!(whole.sizes[0].rows.len(), 2, "no flow is under 1 ml/s");
    }
}
