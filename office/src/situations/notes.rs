//! What a case reached.

use super::{Counters, Situation};
use crate::case::{Call, Case};
use crate::model::heads::Heads;
use crate::model::{self, Expected, Judged, alpha};

impl Counters {
    /// Counts a case on which library and model agree.
    pub fn note(&mut self, case: &Case, judged: &Judged) {
        self.cases += 1;
        self.answers[case.call as usize][judged.number as usize] += 1;
        for later in (1..=model::faults::LAST).filter(|later| judged.faults.has(*later) && *later != judged.number) {
            self.pairs[case.call as usize][judged.number as usize][later as usize] += 1;
        }
        self.note_lent(case, judged);
        self.note_version(case, judged);
        self.note_crowded_line(case, judged);
        self.note_marks(judged);
        if !judged.flows.is_empty() {
            self.note_house(judged);
            self.note_taps(case, judged);
            self.note_line(case, judged);
        }
        self.note_result(judged);
        match case.call {
            Call::Meter => self.note_meters(case, judged),
            Call::Losses => self.note_losses(case, judged),
            Call::Heads => self.note_given(case, judged),
            Call::Heat => self.note_heat(case, judged),
            _ => {}
        }
        if case.call.takes_catalogue() && (1..=12).all(|number| !judged.faults.has(number)) {
            self.note_readings(case, judged);
            self.note_small_flows(case, judged);
        }
        if judged.number == 16 {
            self.note_none(judged);
            self.note_refused_together(judged);
        }
    }

    /// What the call gave.
    fn note_result(&mut self, judged: &Judged) {
        match &judged.result {
            Expected::Rated(rating) => self.note_rating(judged, &rating.heads),
            Expected::Headed(heads) => self.note_heads(judged, heads),
            Expected::Chosen { cost, list } => {
                self.note_choice(judged, *cost, list);
                self.note_search(judged);
            }
            _ => {}
        }
    }

    fn note_lent(&mut self, case: &Case, judged: &Judged) {
        use Situation::*;
        let sections = judged.house.sections.len();
        let needed = model::result_bytes(case.call, &judged.house);
        let work = model::work_bytes(sections, judged.house.delivered as usize);
        let (done, chosen) = (judged.number == 0, judged.number == 0 && case.call == Call::Choose);
        self.saw(OutExact, done && case.out.length == needed);
        self.saw(OutLonger, done && case.out.length > needed);
        self.saw(OutOneShort, judged.number == 14 && case.out.length + 1 == needed);
        self.saw(OutEmpty, judged.number == 14 && case.out.length == 0);
        self.saw(WorkExact, chosen && case.work.length == work);
        self.saw(WorkLonger, chosen && case.work.length > work);
        let ones = !case.work.pattern.is_empty() && case.work.pattern.iter().all(|byte| *byte == 0xff);
        self.saw(WorkOnes, chosen && ones);
        self.saw(WorkOneShort, judged.number == 15 && case.work.length + 1 == work);
        self.saw(WorkEmpty, judged.number == 15 && case.work.length == 0);
        self.saw(WorkKept, (1..=15).contains(&judged.number) && case.work.length > 0);
        self.saw(NoJob, case.job.is_empty());
        self.saw(NoCatalogue, case.call == Call::Choose && judged.number == 10 && case.cat.is_empty());
        self.saw(NoSizes, judged.number == 12 && case.sizes.is_empty());
    }

    /// The marks of 8, 9 and Table 2.
    fn note_marks(&mut self, judged: &Judged) {
        use Situation::*;
        let demand = &judged.demand;
        if (1..=7).any(|number| judged.faults.has(number)) {
            return;
        }
        let (eight, nine) = (judged.number == 8, judged.number == 9);
        let fixtures = demand.house.fixtures;
        let over = |fixtures: i128, sum: i128| sum > 100_000 * fixtures;
        let house_over = over(fixtures, demand.hour_sum.max(demand.house.m));
        self.saw(HourOver400, eight && demand.hour_sum > 400_000_000);
        self.saw(Fixtures200, nine && fixtures == 200 && house_over);
        let fine = !judged.flows.is_empty();
        self.saw(Fixtures201, fine && fixtures == 201 && house_over);
        let small: Vec<_> = demand.sections.iter().filter(|s| s.fixtures <= 200 && over(s.fixtures, s.m)).collect();
        self.saw(Section200, nine && fixtures > 200 && !small.is_empty() && small.iter().all(|s| s.fixtures == 200));
        self.saw(Section201, fine && demand.sections.iter().any(|s| s.fixtures == 201 && over(201, s.m)));
        let exactly = |fixtures: i128, sum: i128| fixtures <= 200 && sum == 100_000 * fixtures;
        let any_exactly =
            demand.sections.iter().any(|s| exactly(s.fixtures, s.m)) || exactly(fixtures, demand.hour_sum);
        self.saw(ExactlyCrowded, fine && any_exactly);
        let tapped = || demand.section_taps().iter().any(|kinds| !kinds.is_empty());
        self.saw(TapCrowded, fine && any_exactly && tapped());
        self.saw(TapTooCrowded, nine && tapped());
    }

    /// An accepted job.
    fn note_house(&mut self, judged: &Judged) {
        use Situation::*;
        let (house, demand, flows) = (&judged.house, &judged.demand, &judged.flows);
        let is_key = |m: i128| alpha::table().binary_search_by_key(&m, |(key, _)| *key).is_ok();
        self.saw(Sections63, flows.len() == 63 && judged.number == 0);
        self.saw(MUnder15000, demand.sections.iter().any(|s| s.m < 15_000));
        self.saw(M15000, demand.sections.iter().any(|s| s.m == 15_000));
        self.saw(MAtKey, demand.sections.iter().any(|s| s.m > 15_000 && is_key(s.m)));
        self.saw(HourAtKey, is_key(demand.hour_sum));
        self.saw(Hour400, demand.hour_sum == 400_000_000);
        self.saw(PumpForks, house.sections.iter().filter(|s| s.parent == 0).count() > 1);
        self.saw(InnerKind, house.sections.iter().any(|s| s.parent > 0 && house.sections[s.parent - 1].kind > 0));
        self.saw(AllKinds, house.residents[1..].iter().all(|residents| *residents > 0));
        let more = |(s, flow): (&model::house::Section, &i128)| s.parent > 0 && *flow > flows[s.parent - 1];
        self.saw(ChildDrawsMore, house.sections.iter().zip(flows).any(more));
    }

    /// How the sizes in question read at the flows: all for choosing, otherwise those of the list.
    fn note_readings(&mut self, case: &Case, judged: &Judged) {
        use Situation::*;
        let limit = judged.house.limit;
        for (place, flow) in judged.flows.iter().enumerate() {
            let listed = |t: usize| case.call == Call::Choose || usize::from(case.sizes[place]) == t;
            for (size, _) in judged.cat.sizes.iter().zip(1..).filter(|(_, t)| listed(*t)) {
                let rows = &size.rows;
                let last = rows.len() - 1;
                match rows.iter().position(|row| row.flow == *flow) {
                    Some(0) => self.saw(FirstRowHit, true),
                    Some(at) if at == last => self.saw(LastRowHit, true),
                    Some(_) => self.saw(InnerRowHit, true),
                    None if *flow < rows[0].flow => self.saw(UnderFirstRow, true),
                    None if *flow < rows[last].flow => self.saw(BetweenRows, true),
                    None => self.saw(OneOverLastRow, *flow == rows[last].flow + 1 && [13, 16].contains(&judged.number)),
                }
                if let Some(reading) = size.read(*flow) {
                    self.saw(AtLimit, reading.velocity == limit);
                    self.saw(OneOverLimit, reading.velocity == limit + 1);
                }
            }
        }
    }

    fn note_rating(&mut self, judged: &Judged, heads: &Heads) {
        use Situation::*;
        self.saw(NegativeHead, heads.required < 0);
        self.saw(GreatHead, heads.required > 100_000_000);
        self.saw(PumpZero, heads.pump == 0);
        self.saw(PumpAbove, heads.pump > 0);
        self.saw(DictatingTie, heads.equals() > 1);
        self.saw(DictatingLater, heads.dictating > 1);
        self.saw(DictatingKind0, judged.house.sections[heads.dictating - 1].kind == 0);
    }

    fn note_choice(&mut self, judged: &Judged, cost: i128, list: &[u8]) {
        use Situation::*;
        self.saw(Chosen63, list.len() == 63);
        self.saw(GreatCost, cost > 2_147_483_647);
        self.saw(NegativeChosen, judged.house.delivered < judged.house.meter);
        if let Some(rating) = judged.order().rate(list) {
            self.saw(HeadExact, rating.heads.required == judged.house.delivered);
            self.saw(ChosenNegative, rating.heads.required < 0);
        }
    }

    fn note_none(&mut self, judged: &Judged) {
        use Situation::*;
        let order = judged.order();
        let sections = judged.flows.len();
        self.saw(NoList63, sections == 63);
        let flattest = |section: usize| -> Option<u8> {
            let fitted = (1..=judged.cat.sizes.len()).filter_map(|t| Some((order.fitted(section, t)?.loss, t as u8)));
            fitted.min().map(|(_, t)| t)
        };
        let list: Option<Vec<u8>> = (1..=sections).map(flattest).collect();
        let rating = list.and_then(|list| order.rate(&list));
        self.saw(HeadOneShort, rating.is_some_and(|rating| rating.heads.required == judged.house.delivered + 1));
    }

    /// Counts what brute force found: how many cheapest lists, or none.
    pub fn note_tried(&mut self, ways: Option<u64>) {
        use Situation::*;
        self.saw(Tried, ways.is_some());
        self.saw(TriedNone, ways.is_none());
        self.saw(TiesInCost, ways.is_some_and(|ways| ways > 1));
    }
}
