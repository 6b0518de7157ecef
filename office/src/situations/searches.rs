//! What a case gave a search to leave out, recognised by the searches in safe Rust and by the model, never by the library.

use super::{Counters, Situation};
use crate::model::Judged;
use crate::model::house::Section;
use crate::rivals::ranges::Ranges;
use crate::rivals::tree::{Part, Tree};
use crate::rivals::trim::Trim;

impl Counters {
    /// A choice with a list.
    pub(super) fn note_search(&mut self, judged: &Judged) {
        use Situation::*;
        let tree = Tree::of(&judged.order());
        let mut search = Ranges::default();
        search.choose(&tree).expect("the model has found a list");
        let trim = &search.trim;
        let any = |of: &dyn Fn(&Part, usize) -> bool| tree.parts.iter().zip(1..).any(|(part, own)| of(part, own));
        let long = |own: usize, loss: usize| trim.lows[own] + loss > tree.head;
        self.saw(SizeTooLong, any(&|part, own| part.fits.iter().any(|fit| long(own, fit.loss))));
        let worse =
            |part: &Part, own: usize| part.fits.iter().any(|fit| !long(own, fit.loss) && !trim.fits(own).contains(fit));
        self.saw(SizeNoBetter, any(&worse));
        self.saw(OneSizeLeft, any(&|part, own| part.fits.len() > 1 && trim.fits(own).len() == 1));
        self.saw(EqualSizes, any(&|part, _| has_equals(part)));
        self.saw(OneHeadAtPump, trim.cells(0) == 1);
        self.saw(OneHeadAtParent, any(&|part, _| part.parent > 0 && trim.cells(part.parent) == 1));
        self.saw(HeadToSpare, trim.highs[0] < tree.head);
        let over = |part: &Part, own: usize| {
            trim.fits(own).iter().any(|fit| trim.highs[own] + fit.loss > tree.head) && part.parent == 0
        };
        self.saw(HeadAllUsed, any(&over));
        self.saw(SizeNotOffered, search.visits < offers(&tree, trim));
    }

    /// 16, though for each section by itself some size serves it and loses no more than the head at the pump leaves for its
    /// own end: only what the sections on a path lose together is too much.
    pub(super) fn note_refused_together(&mut self, judged: &Judged) {
        let (house, order) = (&judged.house, judged.order());
        let alone = |(s, own): (&Section, usize)| {
            let losses = (1..=judged.cat.sizes.len()).filter_map(|t| Some(order.fitted(own, t)?.loss));
            losses.min().is_some_and(|least| house.meter + s.elevation + s.free + least <= house.delivered)
        };
        self.saw(Situation::RefusedTogether, house.sections.iter().zip(1..).all(alone));
    }
}

/// Whether two sizes lose the same and cost the same.
fn has_equals(part: &Part) -> bool {
    let equal =
        |at: usize| part.fits[..at].iter().any(|o| (o.loss, o.cost) == (part.fits[at].loss, part.fits[at].cost));
    (0..part.fits.len()).any(equal)
}

/// How many cells are visited where every size that is left is offered at every head at which it can be taken.
fn offers(tree: &Tree, trim: &Trim) -> usize {
    let parts = tree.parts.iter().zip(1..);
    let cells = parts.flat_map(|(part, own)| {
        let (start, end) = (trim.lows[part.parent], trim.highs[part.parent] + 1);
        trim.fits(own).iter().map(move |fit| end - (trim.lows[own] + fit.loss).clamp(start, end))
    });
    cells.sum()
}

#[cfg(test)]
mod tests {
    use super::*;
    use crate::case::Case;
    use crate::model::judge;
    use Situation::*;

    /// Document 01's own case at a limit under which size 1 loses 231 cm and size 2 71 cm, behind so many further sections of
    /// its length at the pump's height.
    fn own_case(before: u8, head: u16) -> Case {
        let mut job = vec![0, 0, 0, 50 + 10 * before, 1, 3, 1 + before, 24, 0, 50, 1, 244];
        job.extend(head.to_be_bytes());
        job.extend(3_000u16.to_be_bytes());
        job.extend([0; 13]);
        job.push(71);
        job.extend([0; 10]);
        (0..before).for_each(|parent| job.extend([parent, 0, 0, 0, 0, 100, 0, 0, 0, 0]));
        job.extend([before, 7, 0, 80, 0, 100, 2, 88, 0, 200]);
        let text = "call choose\nwork 100000 ff\nout 10\n\
            cat 0000002f0102020028038400 0003e803200028 00000bb80960012c\n\
            cat 00320514000003e801f4000c00000bb805dc005a\n";
        Case { job, ..Case::parse(text).expect("a case") }
    }

    fn reached(case: &Case) -> Counters {
        let mut counters = Counters::default();
        counters.note(case, &judge(case));
        counters
    }

    #[test]
    fn one_section() {
        let at = |head: u16| reached(&own_case(0, head));
        let roomy = at(1_200);
        assert_eq!(roomy.reached(WorkOnes), 1);
        assert_eq!([SizeTooLong, OneSizeLeft, OneHeadAtPump, HeadAllUsed].map(|s| roomy.reached(s)), [0; 4]);
        assert_eq!(roomy.reached(HeadToSpare), 1);
        let short = at(1_080);
        assert_eq!([SizeTooLong, OneSizeLeft, OneHeadAtPump].map(|s| short.reached(s)), [1; 3]);
        assert_eq!(short.reached(OneHeadAtParent), 0);
        let none = at(920);
        assert_eq!([HeadOneShort, RefusedTogether].map(|s| none.reached(s)), [1, 0]);
    }

    #[test]
    fn two_sections() {
        let at = |head: u16| reached(&own_case(1, head));
        assert_eq!(at(991).reached(RefusedTogether), 1);
        assert_eq!(at(921).reached(RefusedTogether), 1);
        assert_eq!(at(920).reached(RefusedTogether), 0);
        assert_eq!([OneSizeLeft, OneHeadAtParent, OneHeadAtPump].map(|s| at(992).reached(s)), [1; 3]);
        let roomy = at(1_200);
        assert_eq!([OneHeadAtParent, OneHeadAtPump, HeadAllUsed, HeadToSpare].map(|s| roomy.reached(s)), [0, 0, 1, 0]);
    }

    #[test]
    fn sizes_that_are_no_better() {
        let with = |change: &dyn Fn(&mut Vec<u8>)| {
            let mut case = own_case(0, 1_200);
            change(&mut case.cat);
            let counters = reached(&case);
            [SizeNoBetter, EqualSizes, OneSizeLeft].map(|s| counters.reached(s))
        };
        assert_eq!(with(&|_| {}), [0, 0, 0]);
        // Size 2 with all that size 1 has but the bore, and then a little dearer.
        assert_eq!(with(&|cat| cat.copy_within(9..27, 29)), [1, 1, 1]);
        assert_eq!(
            with(&|cat| {
                cat.copy_within(9..27, 29);
                cat[30] += 1
            }),
            [1, 0, 1]
        );
        assert_eq!(
            with(&|cat| {
                cat.copy_within(9..27, 29);
                cat[30] -= 1
            }),
            [0, 0, 0]
        );
    }
}
