//! The benchmark's rivals must be right to be rivals: each search against the model, and what they leave out against the
//! sentences that say what it is.

use office::case::{Call, Case};
use office::generate;
use office::model::rating::Order;
use office::model::{Expected, Judged, judge};
use office::rivals::dense::{Dense, Form};
use office::rivals::fronts::Fronts;
use office::rivals::ranges::Ranges;
use office::rivals::tree::{Fit, Found, Tree};
use office::rivals::trim::Trim;

/// Generated choices that come to the search.
fn searched(seed: u64) -> impl Iterator<Item = (Case, Judged)> {
    let cases = (0..20_000).map(move |index| generate::case(seed, index)).filter(|case| case.call == Call::Choose);
    cases.map(|case| (judge(&case), case)).filter(|(judged, _)| [0, 16].contains(&judged.number)).map(|(j, c)| (c, j))
}

#[test]
fn the_searches_find_the_least_cost() {
    let (mut dense, mut ranges, mut fronts) = (Dense::default(), Ranges::default(), Fronts::default());
    let (mut found, mut none) = (0, 0);
    for (case, judged) in searched(3) {
        let order = judged.order();
        let tree = Tree::of(&order);
        let given: [(&str, Found); 4] = [
            ("cell by cell", dense.choose(&tree, Form::CellByCell)),
            ("row by row", dense.choose(&tree, Form::RowByRow)),
            ("sizes dropped", ranges.choose(&tree)),
            ("fronts", fronts.choose(&tree)),
        ];
        for (name, given) in given {
            match (&judged.result, given) {
                (Expected::Chosen { cost, .. }, Some((own, list))) => {
                    assert_eq!(i128::from(own), *cost, "{name}\n{}", case.text());
                    assert!(order.suits(&list) && order.cost(&list) == *cost, "{name}\n{}", case.text());
                    found += 1;
                }
                (Expected::Nothing, None) => none += 1,
                _ => panic!("{name}\n{}", case.text()),
            }
        }
    }
    assert!(found > 1_000 && none > 1_000, "{found} found, {none} without a suitable list");
}

/// What an end needs above the lowest head, and what the pipes from another end above it lose, by the given loss of a section.
fn asked(order: &Order, from: usize, end: usize, loss: &dyn Fn(usize) -> i128) -> i128 {
    let house = order.house;
    let own = &house.sections[end - 1];
    let path = house.paths[end - 1].iter().take_while(|at| **at != from);
    own.elevation + 1_000 + own.free + path.map(|at| loss(*at)).sum::<i128>()
}

#[test]
fn raised_needs_and_heads_of_use_are_the_greatest_over_the_ends_below() {
    let mut trim = Trim::default();
    let mut rows = 0;
    for (case, judged) in searched(4) {
        let order = judged.order();
        let tree = Tree::of(&order);
        assert_eq!(trim.trim(&tree), judged.number == 0, "{}", case.text());
        if judged.number == 16 {
            continue;
        }
        let least = |s: usize| {
            let losses = (1..=judged.cat.sizes.len()).filter_map(|t| Some(order.fitted(s, t)?.loss));
            losses.min().expect("a size serves")
        };
        let most = |s: usize| trim.fits(s).iter().map(|fit| fit.loss as i128).max().expect("a size is left");
        for from in 0..=judged.flows.len() {
            let below = |end: &usize| from == 0 || judged.house.below[from - 1].members().any(|at| at == *end);
            let ends: Vec<usize> = (1..=judged.flows.len()).filter(below).collect();
            let low = ends.iter().map(|end| asked(&order, from, *end, &least)).max().unwrap_or(0);
            let high = ends.iter().map(|end| asked(&order, from, *end, &most)).max().unwrap_or(0);
            assert_eq!(trim.lows[from] as i128, low.max(0), "{from}\n{}", case.text());
            assert_eq!(trim.highs[from] as i128, high.clamp(0, tree.head as i128), "{from}\n{}", case.text());
            rows += 1;
        }
    }
    assert!(rows > 1_000, "{rows} rows looked at");
}

#[test]
fn a_size_is_dropped_where_it_is_too_long_or_no_better() {
    let mut trim = Trim::default();
    let (mut long, mut poor, mut left) = (0, 0, 0);
    for (case, judged) in searched(5).filter(|(_, judged)| judged.number == 0) {
        let tree = Tree::of(&judged.order());
        assert!(trim.trim(&tree));
        for (part, own) in tree.parts.iter().zip(1..) {
            let kept = trim.fits(own);
            left += kept.len();
            let fine = |fit: &Fit| part.fits.contains(fit) && fit.loss + trim.lows[own] <= tree.head;
            assert!(kept.iter().all(fine), "section {own}\n{}", case.text());
            let better = |two: &[Fit]| two[1].loss < two[0].loss || two[1].cost < two[0].cost;
            assert!(kept.windows(2).all(better), "section {own}\n{}", case.text());
            for fit in part.fits.iter().filter(|fit| !kept.contains(fit)) {
                let too_long = fit.loss + trim.lows[own] > tree.head;
                let before = kept.iter().filter(|other| other.size < fit.size);
                let no_better = before.last().is_some_and(|last| last.loss <= fit.loss && last.cost <= fit.cost);
                assert!(too_long || no_better, "section {own}, size {}\n{}", fit.size, case.text());
                long += usize::from(too_long);
                poor += usize::from(no_better);
            }
        }
    }
    assert!(long > 100 && poor > 100 && left > 1_000, "{long} too long, {poor} no better, {left} left");
}
