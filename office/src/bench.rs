//! The library against its rivals, on the same inputs and in one run: flow, meter, rating in one call and in two, choosing and heat of
//! the independent model, and searches in safe Rust. Nobody clears a buffer between calls. Ratios are the library's time over
//! the rival's, taken round by round with the sides in turn, so that a slow moment of the machine falls on all of them.

mod growth;
mod houses;
mod timing;

use crate::case::{Buffer, Call, Case};
use crate::ffi;
use crate::model::house::House;
use crate::model::{Expected, judge, result_bytes, work_bytes};
use crate::rivals::dense::{Dense, Form};
use crate::rivals::fronts::Fronts;
use crate::rivals::ranges::Ranges;
use crate::rivals::tree::{Found, Tree};
use houses::{Pipes, catalogue, hot_line, house, losses, meters, raise_rows};
use std::fmt::Write;
use std::hint::black_box;
use timing::{Side, Spread, micros, race};

/// Runs everything and gives the tables as text.
pub fn bench() -> String {
    let mut text = String::new();
    let _ = writeln!(
        text,
        "choosing: library's whole call against searches alone and the model's call (12 sizes of 64 rows)\n{CHOOSING}"
    );
    for pipes in [Pipes::Real, Pipes::AllServe] {
        for sections in [8, 32, 63] {
            for head in [1_000, 3_000, 6_000] {
                text += &choosing(&Load { sections, head, sizes: 12, pipes });
            }
        }
    }
    for pipes in [Pipes::WorstChain, Pipes::WorstBinary] {
        for sections in [32, 63] {
            text += &choosing(&Load { sections, head: 6_000, sizes: 12, pipes });
        }
    }
    let _ = writeln!(
        text,
        "\nflow, meter, rating and its two calls, heat: library against the model (8 meters, 12 sizes of 64 rows)\n{OTHERS}"
    );
    for sections in [8, 32, 63] {
        OTHER_CALLS.into_iter().for_each(|(call, on)| text += &other(call, on, sections));
    }
    text + &growth::table()
}

const CHOOSING: &str = "\
|pipes|S|H|library µs|over dense, cell by cell|over dense, row by row|over dense, row by row, sizes dropped|over model (fronts)|over fronts, sizes dropped|
|-|-|-|-|-|-|-|-|-|";
const OTHERS: &str = "\
|call|S|library µs|over model|
|-|-|-|-|";

/// What another call than choosing is asked of.
#[derive(Clone, Copy, PartialEq, Eq)]
enum On {
    House,
    /// The same house in version 2 with service 2.
    HotLine,
    /// All sections in one line, so that no house of as many has longer ways to the pump.
    Chain,
    /// The house with every row of the table above every flow.
    SmallFlows,
}

impl On {
    fn words(self) -> &'static str {
        match self {
            On::House => "",
            On::HotLine => " of a hot line",
            On::Chain => " of a chain",
            On::SmallFlows => " of small flows",
        }
    }

    fn pipes(self) -> Pipes {
        match self {
            On::Chain => Pipes::WorstChain,
            _ => Pipes::AllServe,
        }
    }
}

/// The calls that are timed against the model alone, in the order of their lines, and on what.
const OTHER_CALLS: [(Call, On); 10] = [
    (Call::Flow, On::House),
    (Call::Flow, On::HotLine),
    (Call::Meter, On::House),
    (Call::Rate, On::House),
    (Call::Rate, On::Chain),
    (Call::Rate, On::SmallFlows),
    (Call::Losses, On::House),
    (Call::Heads, On::House),
    (Call::Heads, On::Chain),
    (Call::Heat, On::HotLine),
];

/// What a search is made to do.
struct Load {
    sections: usize,
    head: usize,
    sizes: usize,
    pipes: Pipes,
}

impl Load {
    fn case(&self) -> Case {
        let job = house(self.sections, self.head, self.pipes);
        let out = result_bytes(Call::Choose, &House::of(&job));
        Case {
            call: Call::Choose,
            job,
            meters: Vec::new(),
            losses: Vec::new(),
            cat: catalogue(self.sizes, 64, self.pipes),
            sizes: Vec::new(),
            t: 0,
            loss: 0,
            work: Buffer { length: work_bytes(self.sections, self.head), pattern: Vec::new() },
            out: Buffer { length: out, pattern: Vec::new() },
        }
    }
}

fn choosing(load: &Load) -> String {
    let case = load.case();
    let judged = judge(&case);
    let Expected::Chosen { cost, .. } = judged.result else { panic!("the benchmark's house has a suitable list") };
    let tree = &Tree::of(&judged.order());
    let (mut cells, mut rows) = (Dense::default(), Dense::default());
    let (mut ranges, mut fronts) = (Ranges::default(), Fronts::default());
    let mut cell_by_cell = side(cost, || cells.choose(black_box(tree), Form::CellByCell));
    let mut row_by_row = side(cost, || rows.choose(black_box(tree), Form::RowByRow));
    let mut dropped = side(cost, || ranges.choose(black_box(tree)));
    let mut dropped_fronts = side(cost, || fronts.choose(black_box(tree)));
    let (mut work, mut out) = (vec![0; case.work.length], vec![0; case.out.length]);
    ffi::choose(&case.job, &case.cat, &mut work, &mut out);
    assert_eq!(out[..4], (cost as u32).to_be_bytes(), "the library finds the same cost");
    let mut library = || {
        black_box(ffi::choose(black_box(&case.job), &case.cat, &mut work, &mut out));
    };
    let mut model = || drop(black_box(judge(black_box(&case))));
    let sides: &mut [Side] =
        &mut [&mut library, &mut cell_by_cell, &mut row_by_row, &mut dropped, &mut model, &mut dropped_fronts];
    let times = race(sides);
    let over = (1..times.len()).map(|rival| format!("{}|", Spread::of_ratios(&times[0], &times[rival])));
    let Load { sections, head, pipes, .. } = load;
    format!("|{pipes}|{sections}|{head}|{}|{}\n", micros(&times[0]), over.collect::<String>())
}

/// A rival's search, once it has found the least cost, without its result.
fn side(cost: i128, mut search: impl FnMut() -> Found) -> impl FnMut() {
    assert_eq!(search().map(|(cost, _)| i128::from(cost)), Some(cost), "the rivals find the same cost");
    move || drop(black_box(search()))
}

/// A case of another call than choosing. The model is given no catalogue to read where the call takes none.
fn other_case(call: Call, on: On, sections: usize) -> Case {
    let mut case = Load { sections, head: 3_000, sizes: 12, pipes: on.pipes() }.case();
    case.call = call;
    match on {
        On::HotLine => case.job = hot_line(&case.job),
        On::SmallFlows => raise_rows(&mut case.cat),
        On::House | On::Chain => {}
    }
    match call {
        Call::Flow => case.cat.clear(),
        Call::Meter => {
            case.cat.clear();
            case.meters = meters();
        }
        Call::Heads => {
            case.cat.clear();
            case.losses = losses(sections);
        }
        Call::Heat => {
            case.cat.clear();
            (case.t, case.loss) = (5, 1_200);
        }
        _ => case.sizes = (0..sections).map(|place| (place % 12) as u8 + 1).collect(),
    }
    case.out.length = result_bytes(call, &House::of(&case.job));
    case
}

/// The library's call of such a case.
fn lent(case: &Case, out: &mut [u8]) -> u32 {
    let job = black_box(&case.job);
    match case.call {
        Call::Flow => ffi::flow(job, out),
        Call::Meter => ffi::meter(job, &case.meters, out),
        Call::Losses => ffi::losses(job, &case.cat, &case.sizes, out),
        Call::Heads => ffi::heads(job, &case.losses, out),
        Call::Heat => ffi::heat(job, case.t, case.loss, out),
        _ => ffi::rate(job, &case.cat, &case.sizes, out),
    }
}

fn other(call: Call, on: On, sections: usize) -> String {
    let case = other_case(call, on, sections);
    let mut out = vec![0; case.out.length];
    let judged = judge(&case);
    assert_eq!(judged.number, 0, "the benchmark's house is accepted");
    let mut library = || {
        black_box(lent(&case, &mut out));
    };
    let mut model = || drop(black_box(judge(black_box(&case))));
    let sides: &mut [Side] = &mut [&mut library, &mut model];
    let times = race(sides);
    let (name, of) = (call.name(), on.words());
    format!("|{name}{of}|{sections}|{}|{}|\n", micros(&times[0]), Spread::of_ratios(&times[0], &times[1]))
}

#[cfg(test)]
mod tests {
    use super::*;
    use crate::rivals::trim::Trim;

    #[test]
    fn the_houses_have_suitable_lists() {
        for pipes in Pipes::ALL {
            for sections in 1..=63 {
                for head in [1_000, 6_000] {
                    let case = Load { sections, head, sizes: 12, pipes }.case();
                    assert_eq!(judge(&case).number, 0, "{pipes} {sections} {head}");
                }
            }
        }
    }

    /// What is timed is a result and no refusal, of the library as of the model.
    #[test]
    fn the_other_calls_give_results() {
        for (call, on) in OTHER_CALLS {
            for sections in [8, 32, 63] {
                let case = other_case(call, on, sections);
                let mut out = vec![0; case.out.length];
                assert_eq!((judge(&case).number, lent(&case, &mut out)), (0, 0), "{} {sections}", call.name());
                assert!(out.iter().any(|byte| *byte != 0), "{} {sections}", call.name());
            }
        }
    }

    #[test]
    fn small_flows_are_under_every_first_row() {
        for sections in [8, 32, 63] {
            let judged = judge(&other_case(Call::Rate, On::SmallFlows, sections));
            let order = judged.order();
            let first = order.cat.sizes.iter().map(|size| size.rows[0].flow).min();
            assert!(order.flows.iter().all(|flow| Some(*flow) < first), "{sections} sections");
        }
    }

    #[test]
    fn each_meter_loses_less_than_the_one_before() {
        for sections in [8, 32, 63] {
            let judged = judge(&other_case(Call::Meter, On::House, sections));
            let ranked = judged.meters.ranked(judged.demand.house_flow(), judged.demand.mean_hour());
            let places: Vec<usize> = ranked.iter().map(|(_, place)| *place).collect();
            assert_eq!(places, [8, 7, 6, 5, 4, 3, 2, 1], "{sections} sections: {ranked:?}");
        }
    }

    #[test]
    fn next_to_nothing_can_be_left_out_of_the_worst_chain() {
        let case = Load { sections: 63, head: 6_000, sizes: 12, pipes: Pipes::WorstChain }.case();
        let tree = Tree::of(&judge(&case).order());
        assert_eq!(tree.head, 7_000);
        assert!(tree.parts.iter().all(|part| part.need == 0));
        let mut trim = Trim::default();
        assert!(trim.trim(&tree));
        assert!((1..=63).all(|section| trim.fits(section).len() == 12));
        let cells: usize = (0..=63).map(|row| trim.cells(row)).sum();
        assert!(cells > 64 * 7_001 * 17 / 20, "{cells} cells");
    }
}
