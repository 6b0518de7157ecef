//! Wrong programs of document 02's requests L4 and L6, which the generated cases must tell from the papers' one. Each differs from the
//! model in one thing. If no case showed it, the comparison with the library would let such a library pass.

use office::case::{Call, Case};
use office::generate;
use office::model::bytes::{put, up};
use office::model::catalogue::{Reading, Row};
use office::model::demand::Demand;
use office::model::faults::{Faults, LAST};
use office::model::heat::{Asked, MOST_LOSS, MOST_T};
use office::model::house::{House, SERVICE};
use office::model::norms::{self, COLD, HOT, Norm, TOTAL};
use office::model::{Expected, Judged, alpha, judge, order_of};

/// A number, and the bytes of a result.
type Answer = (u32, Vec<u8>);

/// What a program answers to a case, as the model judges it; none where the case is not its business.
type Program = fn(&Case, &Judged) -> Option<Answer>;

/// The model's answer. Of a list that was chosen the cost alone: which of the cheapest it is, is free.
fn right(judged: &Judged) -> Answer {
    let result = match &judged.result {
        Expected::Nothing => Vec::new(),
        Expected::Bytes(bytes) => bytes.clone(),
        Expected::Headed(heads) => heads.bytes(),
        Expected::Rated(rating) => rating.bytes(),
        Expected::Chosen { cost, .. } => numbers(&[*cost]),
    };
    (judged.number, result)
}

fn numbers(all: &[i128]) -> Vec<u8> {
    let mut bytes = Vec::new();
    all.iter().for_each(|number| put(&mut bytes, *number, 4));
    bytes
}

/// Watts of this many l/h, as document 02 has the formula.
fn watts(litres: i128, degrees: i128) -> i128 {
    up(116 * litres * degrees, 100)
}

/// The heat call with these two figures, of mean hour, greatest hour, temperature and loss.
fn heat(case: &Case, judged: &Judged, figures: fn(i128, i128, Asked) -> [i128; 2]) -> Option<Answer> {
    let demand = &judged.demand;
    let given = || numbers(&figures(demand.mean_hour(), demand.hour(), Asked::of(case.t, case.loss)));
    (case.call == Call::Heat && judged.number == 0).then(|| (0, given()))
}

/// The heat call that looks for its refusals in this order.
fn heat_in_order(case: &Case, judged: &Judged, order: &[u32]) -> Option<Answer> {
    let number = judged.faults.first(order);
    (case.call == Call::Heat).then(|| (number, if number == 0 { right(judged).1 } else { Vec::new() }))
}

/// Any call for which this refusal applies on another condition.
fn refusing(case: &Case, judged: &Judged, number: u32, applies: bool) -> Option<Answer> {
    let mut faults = Faults::default();
    (1..=LAST).for_each(|own| faults.note(own, if own == number { applies } else { judged.faults.has(own) }));
    let first = faults.first(order_of(case.call));
    Some((first, if first == 0 { right(judged).1 } else { Vec::new() }))
}

/// The model's answer to the case with another job.
fn with_job(case: &Case, change: impl Fn(&mut Vec<u8>)) -> Option<Answer> {
    let mut other = case.clone();
    change(&mut other.job);
    Some(right(&judge(&other)))
}

/// The duty by other norms, given by service and kind: the house's shares, α at their sum where Table 2 has it, and one tap.
fn duty(case: &Case, judged: &Judged, norm: fn(i128, usize) -> Norm) -> Option<Answer> {
    (case.call == Call::Duty && judged.number == 0).then_some(())?;
    let house = &judged.house;
    let with = (1..=12).filter(|kind| house.fixtures(*kind) > 0).map(|kind| (norm(house.service, kind), kind));
    let share =
        |(norm, kind): (Norm, usize)| (up(25_000 * norm.hour * house.residents[kind], 9 * norm.fixture), norm.fixture);
    let shares: Vec<(i128, i128)> = with.map(share).collect();
    let m: i128 = shares.iter().map(|(share, _)| share).sum();
    let weighted: i128 = shares.iter().map(|(share, fixture)| share * fixture).sum();
    let tap = shares.iter().map(|(_, fixture)| 10 * fixture).max()?;
    (m <= 400_000_000).then(|| (0, numbers(&[up(weighted * alpha::alpha(m), 20_000 * m).max(tap)])))
}

/// Day and mean hour of the flow call by other norms.
fn day(case: &Case, judged: &Judged, norm: fn(i128, usize) -> Norm) -> Option<Answer> {
    let house = &judged.house;
    let given = || {
        let day: i128 = (1..=12).map(|kind| norm(house.service, kind).day * house.residents[kind]).sum();
        let mut bytes = right(judged).1;
        bytes[4..12].copy_from_slice(&numbers(&[day, up(day, house.hours)]));
        bytes
    };
    (case.call == Call::Flow && judged.number == 0).then(|| (0, given()))
}

/// What is read at a flow that is under the first of these two rows, which are a size's first.
type SmallReading = fn(i128, [&Row; 2]) -> Reading;

/// The losses call that reads flows under the first row so.
fn losses(case: &Case, judged: &Judged, small: SmallReading) -> Option<Answer> {
    (case.call == Call::Losses && [0, 13].contains(&judged.number)).then_some(())?;
    let house = &judged.house;
    let mut bytes = Vec::new();
    for ((flow, t), section) in judged.flows.iter().zip(&case.sizes).zip(&house.sections) {
        let size = &judged.cat.sizes[usize::from(*t) - 1];
        let rows = [&size.rows[0], &size.rows[1]];
        let read = if *flow < rows[0].flow { Some(small(*flow, rows)) } else { size.read(*flow) };
        let Some(reading) = read.filter(|reading| reading.velocity <= house.limit) else {
            return Some((13, Vec::new()));
        };
        put(&mut bytes, *flow, 4);
        put(&mut bytes, reading.velocity, 2);
        put(&mut bytes, up(reading.slope * section.length * (10 + house.k), 1_000), 4);
    }
    Some((0, bytes))
}

/// The part of a first row's value that a flow has, up.
fn part(flow: i128, first: &Row, value: i128) -> i128 {
    up(flow * value, first.flow)
}

/// The value under a first row on the line through two rows, up, or 0 where that falls below it.
fn carried_on(flow: i128, [first, second]: [&Row; 2], value: fn(&Row) -> i128) -> i128 {
    let fall = (value(second) - value(first)) * (first.flow - flow) / (second.flow - first.flow);
    (value(first) - fall).max(0)
}

fn is_two(case: &Case) -> bool {
    case.job.get(4) == Some(&2)
}

/// Right ones, by the same means: what a wrong one differs in is what it is named after.
const RIGHT: [(&str, Program); 7] = [
    ("heat", |case, judged| heat(case, judged, |mean, hour, of| [mean, hour].map(|l| watts(l, 55 - of.t) + of.loss))),
    ("heat's order", |case, judged| heat_in_order(case, judged, &[1, 2, 3, 4, 5, 6, 7, 8, 9, 20, 21, 14])),
    ("refusals", |case, judged| refusing(case, judged, 4, case.job.len() != judged.house.record_bytes())),
    ("the job as it is", |case, _| with_job(case, |_| ())),
    ("duty", |case, judged| duty(case, judged, norms::of)),
    ("day", |case, judged| day(case, judged, norms::of)),
    ("small flows", |case, judged| {
        losses(case, judged, |flow, [first, _]| Reading {
            velocity: part(flow, first, first.velocity),
            slope: part(flow, first, first.slope),
        })
    }),
];

const WRONG_HEATS: [(&str, Program); 14] = [
    ("45 less t", |case, judged| {
        heat(case, judged, |mean, hour, of| [mean, hour].map(|l| watts(l, 45 - of.t) + of.loss))
    }),
    ("the greatest hour first", |case, judged| {
        heat(case, judged, |mean, hour, of| [hour, mean].map(|l| watts(l, 55 - of.t) + of.loss))
    }),
    ("rounded down", |case, judged| {
        heat(case, judged, |mean, hour, of| [mean, hour].map(|l| 116 * l * (55 - of.t) / 100 + of.loss))
    }),
    ("the loss twice", |case, judged| {
        heat(case, judged, |mean, hour, of| [mean, hour].map(|l| watts(l, 55 - of.t) + 2 * of.loss))
    }),
    ("the loss in the greatest hour alone", |case, judged| {
        heat(case, judged, |mean, hour, of| [watts(mean, 55 - of.t), watts(hour, 55 - of.t) + of.loss])
    }),
    ("the mean hour twice", |case, judged| heat(case, judged, |mean, _, of| [watts(mean, 55 - of.t) + of.loss; 2])),
    ("the mean hour without rounding", |case, judged| {
        let (number, mut bytes) = heat(case, judged, |mean, hour, of| [mean, hour].map(|l| of.watts(l)))?;
        let degrees = 55 - i128::from(case.t);
        let exact = up(116 * judged.demand.day * degrees, 100 * judged.house.hours) + i128::from(case.loss);
        bytes[..4].copy_from_slice(&numbers(&[exact]));
        Some((number, bytes))
    }),
    ("the norms of all the water", |case, judged| {
        (case.call == Call::Heat && judged.number == 0).then_some(())?;
        let mut job = case.job.clone();
        job[SERVICE] = TOTAL as u8;
        let all = Demand::of(&House::of(&job));
        (!all.faults().any()).then(|| (0, Asked::of(case.t, case.loss).bytes(&all)))
    }),
    ("14 before 20", |case, judged| heat_in_order(case, judged, &[1, 2, 3, 4, 5, 6, 7, 8, 9, 14, 20, 21])),
    ("14 before 21", |case, judged| heat_in_order(case, judged, &[1, 2, 3, 4, 5, 6, 7, 8, 9, 20, 14, 21])),
    ("21 before 20", |case, judged| heat_in_order(case, judged, &[1, 2, 3, 4, 5, 6, 7, 8, 9, 21, 20, 14])),
    ("20 before 9", |case, judged| heat_in_order(case, judged, &[1, 2, 3, 4, 5, 6, 7, 8, 20, 9, 21, 14])),
    ("30 °C refused", |case, judged| {
        let over = i128::from(case.t) >= MOST_T || i128::from(case.loss) > MOST_LOSS;
        (case.call == Call::Heat).then(|| refusing(case, judged, 21, over))?
    }),
    ("1,000,000 W refused", |case, judged| {
        let over = i128::from(case.t) > MOST_T || i128::from(case.loss) >= MOST_LOSS;
        (case.call == Call::Heat).then(|| refusing(case, judged, 21, over))?
    }),
];

const WRONG_NORMS: [(&str, Program); 6] = [
    ("cold as hot", |case, judged| {
        duty(case, judged, |service, kind| norms::of(if service == COLD { HOT } else { service }, kind))
    }),
    ("a line as all the water", |case, judged| duty(case, judged, |_, kind| norms::of(TOTAL, kind))),
    ("a line with Z of all the water", |case, judged| {
        duty(case, judged, |service, kind| Norm { fixture: norms::of(TOTAL, kind).fixture, ..norms::of(service, kind) })
    }),
    ("all the water with Z of a line", |case, judged| {
        duty(case, judged, |service, kind| Norm { fixture: norms::of(HOT, kind).fixture, ..norms::of(service, kind) })
    }),
    ("the cold day as hot", |case, judged| {
        day(case, judged, |service, kind| norms::of(if service == COLD { HOT } else { service }, kind))
    }),
    ("hot and cold days swapped", |case, judged| {
        day(case, judged, |service, kind| norms::of(if service == TOTAL { TOTAL } else { COLD + HOT - service }, kind))
    }),
];

const WRONG_LAYOUTS: [(&str, Program); 11] = [
    ("service from 41", |case, _| {
        with_job(case, |job| {
            if job.len() > SERVICE + 1 && job[4] == 2 {
                job[SERVICE] = job[SERVICE + 1];
            }
        })
    }),
    ("sections of version 2 from 40", |case, _| {
        with_job(case, |job| {
            if job.len() > SERVICE + 10 && job[4] == 2 {
                let (service, end) = (job[SERVICE], job.len());
                job.copy_within(SERVICE..end - 1, SERVICE + 1);
                job[SERVICE] = service;
            }
        })
    }),
    ("40 + 10 S for version 2", |case, judged| {
        let wrong = case.job.len() != 40 + 10 * judged.house.sections.len();
        is_two(case).then(|| refusing(case, judged, 4, wrong))?
    }),
    ("41 + 10 S for version 1", |case, judged| {
        let wrong = case.job.len() != 41 + 10 * judged.house.sections.len();
        (!is_two(case)).then(|| refusing(case, judged, 4, wrong))?
    }),
    ("the service judged in version 1", |case, judged| {
        let over = case.job.get(SERVICE).is_some_and(|byte| *byte > 2);
        refusing(case, judged, 3, judged.faults.has(3) || over)
    }),
    ("the service not judged", |case, judged| refusing(case, judged, 3, !judged.house.head_in_range())),
    ("a service that is missing gives 3", |case, judged| {
        refusing(case, judged, 3, judged.faults.has(3) || is_two(case) && case.job.len() == SERVICE)
    }),
    ("version 2 refused", |case, judged| refusing(case, judged, 2, judged.house.version != 1)),
    ("version 3 taken", |case, judged| refusing(case, judged, 2, ![1, 2, 3].contains(&judged.house.version))),
    ("version 1 written for 2", |case, judged| {
        let mut answer = (case.call == Call::Copy).then(|| right(judged))?;
        answer.1.iter_mut().skip(4).take(1).for_each(|version| *version = 1);
        Some(answer)
    }),
    ("the service lost", |case, judged| {
        let mut answer = (case.call == Call::Copy && judged.house.version == 2).then(|| right(judged))?;
        answer.1.iter_mut().skip(SERVICE).take(1).for_each(|service| *service = 0);
        Some(answer)
    }),
];

const WRONG_READINGS: [(&str, Program); 9] = [
    ("the whole first row", |case, judged| {
        losses(case, judged, |_, [first, _]| Reading { velocity: first.velocity, slope: first.slope })
    }),
    ("the first row's velocity", |case, judged| {
        losses(case, judged, |flow, [first, _]| Reading {
            velocity: first.velocity,
            slope: part(flow, first, first.slope),
        })
    }),
    ("the first row's slope", |case, judged| {
        losses(case, judged, |flow, [first, _]| Reading {
            velocity: part(flow, first, first.velocity),
            slope: first.slope,
        })
    }),
    ("velocity and slope rounded down", |case, judged| {
        losses(case, judged, |flow, [first, _]| Reading {
            velocity: flow * first.velocity / first.flow,
            slope: flow * first.slope / first.flow,
        })
    }),
    ("the velocity alone rounded down", |case, judged| {
        losses(case, judged, |flow, [first, _]| Reading {
            velocity: flow * first.velocity / first.flow,
            slope: part(flow, first, first.slope),
        })
    }),
    ("the slope rounded down", |case, judged| {
        losses(case, judged, |flow, [first, _]| Reading {
            velocity: part(flow, first, first.velocity),
            slope: flow * first.slope / first.flow,
        })
    }),
    ("the slope by the velocity's ratio", |case, judged| {
        losses(case, judged, |flow, [first, _]| {
            let velocity = part(flow, first, first.velocity);
            Reading { velocity, slope: up(velocity * first.slope, first.velocity) }
        })
    }),
    ("the slope by the square of the flows", |case, judged| {
        losses(case, judged, |flow, [first, _]| Reading {
            velocity: part(flow, first, first.velocity),
            slope: up(flow * flow * first.slope, first.flow * first.flow),
        })
    }),
    ("the line through the first two rows carried on below the first", |case, judged| {
        losses(case, judged, |flow, rows| Reading {
            velocity: carried_on(flow, rows, |row| row.velocity),
            slope: carried_on(flow, rows, |row| row.slope),
        })
    }),
];

/// On how many of these cases a program answers otherwise than the model.
fn differences(cases: &[(Case, Judged)], program: Program) -> usize {
    let differs =
        |(case, judged): &&(Case, Judged)| program(case, judged).is_some_and(|answer| answer != right(judged));
    cases.iter().filter(differs).count()
}

#[test]
fn the_generated_cases_tell_wrong_programs() {
    let cases: Vec<(Case, Judged)> = (0..24_000)
        .map(|index| generate::case(1, index))
        .map(|case| (judge(&case), case))
        .map(|(j, c)| (c, j))
        .collect();
    for (name, program) in RIGHT {
        assert_eq!(differences(&cases, program), 0, "{name}, which is right");
        assert!(cases.iter().any(|(case, judged)| program(case, judged).is_some()), "{name} is never asked");
    }
    let mut unseen = Vec::new();
    for (name, program) in WRONG_HEATS.iter().chain(&WRONG_NORMS).chain(&WRONG_LAYOUTS).chain(&WRONG_READINGS) {
        let seen = differences(&cases, *program);
        println!("{seen:6} {name}");
        if seen < 10 {
            unseen.push(format!("{name}: {seen}"));
        }
    }
    assert!(unseen.is_empty(), "wrong programs that the cases hardly tell: {unseen:?}");
}
