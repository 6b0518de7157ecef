//! The library against the model, case by case.

use crate::case::{Buffer, Call, Case};
use crate::ffi;
use crate::generate;
use crate::model::house::SERVICE;
use crate::model::{self, Expected, Judged, brute, judge, norms};
pub use crate::situations::{Counters, Situation};
use std::fmt;

/// A case on which library and model disagree.
#[derive(Clone, Debug)]
pub struct Mismatch {
    pub case: Box<Case>,
    pub what: String,
}

impl Mismatch {
    /// The case as a file that `replay` takes.
    pub fn file(&self) -> String {
        format!("# {}\n{}", self.what, self.case.text())
    }
}

impl fmt::Display for Mismatch {
    fn fmt(&self, f: &mut fmt::Formatter) -> fmt::Result {
        write!(f, "library and model disagree; the case, to be replayed:\n{}", self.file())
    }
}

impl std::error::Error for Mismatch {}

/// Brute force is tried where there are at most so many lists.
const MOST_LISTS: u64 = 1_500;

/// Runs this many generated cases. `progress` is told how many are done, now and then and at the end.
pub fn soak(cases: u64, seed: u64, progress: &mut dyn FnMut(u64)) -> Result<Counters, Mismatch> {
    let mut counters = Counters::default();
    for index in 0..cases {
        let case = generate::case(seed, index);
        let judged = judge(&case);
        let checked = agree(&case, &judged).and_then(|_| try_more(&case, &judged, &mut counters));
        if let Err(what) = checked {
            return Err(Mismatch { case: Box::new(case), what: format!("seed {seed}, index {index}: {what}") });
        }
        counters.note(&case, &judged);
        if (index + 1) % 10_000 == 0 || index + 1 == cases {
            progress(index + 1);
        }
    }
    Ok(counters)
}

/// Runs the case of a file again and says what both give; an error where the file is no case or they disagree.
pub fn replay(text: &str) -> Result<String, String> {
    let case = Case::parse(text)?;
    let judged = judge(&case);
    let given = agree(&case, &judged).and_then(|given| {
        try_more(&case, &judged, &mut Counters::default())?;
        Ok(given)
    });
    match given {
        Ok(given) => Ok(format!("{}: library and model agree: {given}", case.call.name())),
        Err(what) => Err(format!("{}: {what}", case.call.name())),
    }
}

/// A buffer with bytes before and after it that nobody may touch.
struct Fenced {
    bytes: Vec<u8>,
    fence: usize,
    length: usize,
}

const FENCE_BYTE: u8 = 0xc3;

impl Fenced {
    fn of(buffer: &Buffer) -> Fenced {
        // Fences of several lengths, so that buffers start at odd addresses too.
        let fence = 60 + buffer.pattern.len() % 4;
        let mut bytes = Vec::with_capacity(buffer.length + 2 * fence);
        bytes.resize(fence, FENCE_BYTE);
        buffer.fill(&mut bytes);
        bytes.resize(fence + buffer.length + fence, FENCE_BYTE);
        Fenced { bytes, fence, length: buffer.length }
    }

    fn lent(&mut self) -> &mut [u8] {
        &mut self.bytes[self.fence..self.fence + self.length]
    }

    fn fences_stand(&self) -> bool {
        let (before, rest) = self.bytes.split_at(self.fence);
        before.iter().chain(&rest[self.length..]).all(|byte| *byte == FENCE_BYTE)
    }
}

/// Calls the library and holds everything it did against the model. Gives what the library gave, in words.
fn agree(case: &Case, judged: &Judged) -> Result<String, String> {
    let before = case.clone();
    let (mut out, mut work) = (Fenced::of(&case.out), Fenced::of(&case.work));
    let number = call(case, out.lent(), work.lent());
    if number != judged.number {
        return Err(format!("the library gives {number}, the model {}", judged.number));
    }
    if *case != before {
        return Err("the library changed what it was lent to read".to_string());
    }
    if !out.fences_stand() || !work.fences_stand() {
        return Err("the library wrote outside of a buffer".to_string());
    }
    let given = out.lent();
    let expected = expected_result(case, judged, given)?;
    if given != expected {
        let place = given.iter().zip(&expected).position(|(given, expected)| given != expected).unwrap_or(0);
        let (given, expected) = (given[place], expected[place]);
        return Err(format!("number {number}: result byte {place} is {given:02x}, the model has {expected:02x}"));
    }
    // After a result and after 16 the workspace is free.
    if ![0, 16].contains(&number) {
        let mut expected = Vec::new();
        case.work.fill(&mut expected);
        if work.lent() != expected {
            return Err(format!("the workspace was changed before {number}"));
        }
    }
    let result = if number == 0 { &given[..model::result_bytes(case.call, &judged.house)] } else { &[] };
    Ok(format!("number {number}, result {result:?}"))
}

/// The library's number for a case.
fn call(case: &Case, out: &mut [u8], work: &mut [u8]) -> u32 {
    match case.call {
        Call::Copy => ffi::copy(&case.job, out),
        Call::Flow => ffi::flow(&case.job, out),
        Call::Duty => ffi::duty(&case.job, out),
        Call::Meter => ffi::meter(&case.job, &case.meters, out),
        Call::Losses => ffi::losses(&case.job, &case.cat, &case.sizes, out),
        Call::Heads => ffi::heads(&case.job, &case.losses, out),
        Call::Rate => ffi::rate(&case.job, &case.cat, &case.sizes, out),
        Call::Choose => ffi::choose(&case.job, &case.cat, work, out),
        Call::Heat => ffi::heat(&case.job, case.t, case.loss, out),
    }
}

/// The result buffer as the model has it. A list that choosing gave stands there itself once it is found good.
fn expected_result(case: &Case, judged: &Judged, given: &[u8]) -> Result<Vec<u8>, String> {
    let mut expected = Vec::new();
    case.out.fill(&mut expected);
    match &judged.result {
        Expected::Nothing => {}
        Expected::Bytes(bytes) => expected[..bytes.len()].copy_from_slice(bytes),
        Expected::Headed(heads) => expected[..9].copy_from_slice(&heads.bytes()),
        Expected::Rated(rating) => expected[..9 + 6 * judged.flows.len()].copy_from_slice(&rating.bytes()),
        Expected::Chosen { cost, .. } => {
            let result = &given[..4 + judged.flows.len()];
            chosen_well(judged, *cost, result)?;
            expected[..result.len()].copy_from_slice(result);
        }
    }
    Ok(expected)
}

/// The cost is the least, and the list, which may be any of the cheapest, suits at that cost.
fn chosen_well(judged: &Judged, least: i128, result: &[u8]) -> Result<(), String> {
    let order = judged.order();
    let (cost, list) = (model::bytes::number(result, 0, 4), &result[4..]);
    if cost != least {
        return Err(format!("the library's cost is {cost}, the least is {least}"));
    }
    if !order.suits(list) {
        return Err(format!("the library's list {list:?} does not suit"));
    }
    if order.cost(list) != cost {
        return Err(format!("the library's list {list:?} costs {}, not {cost}", order.cost(list)));
    }
    Ok(())
}

/// What is tried beside the case itself.
fn try_more(case: &Case, judged: &Judged, counters: &mut Counters) -> Result<(), String> {
    if let Some(twin) = twin(case) {
        counters.note_twin(as_its_twin(case, &twin, judged)?);
    }
    match case.call {
        Call::Losses | Call::Rate => counters.note_in_turn(in_turn(case)?),
        Call::Choose => try_all(judged, counters)?,
        _ => {}
    }
    Ok(())
}

/// The case with the job in version 2, where it is in version 1: the same fields and service 0, a byte longer, and stated so. The
/// result buffer has a byte more where the result has the record. None where the job ends before its sections.
fn twin(case: &Case) -> Option<Case> {
    if case.job.len() < SERVICE || case.job[4] != 1 {
        return None;
    }
    let mut twin = case.clone();
    twin.job.insert(SERVICE, norms::TOTAL as u8);
    twin.job[4] = 2;
    let stated = u32::from_be_bytes([case.job[0], case.job[1], case.job[2], case.job[3]]);
    twin.job[..4].copy_from_slice(&stated.wrapping_add(1).to_be_bytes());
    twin.out.length += usize::from(matches!(case.call, Call::Copy | Call::Meter));
    Some(twin)
}

/// Document 02's L4, through the library: version 1 means what version 2 with service 0 means. Both get the same number, and a result
/// has the same figures: of choosing the same cost, and where it has the record, the place and the record that was lent. Gives
/// the number.
fn as_its_twin(case: &Case, twin: &Case, judged: &Judged) -> Result<u32, String> {
    let given = |case: &Case| {
        let (mut out, mut work) = (Vec::new(), Vec::new());
        case.out.fill(&mut out);
        case.work.fill(&mut work);
        (call(case, &mut out, &mut work), out)
    };
    let ((number, own), (other, of_twin)) = (given(case), given(twin));
    if number != other {
        return Err(format!("the library gives {number} for version 1 and {other} for version 2 with service 0"));
    }
    let same = match case.call {
        _ if number != 0 => of_twin.starts_with(&own),
        Call::Choose => {
            chosen_well(judged, model::bytes::number(&own, 0, 4), &of_twin[..4 + judged.flows.len()]).is_ok()
        }
        Call::Copy => of_twin[..twin.job.len()] == twin.job,
        Call::Meter => {
            let record = [&twin.job[..8], &own[9..11], &twin.job[10..]].concat();
            of_twin[0] == own[0] && of_twin[1..=record.len()] == record
        }
        _ => of_twin == own,
    };
    if same { Ok(number) } else { Err("version 1 and version 2 with service 0 give different results".to_string()) }
}

/// No result is longer, nor would be that of a record which states 255 sections.
const AMPLE: usize = 2_600;

/// Document 02's L3, through the library: with enough space for each the losses call and then the heads call, which takes the
/// losses that the first gave, give the figures or the number of rating. Gives that number.
fn in_turn(case: &Case) -> Result<u32, String> {
    let Case { job, cat, sizes, .. } = case;
    let (mut rating, mut first, mut second) = ([0; AMPLE], [0; AMPLE], [0; AMPLE]);
    let number = ffi::rate(job, cat, sizes, &mut rating);
    let of_first = ffi::losses(job, cat, sizes, &mut first);
    if number != of_first {
        return Err(format!("with enough space rating gives {number}, the losses call {of_first}"));
    }
    if number != 0 {
        return Ok(number);
    }
    let sections = usize::from(job[6]);
    let losses: Vec<u8> = first[..10 * sections].chunks(10).flat_map(|ten| &ten[6..]).copied().collect();
    let of_second = ffi::heads(job, &losses, &mut second);
    if of_second != 0 {
        return Err(format!("rating and the losses call give 0, the heads call with those losses {of_second}"));
    }
    let parts = first[..10 * sections].chunks(10).flat_map(|ten| &ten[4..]);
    let figures: Vec<u8> = second[..9].iter().chain(parts).copied().collect();
    if figures != rating[..9 + 6 * sections] {
        return Err(format!("the two calls in turn give {figures:?}, rating {:?}", &rating[..9 + 6 * sections]));
    }
    Ok(0)
}

/// The model's own search held against brute force, where there are few lists.
fn try_all(judged: &Judged, counters: &mut Counters) -> Result<(), String> {
    if ![0, 16].contains(&judged.number) {
        return Ok(());
    }
    let order = judged.order();
    let found = match &judged.result {
        Expected::Chosen { cost, list } if order.suits(list) && order.cost(list) == *cost => Some(*cost),
        Expected::Chosen { list, .. } => return Err(format!("the model's own list {list:?} is wrong")),
        _ => None,
    };
    if brute::lists(&order, MOST_LISTS).is_some() {
        let tried = brute::least(&order);
        if tried.map(|(cost, _)| cost) != found {
            return Err(format!("in the model brute force gives {tried:?}, fronts {found:?}"));
        }
        counters.note_tried(tried.map(|(_, ways)| ways));
    }
    Ok(())
}

#[cfg(test)]
mod tests {
    use super::*;

    /// Document 01's own case with the larger size, which alone serves all its water.
    fn own(call: Call) -> Case {
        let text = "job 0000003201030118003201f404b005dc0000000000000000000000000047\n\
            job 00000000000000000000000700500064025800c8\nmeters 01 1388 02e4\nlosses 00000047\nsizes 02\n\
            cat 0000002f0102020028038400 0003e803200028 00000bb80960012c 00320514000003e801f4000c00000bb805dc005a\n\
            work 17608\nout 60 a5\n";
        Case::parse(&format!("call {}\n{text}", call.name())).expect("a case")
    }

    #[test]
    fn the_same_job_in_version_2() {
        let case = own(Call::Copy);
        let other = twin(&case).expect("a record of version 1");
        assert_eq!(other.job[..5], [0, 0, 0, 51, 2]);
        assert_eq!((&other.job[5..40], other.job[40], &other.job[41..]), (&case.job[5..40], 0, &case.job[40..]));
        assert_eq!((other.out.length, other.work.length), (61, 17_608));
        assert_eq!(twin(&own(Call::Flow)).map(|other| other.out.length), Some(60));
        assert_eq!(twin(&other), None, "version 2");
        for bytes in [0, 4, 39] {
            assert_eq!(twin(&Case { job: case.job[..bytes].to_vec(), ..case.clone() }), None, "{bytes} bytes");
        }
    }

    /// Of each call: the twin's answer is the case's own, and that of the cold line, or of a buffer that is short, is not.
    #[test]
    fn a_difference_between_the_versions_is_seen() {
        for call in Call::ALL {
            let case = own(call);
            let (judged, right) = (judge(&case), twin(&case).expect("a record of version 1"));
            let number = if call == Call::Heat { 20 } else { 0 };
            assert_eq!(as_its_twin(&case, &right, &judged), Ok(number), "{}", call.name());
            let mut cold = right.clone();
            cold.job[SERVICE] = 1;
            let by_norms = !matches!(call, Call::Copy | Call::Heads | Call::Heat);
            assert_eq!(as_its_twin(&case, &cold, &judged).is_err(), by_norms, "{} of the cold line", call.name());
            let short = Case { out: Buffer::default(), ..right };
            assert!(as_its_twin(&case, &short, &judged).is_err(), "{} of no room", call.name());
        }
    }
}
