//! The library against the independent model on generated cases.

use office::case::{Buffer, Call, Case};
use office::{Mismatch, replay, soak};

#[test]
fn library_and_model_agree() {
    let mut told = Vec::new();
    let counters = soak(120_000, 1, &mut |done| told.push(done)).unwrap_or_else(|mismatch| panic!("{mismatch}"));
    println!("{counters}");
    assert_eq!(counters.cases, 120_000);
    assert_eq!(told.last(), Some(&120_000));
    let rare = counters.rarer_than(10);
    assert!(rare.is_empty(), "the generated cases are too dull:\n{}", rare.join("\n"));
}

#[test]
fn a_case_is_the_same_each_time() {
    for index in 0..200 {
        assert_eq!(office::generate::case(7, index), office::generate::case(7, index));
    }
    assert_ne!(office::generate::case(7, 0), office::generate::case(8, 0));
}

#[test]
fn every_case_can_be_replayed() {
    for index in 0..2_000 {
        let case = office::generate::case(2, index);
        let text = Mismatch { case: Box::new(case.clone()), what: "a remark".to_string() }.file();
        assert_eq!(Case::parse(&text), Ok(case));
        replay(&text).unwrap_or_else(|what| panic!("{what}\n{text}"));
    }
}

#[test]
fn replaying_says_what_came_out() {
    let short = Case {
        call: Call::Flow,
        job: vec![1, 2, 3],
        meters: Vec::new(),
        losses: Vec::new(),
        cat: Vec::new(),
        sizes: Vec::new(),
        t: 0,
        loss: 0,
        work: Buffer::default(),
        out: Buffer { length: 4, pattern: vec![9] },
    };
    assert_eq!(replay(&short.text()).as_deref(), Ok("flow: library and model agree: number 1, result []"));
    let calls = "line 1: the calls are flow, duty, meter, losses, heads, rate, choose, heat and copy";
    assert_eq!(replay("call walk"), Err(calls.to_string()));
}
