//! The safe calls on document 01's own case.

use office::{Choice, Flow, Heads, Heat, Metered, Rated, Rating, Refusal, SectionLoss};
use office::{choose, copy, duty, flow, heads, heat, losses, meter, rate};

const JOB: [u8; 50] = [
    0, 0, 0, 50, 1, 3, 1, 24, 0, 50, 1, 0xf4, 4, 0xb0, 5, 0xdc, // length to limit
    0, 0, 0, 0, 0, 0, 0, 0, 0, 0, 0, 0, 0, 71, 0, 0, 0, 0, 0, 0, 0, 0, 0, 0, // 71 residents of kind 7
    0, 7, 0, 80, 0, 100, 2, 0x58, 0, 200,
];

const CATALOGUE: [u8; 47] = [
    0, 0, 0, 47, 1, 2, 2, // two sizes of two rows
    0, 40, 3, 0x84, 0, 0, 3, 0xe8, 3, 0x20, 0, 40, 0, 0, 0xb, 0xb8, 9, 0x60, 1, 0x2c, // bore 40
    0, 50, 5, 0x14, 0, 0, 3, 0xe8, 1, 0xf4, 0, 12, 0, 0, 0xb, 0xb8, 5, 0xdc, 0, 90, // bore 50
];

fn with_head(head: u16) -> [u8; 50] {
    let mut job = JOB;
    job[12..14].copy_from_slice(&head.to_be_bytes());
    job
}

/// The own case in version 2.
fn in_line(service: u8) -> Vec<u8> {
    let mut job = [&JOB[..40], &[service], &JOB[40..]].concat();
    (job[3], job[4]) = (51, 2);
    job
}

#[test]
fn flows_of_the_own_case() {
    assert_eq!(flow(&JOB), Ok(Flow { hour: 4542, day: 17750, mean_hour: 740, flows: vec![2052] }));
}

/// In a house of one section the house's flow is that section's. Where two hang on the pump it is less than their sum and
/// more than each.
#[test]
fn the_duty_of_the_own_case() {
    assert_eq!(duty(&JOB), Ok(2052));
    assert_eq!(duty(&JOB[..49]), Err(Refusal::JobLength));
    let mut two = [&JOB[..], &JOB[40..]].concat();
    (two[3], two[6]) = (60, 2);
    let flows = flow(&two).expect("accepted").flows;
    let house = duty(&two).expect("accepted");
    assert!(house > flows[0] && house > flows[1] && house < flows[0] + flows[1], "{house} {flows:?}");
    assert_eq!(house, 2052, "as many residents as the own case");
}

/// At 2,052 ml/s resistances 2 and 1 both lose 1 cm, and the first wins.
#[test]
fn the_meter_of_the_own_case() {
    let meters = [1, 0, 2, 2, 0xe4, 2, 0, 1, 2, 0xe4];
    let mut job = JOB;
    job[9] = 1;
    assert_eq!(meter(&JOB, &meters), Ok(Metered { place: 1, job: job.to_vec() }));
    assert_eq!(meter(&JOB, &[1, 0, 2, 2, 0xe3]), Err(Refusal::NoMeter), "739 l/h are under the mean hour of 740");
    assert_eq!(meter(&JOB, &meters[..9]), Err(Refusal::MeterList));
    assert_eq!(meter(&JOB, &[]), Err(Refusal::MeterList));
    assert_eq!(meter(&JOB[..49], &[]), Err(Refusal::JobLength));
    // The record that comes is taken by the other calls: 921 cm with a meter loss of 50 are 872 with 1.
    assert_eq!(rate(&job, &CATALOGUE, &[2]).map(|rating| rating.required), Ok(872));
    assert_eq!(choose(&job, &CATALOGUE), Ok(Choice { cost: 130_000, sizes: vec![2] }));
}

/// Document 001's appendix 6 from 20 to 100 mm, as far as five bytes hold it, at 2,052 ml/s: 0.5 m per (l/s) squared lose 2.105
/// m, and 7.66 ten-thousandths, here 8, lose 0.34 cm.
#[test]
fn the_meters_of_document_001() {
    let vane = [(51_800, 2_000), (26_400, 2_800), (13_000, 4_000), (5_000, 6_400)].map(|of| (1, of));
    let turbine = [(1_430, 12_000), (81, 17_000), (27, 36_000), (8, 65_000)].map(|of| (2, of));
    let bytes = |(design, (resistance, service)): &(u8, (u16, u16))| {
        [&[*design][..], &resistance.to_be_bytes(), &service.to_be_bytes()].concat()
    };
    let list: Vec<u8> = vane.iter().chain(&turbine).flat_map(bytes).collect();
    let given = |list: &[u8]| meter(&JOB, list).map(|won| (won.place, won.job[8], won.job[9]));
    assert_eq!(given(&list), Ok((8, 0, 1)));
    assert_eq!(given(&list[..25]), Ok((5, 0, 61)));
    assert_eq!(given(&list[..20]), Ok((4, 0, 211)));
    assert_eq!(given(&list[..15]), Err(Refusal::NoMeter));
}

#[test]
fn rating_of_the_own_case() {
    let sections = vec![Rated { velocity: 1026, loss: 71 }];
    assert_eq!(rate(&JOB, &CATALOGUE, &[2]), Ok(Rating { required: 921, pump: 421, dictating: 1, sections }));
    assert_eq!(rate(&JOB, &CATALOGUE, &[1]), Err(Refusal::SizeTooSmall));
    assert_eq!(rate(&JOB, &CATALOGUE, &[3]), Err(Refusal::SizeList));
    assert_eq!(rate(&JOB, &[], &[2]), Err(Refusal::CatalogueShape));
}

#[test]
fn losses_of_the_own_case() {
    let own = SectionLoss { flow: 2052, velocity: 1026, loss: 71 };
    assert_eq!(losses(&JOB, &CATALOGUE, &[2]), Ok(vec![own]));
    assert_eq!(losses(&JOB, &CATALOGUE, &[1]), Err(Refusal::SizeTooSmall));
    assert_eq!(losses(&JOB, &CATALOGUE, &[]), Err(Refusal::SizeList));
    assert_eq!(losses(&JOB, &CATALOGUE, &[3]), Err(Refusal::SizeList));
    assert_eq!(losses(&JOB, &CATALOGUE[..46], &[2]), Err(Refusal::CatalogueShape));
    assert_eq!(losses(&JOB[..49], &[], &[]), Err(Refusal::JobLength));
}

/// Meter loss 50, elevation 600, free head 200 and the loss; the guaranteed head is 500.
#[test]
fn heads_of_the_own_case() {
    let with = |loss: u32| heads(&JOB, &loss.to_be_bytes());
    assert_eq!(with(71), Ok(Heads { required: 921, pump: 421, dictating: 1 }));
    assert_eq!(with(0), Ok(Heads { required: 850, pump: 350, dictating: 1 }));
    assert_eq!(with(4_259_775), Ok(Heads { required: 4_260_625, pump: 4_260_125, dictating: 1 }));
    assert_eq!(with(4_259_776), Err(Refusal::LossList));
    for bytes in [0, 3, 5, 8] {
        assert_eq!(heads(&JOB, &vec![0; bytes]), Err(Refusal::LossList), "{bytes} bytes");
    }
    assert_eq!(heads(&JOB[..49], &[]), Err(Refusal::JobLength));
    // 10 m below the pump axis and without a meter nothing is needed of the pump.
    let mut low = JOB;
    low[9] = 0;
    low[46..48].copy_from_slice(&(-1_000_i16).to_be_bytes());
    low[48..50].copy_from_slice(&[0, 0]);
    assert_eq!(heads(&low, &[0; 4]), Ok(Heads { required: -1_000, pump: 0, dictating: 1 }));
}

/// Two sections at the pump: the second end asks for as much as the first with an equal loss, and for more with a greater one.
#[test]
fn a_given_loss_moves_the_dictating_section() {
    let mut two = [&JOB[..], &JOB[40..]].concat();
    (two[3], two[6]) = (60, 2);
    let with = |first: u32, second: u32| {
        heads(&two, &[first.to_be_bytes(), second.to_be_bytes()].concat())
            .map(|heads| (heads.required, heads.dictating))
    };
    assert_eq!((with(10, 10), with(10, 11), with(11, 10)), (Ok((860, 1)), Ok((861, 2)), Ok((861, 1))));
    // Behind the first it adds to it.
    two[50] = 1;
    let behind = heads(&two, &[10_u32.to_be_bytes(), 11_u32.to_be_bytes()].concat());
    assert_eq!(behind, Ok(Heads { required: 871, pump: 371, dictating: 2 }));
}

/// The first call's losses, lent to the second, give the rating's heads.
#[test]
fn the_two_calls_give_the_rating() {
    let lent: Vec<u8> =
        losses(&JOB, &CATALOGUE, &[2]).expect("rated").iter().flat_map(|s| s.loss.to_be_bytes()).collect();
    let (heads, rating) = (heads(&JOB, &lent).expect("rated"), rate(&JOB, &CATALOGUE, &[2]).expect("rated"));
    assert_eq!((heads.required, heads.pump, heads.dictating), (rating.required, rating.pump, rating.dictating));
}

#[test]
fn choosing_for_the_own_case() {
    let choice = Choice { cost: 130_000, sizes: vec![2] };
    assert_eq!(choose(&JOB, &CATALOGUE).as_ref(), Ok(&choice));
    assert_eq!(choose(&with_head(921), &CATALOGUE), Ok(choice));
    assert_eq!(choose(&with_head(920), &CATALOGUE), Err(Refusal::NoSuitableList));
}

#[test]
fn copying_the_own_case() {
    assert_eq!(copy(&JOB), Ok(JOB.to_vec()));
    assert_eq!(copy(&JOB[..49]), Err(Refusal::JobLength));
    for service in 0..3 {
        assert_eq!(copy(&in_line(service)), Ok(in_line(service)));
    }
    assert_eq!(copy(&in_line(3)), Err(Refusal::HeaderRange));
}

/// 444 and 2,624 l/h of hot water take 58 W for each l/h where the cold water has 5 °C.
#[test]
fn the_hot_line_of_the_own_case() {
    let hot = in_line(2);
    assert_eq!(flow(&hot), Ok(Flow { hour: 2624, day: 10650, mean_hour: 444, flows: vec![1206] }));
    assert_eq!(heat(&hot, 5, 1_200), Ok(Heat { mean_hour: 26_952, greatest_hour: 153_392 }));
    assert_eq!(heat(&hot, 5, 0), Ok(Heat { mean_hour: 25_752, greatest_hour: 152_192 }));
    let numbered = |job: &[u8], t, loss| heat(job, t, loss).map_err(|refusal| refusal.number());
    assert_eq!(
        (numbered(&hot, 31, 0), numbered(&hot, 5, 1_000_001), numbered(&hot, u32::MAX, 0)),
        (Err(21), Err(21), Err(21))
    );
    assert_eq!(
        (numbered(&JOB, 5, 0), numbered(&in_line(0), 5, 0), numbered(&in_line(1), 31, 0)),
        (Err(20), Err(20), Err(20))
    );
    assert_eq!(heat(&hot[..50], 5, 0), Err(Refusal::JobLength));
    assert_eq!(choose(&hot, &CATALOGUE), Ok(Choice { cost: 90_000, sizes: vec![1] }));
}

/// A record of version 2 with 63 sections is the longest; it is copied whole, and a meter is put into it.
#[test]
fn the_longest_record() {
    let mut job = in_line(2);
    (1..63).for_each(|parent| job.extend([parent, 7, 0, 80, 0, 100, 2, 0x58, 0, 200]));
    (job[2], job[3], job[6]) = (2, 0x9f, 63);
    assert_eq!(job.len(), 671);
    assert_eq!(copy(&job).as_ref(), Ok(&job));
    assert_eq!(flow(&job).map(|flow| flow.flows.len()), Ok(63));
    let metered = meter(&job, &[1, 0, 1, 2, 0xe4]).expect("a meter qualifies");
    assert_eq!((metered.place, metered.job.len()), (1, 671));
    assert_eq!((&metered.job[..8], &metered.job[10..]), (&job[..8], &job[10..]));
}

#[test]
fn any_bytes_are_taken() {
    for length in 0..60 {
        let job = vec![0xff; length];
        assert_eq!(flow(&job), Err(Refusal::JobLength));
        assert_eq!(choose(&job, &CATALOGUE), Err(Refusal::JobLength));
        assert_eq!(meter(&job, &job), Err(Refusal::JobLength));
        assert_eq!(meter(&JOB, &job), Err(Refusal::MeterList));
        assert_eq!(losses(&job, &job, &job), Err(Refusal::JobLength));
        assert_eq!(losses(&JOB, &job, &job), Err(Refusal::CatalogueShape));
        assert_eq!(heads(&job, &job), Err(Refusal::JobLength));
        assert_eq!(heads(&JOB, &job), Err(Refusal::LossList));
        assert_eq!(heat(&job, 5, 0), Err(Refusal::JobLength));
    }
    let mut stated = vec![0xff; 50];
    stated[..5].copy_from_slice(&[0, 0, 0, 50, 1]);
    assert_eq!(choose(&stated, &CATALOGUE), Err(Refusal::HeaderRange));
}
