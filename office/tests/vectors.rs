//! Document 01's own case and its cold and hot line, edits of them with the numbers they give, and a house where widening pipes
//! one by one ends dearer. Here the numbers are written down; library and model must both give them.

use office::case::{Buffer, Call, Case};
use office::replay;

const JOB: &str = "0000003201030118003201f404b005dc 000000000000000000000000 0047 00000000000000000000 \
                   000700500064025800c8";
const CATALOGUE: &str = "0000002f010202 00280384 000003e803200028 00000bb80960012c \
                         00320514 000003e801f4000c 00000bb805dc005a";
/// Two vane meters of resistances 2 and 1, each with the mean hour of 740 l/h as its service flow: both lose 1 cm.
const METERS: &str = "01 0002 02e4  01 0001 02e4";

fn own(call: Call) -> Case {
    let lent = format!("meters {METERS}\nlosses 00000047\ncat {CATALOGUE}\nsizes 02\n");
    let file = format!("call {}\njob {JOB}\n{lent}", call.name());
    let mut case = Case::parse(&file).expect("the own case");
    case.out = Buffer { length: 100, pattern: vec![0xa5] };
    case.work = Buffer { length: 17_608 + 8_000, pattern: vec![0x5a, 1, 2] };
    case
}

/// What library and model give, where they agree.
fn number(case: &Case) -> u32 {
    let printed = replay(&case.text()).unwrap_or_else(|what| panic!("{what}\n{}", case.text()));
    let number = printed.split("number ").nth(1).and_then(|rest| rest.split(',').next()).expect("a number");
    number.parse().expect("a number")
}

/// Bytes, and where in the job they are set.
type Edit<'a> = (usize, &'a [u8]);

fn edited(call: Call, edits: &[Edit]) -> Case {
    let mut case = own(call);
    for (at, bytes) in edits {
        case.job[*at..at + bytes.len()].copy_from_slice(bytes);
    }
    case
}

/// Edits of the own case, each with the number that it gives.
const JOB_EDITS: &[(u32, &[Edit])] = &[
    (0, &[]),
    (1, &[(3, &[51])]),
    (2, &[(4, &[0])]),
    (2, &[(4, &[3])]),
    (2, &[(4, &[3]), (5, &[4])]),
    (3, &[(4, &[2]), (5, &[4])]),
    (3, &[(4, &[2]), (40, &[3])]),
    (4, &[(4, &[2])]),
    (3, &[(5, &[4])]),
    (3, &[(7, &[0])]),
    (3, &[(7, &[25])]),
    (3, &[(8, &[3, 0xe9])]),
    (3, &[(14, &[0, 0])]),
    (3, &[(6, &[64])]),
    (4, &[(6, &[2])]),
    (5, &[(44, &[0, 0])]),
    (5, &[(40, &[1])]),
    (5, &[(40, &[2])]),
    (5, &[(40, &[3])]),
    (5, &[(41, &[13])]),
    (5, &[(48, &[3, 0xe9])]),
    (5, &[(46, &[0xfc, 0x17])]),
    (0, &[(46, &[0xfc, 0x18])]),
    (5, &[(41, &[0])]),
    (6, &[(41, &[0, 0, 0]), (48, &[0, 0])]),
    (7, &[(28, &[0, 0])]),
    (7, &[(16, &[0, 1])]),
    (8, &[(28, &[0xff, 0xff]), (42, &[0xff, 0xff])]),
    (9, &[(42, &[0, 18])]),
    (9, &[(42, &[0, 70])]),
    (0, &[(42, &[0, 71])]),
];

#[test]
fn edits_of_the_job() {
    for (expected, edit) in JOB_EDITS {
        for call in [Call::Flow, Call::Duty, Call::Meter, Call::Losses, Call::Heads] {
            assert_eq!(number(&edited(call, edit)), *expected, "{}: {edit:?}", call.name());
        }
        let read = if [8, 9].contains(expected) { 0 } else { *expected };
        assert_eq!(number(&edited(Call::Copy, edit)), read, "copied: {edit:?}");
    }
    for length in [0, 39, 49] {
        let mut case = own(Call::Flow);
        case.job.truncate(length);
        assert_eq!(number(&case), 1);
    }
}

/// The own case in version 2 with this service.
fn line(call: Call, service: u8) -> Case {
    let mut case = own(call);
    case.job.insert(40, service);
    (case.job[3], case.job[4]) = (51, 2);
    (case.t, case.loss) = (5, 1_200);
    case
}

fn edited_line(call: Call, service: u8, edits: &[Edit]) -> Case {
    let mut case = line(call, service);
    for (at, bytes) in edits {
        case.job[*at..at + bytes.len()].copy_from_slice(bytes);
    }
    case
}

/// The hot line's hour sum is 71 x 150 x 100,000 / 190, up: 5,605,264, so that 56 fixtures are crowded by the hour alone, and 14 by m
/// too, which is 1,479,167.
#[test]
fn edits_of_a_hot_job() {
    let edits: &[(u32, &[Edit])] = &[
        (0, &[]),
        (1, &[(3, &[50])]),
        (2, &[(4, &[0])]),
        (2, &[(4, &[3])]),
        (2, &[(4, &[3]), (40, &[3])]),
        (3, &[(40, &[3])]),
        (3, &[(40, &[255])]),
        (3, &[(40, &[3]), (6, &[2])]),
        (3, &[(5, &[4])]),
        (4, &[(4, &[1])]),
        (4, &[(4, &[1]), (40, &[3])]),
        (4, &[(6, &[2])]),
        (5, &[(41, &[1])]),
        (5, &[(42, &[13])]),
        (5, &[(45, &[0, 0])]),
        (5, &[(47, &[0xfc, 0x17])]),
        (0, &[(47, &[0xfc, 0x18])]),
        (6, &[(42, &[0, 0, 0]), (49, &[0, 0])]),
        (7, &[(28, &[0, 0])]),
        (8, &[(28, &[0xff, 0xff]), (43, &[0xff, 0xff])]),
        (9, &[(43, &[0, 14])]),
        (9, &[(43, &[0, 56])]),
        (0, &[(43, &[0, 57])]),
    ];
    for (expected, edit) in edits {
        for call in [Call::Flow, Call::Duty, Call::Meter, Call::Losses, Call::Heads, Call::Choose, Call::Heat] {
            assert_eq!(number(&edited_line(call, 2, edit)), *expected, "{}: {edit:?}", call.name());
        }
        let read = if [8, 9].contains(expected) { 0 } else { *expected };
        assert_eq!(number(&edited_line(Call::Copy, 2, edit)), read, "copied: {edit:?}");
    }
    // A record that ends before its service: 3 by its head, else 4.
    for (k, length, expected) in [(3, 40, 4), (4, 40, 3), (3, 39, 1), (4, 39, 1), (3, 50, 4)] {
        let mut case = edited_line(Call::Heat, 2, &[(3, &[length]), (5, &[k])]);
        case.job.truncate(length.into());
        assert_eq!(number(&case), expected, "{length} bytes, k {k}");
    }
}

/// Four numbers of 4 bytes.
fn four_numbers(bytes: &[u8]) -> Vec<u32> {
    bytes.chunks(4).map(|four| u32::from_be_bytes([four[0], four[1], four[2], four[3]])).collect()
}

/// Hour, day, mean hour and the section's flow. Hot: 71 residents of 15 l in the hour and 150 l, with fixtures of 0.2 l/s and 190 l/h;
/// cold: of 13 l and 100 l.
#[test]
fn flows_of_the_lines() {
    let of = |service: u8| four_numbers(&result(&line(Call::Flow, service)));
    assert_eq!(of(0), [4_542, 17_750, 740, 2_052]);
    assert_eq!(of(1), [2_385, 7_100, 296, 1_112]);
    assert_eq!(of(2), [2_624, 10_650, 444, 1_206]);
    for (service, duty) in [(0, 2_052), (1, 1_112), (2, 1_206)] {
        assert_eq!(four_numbers(&result(&line(Call::Duty, service))), [duty], "service {service}");
    }
}

/// Size 1 at 1,206 ml/s: 800 + 206 x 0.8 mm/s, up to 965, a slope of 40 + 206 x 0.13, up to 67, and 87.1 cm; at 1,112: 890 mm/s, a slope
/// of 55 and 71.5 cm. It costs 900 x 100.
#[test]
fn pipes_of_the_lines() {
    let narrow = |call: Call, service: u8| result(&Case { sizes: vec![1], ..line(call, service) });
    assert_eq!(narrow(Call::Losses, 2), [0, 0, 4, 0xb6, 3, 0xc5, 0, 0, 0, 88]);
    assert_eq!(narrow(Call::Losses, 1), [0, 0, 4, 0x58, 3, 0x7a, 0, 0, 0, 72]);
    assert_eq!(narrow(Call::Rate, 2)[..9], [0, 0, 3, 0xaa, 0, 0, 1, 0xb6, 1]);
    assert_eq!(number(&Case { sizes: vec![1], ..line(Call::Rate, 0) }), 13);
    // Heads of given losses are the same in every service.
    for service in 0..3 {
        assert_eq!(result(&line(Call::Heads, service)), result(&own(Call::Heads)), "service {service}");
    }
    for (service, chosen) in [(0, [0, 1, 251, 208, 2]), (1, [0, 1, 95, 144, 1]), (2, [0, 1, 95, 144, 1])] {
        assert_eq!(result(&line(Call::Choose, service)), chosen, "service {service}");
    }
}

/// At 1,206 ml/s a resistance of 5,000 loses 72.7 cm, at 1,112 61.8 and at 2,052 210.5. The mean hours are 740, 296 and 444 l/h.
#[test]
fn meters_of_the_lines() {
    for (service, mean, loss) in [(0, 740_u16, 211), (1, 296, 62), (2, 444, 73)] {
        let with = |service_flow: u16| {
            let meters = [&[1, 0x13, 0x88][..], &service_flow.to_be_bytes()].concat();
            Case { meters, ..line(Call::Meter, service) }
        };
        assert_eq!(won(&with(mean)), (1, loss, true), "service {service}");
        assert_eq!(number(&with(mean - 1)), 18, "service {service}");
    }
}

/// 444 and 2,624 l/h, each times 1.16 and 55 less t: 28,327.2 and 167,411.2 at 0 °C, 25,752 and 152,192 at 5, 23,176.8 and 136,972.8 at
/// 10, 12,876 and 76,096 at 30.
#[test]
fn heat_of_the_hot_line() {
    for (t, loss, expected) in [
        (0, 0, [28_328, 167_412]),
        (5, 0, [25_752, 152_192]),
        (5, 1_200, [26_952, 153_392]),
        (10, 0, [23_177, 136_973]),
        (30, 1_000_000, [1_012_876, 1_076_096]),
    ] {
        let case = Case { t, loss, ..line(Call::Heat, 2) };
        assert_eq!(four_numbers(&result(&case)), expected, "{t} °C, {loss} W");
    }
    // On one hour of use the mean hour is the day of 10,650 l.
    let one_hour = edited_line(Call::Heat, 2, &[(7, &[1])]);
    assert_eq!(four_numbers(&result(&one_hour)), [618_900, 153_392]);
}

/// 9 before 20 before 21 before 14.
#[test]
fn refused_heat() {
    for (service, t, loss, out, expected) in [
        (2, 30, 1_000_000, 8, 0),
        (2, 30, 1_000_000, 7, 14),
        (2, 31, 0, 8, 21),
        (2, 31, 0, 0, 21),
        (2, 0, 1_000_001, 8, 21),
        (2, u32::MAX, 0, 8, 21),
        (2, 0, u32::MAX, 8, 21),
        (2, 261, 0, 8, 21),
        (1, 5, 0, 8, 20),
        (0, 5, 0, 8, 20),
        (1, 31, 0, 0, 20),
    ] {
        let mut case = Case { t, loss, ..line(Call::Heat, service) };
        case.out.length = out;
        assert_eq!(number(&case), expected, "service {service}, {t} °C, {loss} W, {out} bytes");
    }
    assert_eq!(number(&own(Call::Heat)), 20, "version 1");
    assert_eq!(number(&Case { t: 31, ..edited_line(Call::Heat, 1, &[(43, &[0, 9])]) }), 9);
}

#[test]
fn edits_of_the_catalogue() {
    let edits: &[(u32, usize, &[u8])] = &[
        (10, 4, &[2]),
        (10, 6, &[1]),
        (11, 9, &[0, 0]),
        (11, 27, &[0, 40]),
        (11, 21, &[3, 0xe8]),
        (11, 25, &[0, 39]),
        (0, 25, &[0, 40]),
    ];
    for (expected, at, bytes) in edits {
        for call in [Call::Losses, Call::Rate, Call::Choose] {
            let mut case = own(call);
            case.cat[*at..at + bytes.len()].copy_from_slice(bytes);
            assert_eq!(number(&case), *expected, "{at} {bytes:?}");
        }
    }
    let mut longer = own(Call::Choose);
    longer.cat.push(0);
    assert_eq!(number(&longer), 10);
}

/// The flow is 2,052 ml/s: 11,874 x 2,052 x 2,052 is 499.98 of the 100,000,000 that make a cm, 5,937 is 249.99.
#[test]
fn edits_of_the_meters() {
    let edits: &[(u32, &[u8])] = &[
        (17, &[]),
        (17, &[1, 0, 1, 2]),
        (0, &[1, 0, 1, 2, 0xe4]),
        (17, &[1, 0, 1, 2, 0xe4, 1]),
        (17, &[0, 0, 1, 2, 0xe4]),
        (0, &[2, 0, 1, 2, 0xe4]),
        (17, &[3, 0, 1, 2, 0xe4]),
        (17, &[1, 0, 0, 2, 0xe4]),
        (17, &[1, 0, 1, 0, 0]),
        (18, &[1, 0, 1, 2, 0xe3]),
        (0, &[1, 0x2e, 0x62, 2, 0xe4]),
        (18, &[1, 0x2e, 0x63, 2, 0xe4]),
        (18, &[2, 0x2e, 0x62, 2, 0xe4]),
        (0, &[2, 0x17, 0x31, 2, 0xe4]),
        (18, &[2, 0x17, 0x32, 2, 0xe4]),
        (0, &[1, 0x17, 0x32, 2, 0xe4]),
    ];
    for (expected, list) in edits {
        let mut case = own(Call::Meter);
        case.meters = list.to_vec();
        assert_eq!(number(&case), *expected, "{list:?}");
    }
    for (count, expected) in [(8, 0), (9, 17), (256, 17), (257, 17)] {
        let mut case = own(Call::Meter);
        case.meters = [1, 0, 1, 2, 0xe4].repeat(count);
        assert_eq!(number(&case), expected, "{count} meters");
    }
}

/// The bytes of the result that library and model give.
fn result(case: &Case) -> Vec<u8> {
    let printed = replay(&case.text()).unwrap_or_else(|what| panic!("{what}\n{}", case.text()));
    let bytes = printed.split_once("number 0, result [").and_then(|(_, rest)| rest.strip_suffix(']'));
    bytes.expect("a result").split(", ").map(|byte| byte.parse().expect("a byte")).collect()
}

/// What library and model give where a meter wins: its place, the two bytes of its loss, and whether the rest is the job.
fn won(case: &Case) -> (u8, u16, bool) {
    let bytes = result(case);
    let kept = bytes.len() == 1 + case.job.len() && bytes[1..9] == case.job[..8] && bytes[11..] == case.job[10..];
    (bytes[0], u16::from_be_bytes([bytes[9], bytes[10]]), kept)
}

#[test]
fn the_meter_that_wins() {
    assert_eq!(won(&own(Call::Meter)), (1, 1, true));
    // The meter loss that the job has plays no part.
    for loss in [[0, 0], [0, 1], [1, 0], [3, 0xe8]] {
        assert_eq!(won(&edited(Call::Meter, &[(8, &loss)])), (1, 1, true), "{loss:?}");
    }
    // Resistances 1, 24 and 11,874 lose 1, 2 and 500 cm, a turbine of 6,000 loses 253 cm.
    for (list, expected) in [
        ("01 0018 02e4  01 0001 02e4", (2, 1, true)),
        ("01 0001 02e3  01 0018 02e4", (2, 2, true)),
        ("02 1770 02e4  01 2e62 02e4", (2, 500, true)),
        ("01 2e62 02e4  02 1770 ffff", (1, 500, true)),
        ("02 0001 02e4  01 0001 02e4", (1, 1, true)),
    ] {
        let listed = Case::parse(&format!("call meter\nmeters {list}")).expect("a list");
        assert_eq!(won(&Case { meters: listed.meters, ..own(Call::Meter) }), expected, "{list}");
    }
}

/// 2,052 ml/s, 1,026 mm/s and 71 cm; then 921 and 421 cm, section 1.
#[test]
fn losses_and_heads_of_the_own_case() {
    assert_eq!(result(&own(Call::Losses)), [0, 0, 8, 4, 4, 2, 0, 0, 0, 71]);
    assert_eq!(result(&own(Call::Heads)), [0, 0, 3, 0x99, 0, 0, 1, 0xa5, 1]);
    assert_eq!(result(&own(Call::Rate)), [0, 0, 3, 0x99, 0, 0, 1, 0xa5, 1, 4, 2, 0, 0, 0, 71]);
    // Elevation -1,000, free head 0 and meter loss 0 with a loss of 0.
    let mut least = edited(Call::Heads, &[(8, &[0, 0]), (46, &[0xfc, 0x18, 0, 0])]);
    least.losses = vec![0; 4];
    assert_eq!(result(&least), [0xff, 0xff, 0xfc, 0x18, 0, 0, 0, 0, 1]);
}

#[test]
fn edits_of_the_losses() {
    let edits: &[(u32, &[u8])] = &[
        (0, &[0, 0, 0, 0]),
        (0, &[0, 0x40, 0xff, 0xbf]),
        (19, &[0, 0x40, 0xff, 0xc0]),
        (19, &[0xff, 0xff, 0xff, 0xff]),
        (19, &[]),
        (19, &[0, 0, 71]),
        (19, &[0, 0, 0, 71, 0]),
        (19, &[0, 0, 0, 71, 0, 0, 0, 71]),
        (19, &[0, 0, 8, 4, 4, 2, 0, 0, 0, 71]),
    ];
    for (expected, losses) in edits {
        let case = Case { losses: losses.to_vec(), ..own(Call::Heads) };
        assert_eq!(number(&case), *expected, "{losses:?}");
    }
}

/// 12 before 14 before 13, and 19 before 14.
#[test]
fn buffers_of_losses_and_heads() {
    for (sizes, out, expected) in [(vec![1], 10, 13), (vec![1], 9, 14), (vec![3], 9, 12)] {
        let mut case = Case { sizes, ..own(Call::Losses) };
        case.out.length = out;
        assert_eq!(number(&case), expected, "losses into {out} bytes");
    }
    for (losses, out, expected) in [(vec![], 8, 19), (vec![0; 4], 8, 14)] {
        let mut case = Case { losses, ..own(Call::Heads) };
        case.out.length = out;
        assert_eq!(number(&case), expected, "heads into {out} bytes");
    }
}

#[test]
fn lists_and_buffers() {
    for (list, length, expected) in [
        (&[][..], 15, 12),
        (&[0], 15, 12),
        (&[3], 15, 12),
        (&[2, 2], 15, 12),
        (&[2], 15, 0),
        (&[1], 15, 13),
        (&[1], 14, 14),
    ] {
        let mut case = own(Call::Rate);
        case.sizes = list.to_vec();
        case.out.length = length;
        assert_eq!(number(&case), expected, "{list:?} {length}");
    }
    for (call, needed) in [(Call::Duty, 4), (Call::Losses, 10), (Call::Heads, 9)] {
        for (out, expected) in [(0, 14), (needed - 1, 14), (needed, 0)] {
            let mut case = own(call);
            case.out.length = out;
            assert_eq!(number(&case), expected, "{} into {out} bytes", call.name());
        }
    }
    for (list, out, expected) in [("", 50, 17), ("01 0001 02e3", 50, 14), ("01 0001 02e3", 51, 18), (METERS, 51, 0)] {
        let file = format!("call meter\njob {JOB}\nmeters {list}\nout {out} a5\n");
        assert_eq!(number(&Case::parse(&file).expect("a case")), expected, "meters {list} into {out} bytes");
    }
    for (out, work, expected) in [(4, 0, 14), (5, 17_607, 15), (5, 17_608, 0)] {
        let mut case = own(Call::Choose);
        (case.out.length, case.work.length) = (out, work);
        assert_eq!(number(&case), expected, "{out} {work}");
    }
    assert_eq!(number(&edited(Call::Choose, &[(12, &[3, 0x98])])), 16);
    assert_eq!(number(&edited(Call::Choose, &[(12, &[3, 0x99])])), 0);
}

#[test]
fn sections_of_50_and_200_office_basins() {
    let job = "0000003c010302180032 01f404b005dc 0000 0000 0000 0000 0000 0000 0000 0000 0000 0000 0c80 0000 \
               000b00320064025800c8 000b00c80064025800c8";
    let case = Case::parse(&format!("call flow\njob {job}\nout 20 00")).expect("a case");
    assert_eq!(number(&case), 9);
}

#[test]
fn widening_one_by_one_ends_dearer() {
    let job = "0000004601030318 0000000009520bb8 0000003900000000 0000000000000000 0000000000000000 \
               0000 0000 016b 031b 0000  0102 004c 0065 0308 00c8  0102 0046 00ae 031e 00c8";
    let cat = "00000043010302 \
               000f012c 00000064012c001e 00000bb80b540384 \
               001401a4 0000006400c8000c 00000bb80960012c \
               001902bc 0000006400780005 00000bb806a4006e";
    let file = format!("call choose\njob {job}\ncat {cat}\nwork 60000 a5\nout 7 00");
    let case = Case::parse(&file).expect("a case");
    let printed = replay(&file).unwrap_or_else(|what| panic!("{what}"));
    assert_eq!(number(&case), 0);
    // 224,400 and the only list of that cost; widening the dictating path gives 2, 1, 1 at 234,960.
    assert!(printed.ends_with("result [0, 3, 108, 144, 1, 2, 2]"), "{printed}");
    let flows = office::flow(&case.job).expect("an accepted job").flows;
    assert_eq!(flows, [874, 631, 606]);
}

#[test]
fn the_case_in_the_readme_can_be_replayed() {
    let readme = include_str!("../README.md");
    let from = readme.find("    call choose").expect("a case in the README");
    let file = readme[from..].split("\n\n").next().expect("its lines");
    let printed = replay(file).unwrap_or_else(|what| panic!("{what}"));
    assert_eq!(printed, "choose: library and model agree: number 0, result [0, 1, 251, 208, 2]");
}
