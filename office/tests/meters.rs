//! Lists of meters, and `office meter`: the answer, its figures by hand from document 02, the refusals, and the house written.

#[path = "tools/json.rs"]
mod json;
#[path = "tools/lists.rs"]
mod lists;
#[path = "tools/run.rs"]
mod run;

use json::Value;
use lists::{Slip, are_named, put};
use office::at::{At, Field};
use office::mistake::Mistake;
use office::places::{Asked, Place, places};
use office::{Refusal, calls, house, meter, meters, table};
use run::{office, office_with, read, scratch};

const OWN: &str = "examples/own-case.txt";
const HOUSE: &str = "examples/house.txt";
const METERS: &str = "examples/meters.csv";

/// A vane meter DN 40 and a turbine meter DN 50 of source document 001.
const TWO: &str = "type,resistance m/(l/s)2,service flow l/h\nvane,0.5,6400\nturbine,0.143,12000\n";
const TWO_BYTES: [u8; 10] = [1, 0x13, 0x88, 0x19, 0x00, 2, 0x05, 0x96, 0x2e, 0xe0];

/// The bytes of meters by type, resistance in ten-thousandths and service flow in l/h.
fn list(meters: &[(u8, u16, u16)]) -> Vec<u8> {
    let one = |(design, resistance, service): &(u8, u16, u16)| {
        [vec![*design], resistance.to_be_bytes().to_vec(), service.to_be_bytes().to_vec()].concat()
    };
    meters.iter().flat_map(one).collect()
}

/// Appendix 6 of source document 001, table П6.1: S in m/(l/s)² and the service flow in m³/h. DN 80 has 264·10⁻⁵ and DN 100
/// 76.6·10⁻⁵, which lie between two ten-thousandths; the greater is in the example.
#[test]
fn the_example_is_the_appendix_as_far_as_five_bytes_hold_it() {
    let appendix = list(&[
        (1, 51_800, 2_000),
        (1, 26_400, 2_800),
        (1, 13_000, 4_000),
        (1, 5_000, 6_400),
        (2, 1_430, 12_000),
        (2, 81, 17_000),
        (2, 27, 36_000),
        (2, 8, 65_000),
    ]);
    let packed = meters::read(&read(METERS)).expect("a list");
    assert_eq!(packed.bytes, appendix);
    assert_eq!(packed.names, ["DN 20", "DN 25", "DN 32", "DN 40", "DN 50", "DN 65", "DN 80", "DN 100"]);
    assert_eq!(packed.lines.of(At::Meter(8)), Some(16));
    assert_eq!(office(&["pack", METERS, "--strict"]).output, appendix, "the library takes it without a warning");
}

#[test]
fn every_list_of_whole_meters_comes_back() {
    let mut dice: u64 = 0x2545_f491_4f6c_dd1d;
    let mut byte = || {
        dice ^= dice << 13;
        dice ^= dice >> 7;
        dice ^= dice << 17;
        dice as u8
    };
    for turn in 0..3_000 {
        let mut bytes: Vec<u8> = (0..5 * (1 + turn % 11)).map(|_| byte()).collect();
        if turn % 3 > 0 {
            bytes.iter_mut().step_by(5).for_each(|design| *design = 1 + *design % 2);
        }
        let text = meters::show(&bytes).expect("whole meters");
        assert!(meters::is_list(&text), "{text}");
        assert_eq!(meters::pack(&text).as_ref(), Ok(&bytes), "{text}");
        assert_eq!(meter::read(&bytes).expect("whole meters").len(), bytes.len() / 5);
    }
    for bytes in [&[][..], &[1], &[1, 0, 1, 0], &[1, 0, 1, 0, 1, 2]] {
        assert!(meters::show(bytes).is_err());
    }
}

#[test]
fn what_can_mean_one_thing_is_taken() {
    let rows = TWO.split_once('\n').expect("a header").1;
    let texts = [
        TWO.replace(',', ";"),
        TWO.replace(',', "\t"),
        format!("sep=;\n{}", TWO.replace(',', ";")),
        TWO.replace('\n', "\r\n"),
        TWO.replace('\n', "\r"),
        TWO.to_uppercase(),
        format!("# all that the shop has\n\n{TWO},,\n"),
        format!("type,resistance (m/(l/s)²),service flow [l/h]\n{rows}"),
        format!("type,resistance m/(l/s)^2,\"service flow, l/h\"\n{rows}"),
        format!("type,resistance м/(л/с)²,service flow л/ч\n{rows}"),
        "service flow l/h,type,resistance m/(l/s)2\n6400,vane,0.5\n12000,turbine,0.143\n".to_string(),
        put(TWO, "0.5,6400", "0.5000,6400"),
        put(TWO, "0.5,6400", "00.50000,006400"),
        put(TWO, "vane,0.5,6400", " \"Vane\" , \"0.5\" ,6400 # old stock"),
        put(TWO, "turbine", "# vane,1.3,4000\nturbine"),
        "name,type,resistance m/(l/s)2,service flow l/h\n40,vane,0.5,6400\n50,turbine,0.143,12000\n".to_string(),
        "type;resistance m/(l/s)2;service flow l/h;name\nvane;0.5;6400;40\nturbine;0.143;12000;50\n".to_string(),
        "type,notes,resistance m/(l/s)2,service flow l/h,remark\nvane,7,0.5,6400,-\nturbine,,0.143,12000,pcs 2\n"
            .to_string(),
    ];
    for text in texts {
        let ran = office_with(&["pack", "-"], text.as_bytes());
        assert_eq!((ran.status, ran.output.as_slice()), (0, &TWO_BYTES[..]), "{text}{}", ran.error);
    }
}

const SLIPS: &[Slip] = &[
    (
        "resistance m/(l/s)2",
        "resistance",
        1,
        "its unit, m/(l/s)2, is missing",
        "`type,resistance m/(l/s)2,service flow l/h`",
    ),
    ("service flow l/h", "service flow", 1, "its unit, l/h, is missing", "a column `notes` is skipped"),
    ("service flow l/h", "service flow m3/h", 1, "the service flow is in l/h", "a column `name` names the rows"),
    ("resistance m/(l/s)2", "resistance 0.0001 m/(l/s)2", 1, "the resistance is in m/(l/s)2", "service flow l/h"),
    ("type,", "", 1, "the header has no column `type`", "`type,"),
    ("type,", "type,type,", 1, "the column `type` is there twice", "`type,"),
    ("type,", "name,name,type,", 1, "the column `name` is there twice", "`type,"),
    ("type,", "meter,type,", 1, "`meter` is no column of a list of meters", "a column `name`"),
    (TWO, "vane,0.5,6400\n", 1, "a meter stands where the header should be", "below it a line for each meter, 1 to 8"),
    ("vane", "impeller", 2, "`impeller` is no type of meter", "vane or turbine"),
    ("vane", "", 2, "`type` is empty", "vane or turbine"),
    ("vane", "1", 2, "`1` for `type` may be the type vane or the number of the row", "write vane if that is meant"),
    ("turbine", "2", 3, "may be the type turbine or the number of the row", "write turbine"),
    ("vane", "256", 2, "`256` is no type of meter", "vane or turbine"),
    ("0.5", "", 2, "`resistance m/(l/s)2` is empty", "0.0001 to 6.5535"),
    ("0.5", "0,5", 2, "`6400` stands under no column", "a comma within a number makes two cells of it"),
    ("0.5", "\"0,5\"", 2, "`0,5` for `resistance m/(l/s)2` has a comma", "a point before decimals"),
    (
        "0.143",
        "0.00264",
        3,
        "`0.00264` for `resistance m/(l/s)2` is finer than the record keeps",
        "0.0001 to 6.5535, with at most 4 decimals; 0.0027 is the next that states no less loss",
    ),
    ("0.143", "0.000766", 3, "finer than the record keeps", "0.0008 is the next that states no less loss"),
    ("0.5", "14.5", 2, "14.5 is 7.9465 more than its bytes can hold", "a meter of more resistance can't be listed"),
    ("0.5", "6.5536", 2, "6.5536 is 0.0001 more than its bytes can hold", "0.0001 to 6.5535"),
    ("0.5", "5000", 2, "5000 is 4993.4465 more than its bytes can hold", "5000 ten-thousandths are 0.5000"),
    ("0.5,6400", "6400,0.5", 2, "6400 is 6393.4465 more", "or are resistance and service flow swapped?"),
    ("0.5", "-0.5", 2, "`-0.5` for `resistance m/(l/s)2` has a sign", "0.0001 to 6.5535"),
    ("0.5", ".5", 2, "`.5` is no number", "0.0001 to 6.5535, with at most 4 decimals, for example 0.5000"),
    (
        "0.143",
        "8.1E-3",
        3,
        "`8.1e-3` is no number for `resistance m/(l/s)2`: it has a power of ten",
        "as 0.0081 for 8.1E-3",
    ),
    ("0.143", "810·10-5", 3, "`810·10-5` is no number for `resistance m/(l/s)2`: it has a power of ten", "written out"),
    (
        "0.5",
        "0.5 m/(l/s)2",
        2,
        "`0.5 m/(l/s)2` is no number for `resistance m/(l/s)2`: more than the number stands in it",
        "the number alone; its unit stands in the header; 0.0001 to 6.5535, with at most 4 decimals",
    ),
    (
        "12000",
        "140000",
        3,
        "`service flow l/h` 140000 is 74465 more than its bytes can hold",
        "a whole number of l/h, 1 to 65535; 65535 may stand for it if it is the service flow: that states no more than the meter has",
    ),
    ("12000", "1e3", 3, "`1e3` is no number for `service flow l/h`: it has a power of ten", "of l/h, 1 to 65535"),
    (
        "6400",
        "6.400",
        2,
        "`6.400` for `service flow l/h` has a point: it may be 6 or 6400",
        "nothing between thousands",
    ),
    ("6400", "6.4", 2, "finer than the record keeps", "6.4 m3/h are 6400 l/h"),
    ("6400", "6 400", 2, "`6 400` is no number for `service flow l/h`: a blank", "write 6400 if that is meant"),
    ("6400", "6400 l/h", 2, "`6400 l/h` is no number", "the number alone; its unit stands in the header"),
    ("6400", "many", 2, "`many` is no number for `service flow l/h`", "of l/h, 1 to 65535, for example 6400"),
    ("6400", "", 2, "`service flow l/h` is empty", "1 to 65535"),
    ("6400", "6400,DN 40", 2, "`dn 40` stands under no column", "as many cells as the header has"),
    ("6400", "64#00", 2, "`#` stands within a word", "no # in a name or number"),
];

fn first(text: &str) -> Mistake {
    lists::first(meters::pack, text)
}

#[test]
fn mistakes_name_their_line_and_what_is_wrong() {
    are_named(SLIPS, TWO, meters::pack, &["meter", OWN, "-"]);
    for text in ["# nothing\n", "type,resistance m/(l/s)2,service flow l/h\n"] {
        let mistake = first(text);
        assert!(mistake.line.is_none() && mistake.expected.contains("a line for each meter, 1 to 8"), "{mistake}");
    }
    let decimal = first(&put(TWO, "0.5", "0,5").replace(',', ";").replace("0;5", "0,5"));
    assert_eq!(decimal.wrong, "`0,5` for `resistance m/(l/s)2` has a comma");
    assert!(decimal.expected.ends_with("cells are parted by semicolons, as in the file's first line"), "{decimal}");
}

/// Document 01's own case has 2,052 ml/s and a mean hour of 740 l/h; 2,052 × 2,052 is 4,210,704. Resistance in ten-thousandths
/// times that over 100,000,000, up: 5,000 gives 210.5, 1,430 gives 60.2, 13,000 gives 547.4.
#[test]
fn the_own_case_by_hand() {
    let names = "type,resistance m/(l/s)2,service flow l/h,name\nvane,1.3,4000,DN 32\nvane,0.5,6400,DN 40\n\
        turbine,0.143,12000,DN 50\nturbine,0.143,739,small\n";
    let ran = office_with(&["meter", OWN, "-"], names.as_bytes());
    let wanted = "\
design flow  2052 ml/s for the pump set to deliver
mean hour     740 l/h
meter           3 DN 50
meter loss     61 cm; the house has 50 cm

meter  name   type     resistance  service flow  loss  limit
                         m/(l/s)2           l/h    cm     cm
    1  DN 32  vane         1.3000          4000   548    500  its loss is over its limit by 48 cm
    2  DN 40  vane         0.5000          6400   211    500  qualifies; it loses 150 cm more
    3  DN 50  turbine      0.1430         12000    61    250  * qualifies with the least loss
    4  small  turbine      0.1430           739    61    250  the mean hour is over its service flow by 1 l/h
loss: at the design flow, rounded up to whole cm; ";
    assert!(ran.text().ends_with(" may have it: list no meter that you would not fit.\n"), "{}", ran.text());
    assert_eq!(ran.status, 0, "{}", ran.error);
    assert!(ran.text().starts_with(wanted), "{}", ran.text());
    assert!(ran.error.starts_with("warning: standard input line 5, meter 4: at its own service flow of 739 l/h"));
    for (resistance, loss) in [(5_000, 211), (1_430, 61)] {
        let metered = calls::meter(&house::pack(&read(OWN)).expect("a house"), &list(&[(1, resistance, 740)]));
        assert_eq!(metered.expect("it qualifies").job[8..10], u16::to_be_bytes(loss));
    }
}

#[test]
fn of_equal_losses_the_first_wins_and_the_service_flow_counts_to_the_litre() {
    let run = |meters: &[(u8, u16, u16)]| office_with(&["meter", OWN, "-", "--json"], &list(meters));
    let tied = json::parse(&run(&[(1, 2, 740), (2, 1, 740)]).text());
    assert_eq!((tied.number("meter"), tied.number("meter_loss_cm")), (1, 1));
    let words = office_with(&["meter", OWN, "-"], &list(&[(1, 2, 740), (2, 1, 740)])).text();
    assert!(words.contains("250  qualifies; it loses as much, and stands further down\n"), "{words}");
    let both = json::parse(&run(&[(1, 13_000, 739), (2, 1, 740)]).text());
    let first = &both.list("meters")[0];
    assert_eq!((first.number("over_limit_cm"), first.number("over_service_flow_l_per_h")), (48, 1));
    assert_eq!((both.number("meter"), first.get("qualifies")), (2, &Value::Truth(false)));
    for (service, status) in [(739, 1), (740, 0)] {
        assert_eq!(run(&[(1, 1, service)]).status, status, "{service}");
    }
    // The limits themselves are kept: 11,874 gives 499.98 and 11,875 gives 500.02; 5,937 gives 249.99 and 5,938 gives 250.03.
    for (design, resistance, status) in [(1, 11_874, 0), (1, 11_875, 1), (2, 5_937, 0), (2, 5_938, 1)] {
        assert_eq!(run(&[(design, resistance, 740)]).status, status, "{design} {resistance}");
    }
}

/// The own case's residents on two pipes at the pump: no section has the house's flow, and the house's counts.
#[test]
fn the_flow_is_the_houses_and_no_sections() {
    let section = "section 1 from pump length 10.0 m elevation 600 cm kind hotel-75 fixtures 80 free 200 cm";
    let house = put(&read(OWN), section, &format!("{section}\n{}", section.replace("section 1", "section 2")));
    let file = scratch("two-pipes.txt");
    std::fs::write(&file, house).expect("written");
    let flow = json::parse(&office(&["flow", &file, "--json"]).text());
    assert!(flow.list("sections").iter().all(|section| section.number("flow_ml_per_s") < 2_052));
    let printed = json::parse(&office_with(&["meter", &file, "-", "--json"], &TWO_BYTES).text());
    assert_eq!((printed.number("duty_ml_per_s"), printed.number("mean_hour_l_per_h")), (2_052, 740));
    let losses: Vec<i64> = printed.list("meters").iter().map(|meter| meter.number("loss_cm")).collect();
    assert_eq!((losses, printed.number("meter_loss_cm")), (vec![211, 61], 61));
}

/// The meter loss that the house has plays no part.
#[test]
fn the_houses_own_meter_loss_plays_no_part() {
    let answers: Vec<String> = ["0 cm", "61 cm", "10 m"]
        .map(|loss| {
            let house = put(&read(OWN), "meter loss      50 cm", &format!("meter loss {loss}"));
            let printed = office_with(&["meter", "-", METERS], house.as_bytes());
            printed.text().lines().filter(|line| !line.starts_with("meter loss")).collect::<String>()
        })
        .to_vec();
    assert!(answers.iter().all(|answer| answer == &answers[0] && answer.contains("* qualifies")), "{answers:?}");
    let same = office_with(&["meter", "-", "examples/meters.csv"], put(&read(OWN), "50 cm", "1 cm").as_bytes()).text();
    assert!(same.contains("\nmeter loss      1 cm, as the house has it\n"), "{same}");
}

/// The command puts its own figure there, so any does; another command needs the right one.
#[test]
fn a_house_without_a_meter_loss_is_told_that_any_does() {
    let house = put(&read(OWN), "meter loss      50 cm", "# no meter yet");
    let ran = office_with(&["meter", "-", METERS], house.as_bytes());
    assert_eq!(ran.status, 2);
    let said =
        "wrong:    the file has no line `meter loss`\n  expected: any figure in its range, as `meter loss 0 cm`, since";
    assert!(ran.error.contains(said), "{}", ran.error);
    let other = office_with(&["flow", "-"], house.as_bytes()).error;
    assert!(other.contains("expected: for example `meter loss 50 cm`\n"), "{other}");
}

#[test]
fn where_none_qualifies_each_limit_is_named() {
    let small = put(TWO, "0.5,6400\nturbine,0.143,12000", "1.3,4000\nturbine,0.7,739");
    let kept = scratch("none-qualifies.txt");
    std::fs::write(&kept, "as it was").expect("written");
    let ran = office_with(&["meter", OWN, "-", "-o", &kept], small.as_bytes());
    let refusal = Refusal::NoMeter;
    // 7,000 × 4,210,704 / 100,000,000 is 294.7.
    let wanted = format!(
        "{refusal}\n  standard input line 2, meter 1: at 2052 ml/s it loses 548 cm, 48 cm over the 500 cm of a vane meter\n  \
         standard input line 3, meter 2: at 2052 ml/s it loses 295 cm, 45 cm over the 250 cm of a turbine meter; the mean hour of \
         740 l/h is 1 l/h over its service flow of 739 l/h\n  {OWN}, house: a vane meter of at most 1.1874 m/(l/s)2 or a turbine \
         meter of at most 0.5937 m/(l/s)2 with a service flow of at least 740 l/h would do\n"
    );
    assert_eq!((ran.status, ran.text()), (1, wanted));
    assert_eq!(std::fs::read_to_string(&kept).expect("there"), "as it was");
    let printed = json::parse(&office_with(&["meter", OWN, "-", "--json"], small.as_bytes()).text());
    let refused = printed.get("refusal");
    assert_eq!((refused.number("number"), refused.list("places").len()), (18, 3));
    assert_eq!(refused.list("places")[1].number("line"), 3);
    assert_eq!(refused.list("places")[1].get("at"), &Value::Text("meter 2".to_string()));
}

#[test]
fn a_list_that_breaks_its_rules_is_named_by_meter_and_field() {
    let nine = format!("{}{}", put(TWO, "turbine,0.143,12000\n", ""), "vane,0.5,6400\n".repeat(8));
    for (bytes, place) in [
        (
            nine.into_bytes(),
            "standard input line 10, meter 9: it is one too many: the list has 9 meters, and the most is 8",
        ),
        (put(TWO, "0.5", "0").into_bytes(), "standard input line 2, meter 1: resistance 0; the least is 0.0001"),
        (put(TWO, "12000", "0").into_bytes(), "standard input line 3, meter 2: service flow 0 l/h; the least is 1"),
        (
            put(TWO, "vane", "3").into_bytes(),
            "standard input line 2, meter 1: type 3 is none of 1 (vane) and 2 (turbine)",
        ),
        (
            [&TWO_BYTES[..], &[0, 0, 0]].concat(),
            "standard input, meter 3: the list has 13 bytes, 5 for each meter: 2 are",
        ),
        (list(&[(1, 1, 1), (7, 1, 1)]), "standard input, meter 2: type 7 is none of"),
        (TWO_BYTES.repeat(5), "standard input, meter 9: it is one too many: the list has 10 meters"),
        (Vec::new(), "standard input, list of meters: the file is empty: it has 0 bytes; a meter has 5"),
    ] {
        let ran = office_with(&["meter", OWN, "-"], &bytes);
        assert_eq!((ran.status, ran.error.as_str()), (1, ""), "{place}");
        assert!(ran.text().contains("refused 17: ") && ran.text().contains(place), "{place}: {}", ran.text());
    }
    let empty = office_with(&["meter", OWN, "-"], b"").text();
    assert!(empty.starts_with("standard input is empty; `office new meters` gives a list of meters to start from\n"));
    // The house is judged first.
    let ran = office_with(&["meter", "examples/mistakes/circle.txt", "-"], b"");
    assert!(ran.text().contains("refused 5: ") && ran.text().contains("line 10, section 2"), "{}", ran.text());
}

#[test]
fn a_list_and_its_record_answer_alike() {
    let (file, house) = (scratch("alike.meters"), scratch("alike-own.job"));
    assert_eq!(office(&["pack", METERS, "-o", &file]).status, 0);
    assert_eq!(office(&["pack", OWN, "-o", &house]).status, 0);
    let strip = |printed: &str| {
        let mut value = json::parse(printed);
        if let Value::Object(fields) = &mut value {
            fields.remove("files");
            if let Some(Value::List(meters)) = fields.get_mut("meters") {
                meters.iter_mut().for_each(|meter| {
                    if let Value::Object(meter) = meter {
                        meter.remove("name");
                    }
                });
            }
        }
        value
    };
    let json = |words: &[&str]| strip(&office(&[words, &["--json"]].concat()).text());
    assert_eq!(json(&["meter", OWN, METERS]), json(&["meter", &house, &file]));
    assert_eq!(json(&["meter", OWN, METERS]), json(&["meter", "--record", &house, "--record", &file]));
    let shown = office(&["show", &file]);
    assert_eq!(shown.text(), meters::show(&std::fs::read(&file).expect("there")).expect("a list"));
    assert_eq!(office_with(&["pack", "-"], &shown.output).output, std::fs::read(&file).expect("there"));
    let fields = json::parse(&office(&["show", &file, "--json"]).text());
    assert_eq!(fields.get("kind"), &Value::Text("meters".to_string()));
    assert_eq!(fields.list("meters")[4].number("resistance_ten_thousandths"), 1_430);
    assert_eq!(fields.list("meters")[4].get("type_name"), &Value::Text("turbine".to_string()));
}

#[test]
fn the_right_file_in_the_wrong_place_is_named() {
    let (record, job) = (scratch("wrong-place.meters"), scratch("wrong-place.job"));
    assert_eq!(office(&["pack", METERS, "-o", &record]).status, 0);
    assert_eq!(office(&["pack", HOUSE, "-o", &job]).status, 0);
    let cases: [(&[&str], &str); 10] = [
        (&["flow", METERS], "is a list of meters; a house is expected"),
        (&["flow", &record], "is a list of meters; a house is expected"),
        (&["choose", HOUSE, METERS], "is a list of meters; a table of sizes is expected"),
        (&["choose", HOUSE, &record], "is a list of meters; a table of sizes is expected"),
        (&["meter", METERS, HOUSE], "is a list of meters; a house is expected"),
        (&["meter", HOUSE, HOUSE], "is a house; a list of meters is expected"),
        (&["meter", HOUSE, "examples/table.csv"], "is a table of sizes; a list of meters is expected"),
        (&["meter", "examples/table.csv", METERS], "is a table of sizes; a house is expected"),
        (&["pack", &record], "it is the record of a list of meters; `office show` shows it"),
        (&["show", METERS], "is readable already"),
    ];
    for (words, why) in cases {
        let ran = office(words);
        assert!(ran.status == 2 && ran.output.is_empty() && ran.error.contains(why), "{words:?}: {}", ran.error);
    }
    let twice = office(&["meter", HOUSE, &job]);
    assert_eq!(twice.status, 1);
    assert!(twice.text().contains("these bytes have the length of a job record; a list of meters is expected"));
    let cat = scratch("wrong-place.cat");
    assert_eq!(office(&["pack", "examples/table.csv", "-o", &cat]).status, 0);
    let table = office(&["meter", &cat, METERS]);
    assert!(table.text().contains("the length of a catalogue; a job record is expected"), "{}", table.text());
    assert!(!table::is_table("type,resistance m/(l/s)2\n") && meters::is_list("type,resistance m/(l/s)2\n"));
    assert!(!meters::is_list(&read("examples/table.csv")) && !meters::is_list(&read(HOUSE)));
    let typed = read("examples/table.csv").replace("slope mm/m\n", "slope mm/m,type\n");
    assert!(!meters::is_list(&typed), "a table with a column too many is a table");
}

/// A record of meters is told by its first byte and its types; one that is damaged is shown where that is asked for.
#[test]
fn a_record_of_meters_is_known() {
    let odd = list(&[(3, 5_000, 6_400)]);
    assert_eq!(office_with(&["show", "-"], &odd).status, 2);
    let shown = office_with(&["show", "--record", "-"], &odd);
    assert_eq!((shown.status, shown.text().lines().last()), (1, Some("3,0.5000,6400")), "{}", shown.error);
    assert!(shown.error.contains("refused 17: ") && shown.error.contains("meter 1: type 3 is none of"));
    let ran = office_with(&["meter", OWN, "--record", "-"], &odd);
    assert!(ran.status == 1 && ran.text().contains("meter 1: type 3"), "{}", ran.text());
    assert!(office_with(&["meter", OWN, "-"], &odd).error.contains("read with --record"));
    // Nine meters are no list that the library takes, and are shown all the same.
    let nine = office_with(&["show", "-"], &list(&[(1, 5_000, 6_400); 9]));
    assert_eq!((nine.status, nine.text().lines().count()), (1, 10), "{}", nine.error);
    // Eight meters have the length of a job without sections where byte 6 is 0; their types tell.
    let eight = list(&[(1, 200, 6_400); 8]);
    assert_eq!(eight[6], 0);
    assert_eq!(office_with(&["show", "-"], &eight).text(), meters::show(&eight).expect("a list"));
    assert_eq!(office_with(&["show", "--record", "-"], &eight).text(), meters::show(&eight).expect("a list"));
    let cut = office_with(&["show", "-"], &TWO_BYTES[..8]);
    assert!(
        cut.status == 2 && cut.error.contains("no list of meters: 8 bytes, but 5 for each meter are 5"),
        "{}",
        cut.error
    );
}

/// The house with the loss: the same bytes but for the number, whatever the text is saved as.
#[test]
fn a_readable_house_keeps_every_other_byte() {
    let own = read(OWN).replace("meter loss      50 cm", "Meter Loss:   50 cm;   # Zähler, 50 cm geschätzt");
    let wide = |text: &str| -> Vec<u8> {
        [0xfeff].into_iter().chain(text.encode_utf16()).flat_map(u16::to_be_bytes).collect()
    };
    let forms: [fn(&str) -> Vec<u8>; 6] = [
        |text| text.as_bytes().to_vec(),
        |text| text.replace('\n', "\r\n").into_bytes(),
        |text| text.replace('\n', "\r").into_bytes(),
        |text| format!("\u{feff}{text}\u{1a}").into_bytes(),
        |text| [b"# \xea\xf3\xf5\xed\xff\n", text.as_bytes()].concat(),
        |text| text.trim_end().as_bytes().to_vec(),
    ];
    let after = put(&own, " 50 cm;", " 61 cm;");
    let mut saved: Vec<(Vec<u8>, Vec<u8>)> = forms.iter().map(|form| (form(&own), form(&after))).collect();
    saved.push((wide(&own), wide(&after)));
    let metres = put(&own, " 50 cm;", " 0.50 m;");
    saved.push((metres.clone().into_bytes(), put(&metres, " 0.50 m;", " 0.61 m;").into_bytes()));
    for (before, after) in saved {
        let (house, list, kept) = (scratch("kept-before.txt"), scratch("kept.csv"), scratch("kept-after.txt"));
        std::fs::write(&house, &before).expect("written");
        std::fs::write(&list, TWO).expect("written");
        let ran = office(&["meter", &house, &list, "-o", &kept]);
        assert_eq!((ran.status, ran.error.as_str()), (0, ""));
        assert!(ran.text().contains("  * qualifies"), "the answer stands on standard output");
        assert_eq!(std::fs::read(&kept).expect("written"), after);
        let dashed = office(&["meter", &house, &list, "-o", "-"]);
        assert_eq!((dashed.status, dashed.output), (0, after));
        let metered = calls::meter(&office(&["pack", &house]).output, &TWO_BYTES).expect("it qualifies");
        assert_eq!(office(&["pack", &kept]).output, metered.job, "read again it is the library's record");
    }
}

#[test]
fn a_record_stays_a_record() {
    let (house, list, kept) = (scratch("record.job"), scratch("record.csv"), scratch("record-after.job"));
    assert_eq!(office(&["pack", HOUSE, "-o", &house]).status, 0);
    std::fs::write(&list, TWO).expect("written");
    let job = std::fs::read(&house).expect("there");
    let metered = calls::meter(&job, &TWO_BYTES).expect("it qualifies");
    // 2,289 × 2,289 is 5,239,521; 1,430 times that over 100,000,000 is 74.9.
    assert_eq!((metered.place, &metered.job[8..10]), (2, &[0, 75][..]));
    let printed = office(&["meter", &house, &list, "-o", &kept, "--json"]);
    assert_eq!(std::fs::read(&kept).expect("written"), metered.job);
    let hex: String = metered.job.iter().map(|byte| format!("{byte:02x}")).collect();
    let printed = json::parse(&printed.text());
    assert_eq!(printed.get("record"), &Value::Text(hex));
    assert_eq!((printed.number("meter_loss_cm"), printed.number("former_meter_loss_cm")), (75, 120));
    assert_eq!(office(&["meter", &house, &list, "-o", "-"]).output, metered.job);
    let both = office(&["meter", &house, &list, "-o", "-", "--json"]);
    assert!(both.status == 2 && both.error.contains("`-o -` sends the house to standard output"), "{}", both.error);
}

/// What is written is taken by the other commands, and gives what the library gives for the library's record.
#[test]
fn the_house_written_is_chosen_for() {
    let kept = scratch("chosen-for.txt");
    assert_eq!(office(&["meter", HOUSE, METERS, "-o", &kept]).status, 0);
    let job = calls::meter(&house::pack(&read(HOUSE)).expect("a house"), &meters::pack(&read(METERS)).expect("a list"));
    let job = job.expect("one qualifies").job;
    let cat = table::pack(&read("examples/table.csv")).expect("a table");
    let choice = calls::choose(&job, &cat).expect("some list suits");
    let printed = json::parse(&office(&["choose", &kept, "examples/table.csv", "--json"]).text());
    assert_eq!(printed.number("cost_tenths"), i64::from(choice.cost));
    let rating = calls::rate(&job, &cat, &choice.sizes).expect("rated");
    assert_eq!(printed.number("required_head_cm"), i64::from(rating.required));
}

/// Document 01's own case as a record.
fn own_job() -> Vec<u8> {
    house::pack(&read(OWN)).expect("a house")
}

/// The number of a refusal and its places.
fn refused(job: &[u8], meters: &[u8]) -> (u32, Vec<Place>) {
    let refusal = calls::meter(job, meters).expect_err("refused");
    (refusal.number(), places(&refusal, &Asked { job, meters, ..Asked::default() }))
}

fn check(found: (u32, Vec<Place>), number: u32, at: At, why: &str) {
    let words: Vec<String> = found.1.iter().map(Place::to_string).collect();
    assert_eq!(found.0, number, "{words:?}");
    assert!(found.1.iter().any(|place| place.at == at && place.why.contains(why)), "{number} {why}: {words:?}");
}

#[test]
fn the_rules_of_a_list_of_meters() {
    let own = own_job();
    let (vane, turbine) = (list(&[(1, 5_000, 6_400)]), list(&[(2, 1_430, 12_000)]));
    let both = [&vane[..], &turbine].concat();
    check(refused(&own, &[]), 17, At::Meters, "the file is empty: it has 0 bytes; a meter has 5");
    check(refused(&own, &both[..9]), 17, At::Meter(2), "the list has 9 bytes, 5 for each meter: 1 is missing here");
    check(refused(&own, &both[..8]), 17, At::Meter(2), "the list has 8 bytes, 5 for each meter: 2 are missing here");
    check(refused(&own, &vane.repeat(9)), 17, At::Meter(9), "one too many: the list has 9 meters, and the most is 8");
    let of = |odd: Vec<u8>| refused(&own, &[&vane[..], &odd, &turbine].concat());
    check(of(list(&[(0, 1, 1)])), 17, At::Meter(2), "type 0 is none of 1 (vane) and 2 (turbine)");
    check(of(list(&[(3, 1, 1)])), 17, At::Meter(2), "type 3 is none of");
    check(of(list(&[(1, 0, 1)])), 17, At::Meter(2), "resistance 0; the least is 0.0001 m/(l/s)2");
    check(of(list(&[(2, 1, 0)])), 17, At::Meter(2), "service flow 0 l/h; the least is 1");
    assert_eq!(of(list(&[(9, 0, 0)])).1.len(), 3, "all that is wrong with a meter");
    let cat = table::pack(&read("examples/own-case.csv")).expect("a table");
    for (other, what) in [(&own, "a job record; a list of meters is"), (&cat, "a catalogue; a list of meters is")] {
        let found = refused(&own, other);
        assert_eq!(found.1.len(), 1, "what else is wrong says nothing");
        check(found, 17, At::Meters, &format!("these bytes have the length of {what}"));
    }
    // A refusal of the house comes first, and its place is the house's.
    check(refused(&own[..49], &[]), 1, At::Field(Field::Stated), "states 50 bytes and has 49");
}

/// The own case has 2,052 ml/s and a mean hour of 740 l/h; 2,052 × 2,052 is 4,210,704.
#[test]
fn why_no_meter_qualifies() {
    let own = own_job();
    // 13,000 × 4,210,704 / 100,000,000 is 547.4.
    let dn_32 = "at 2052 ml/s it loses 548 cm, 48 cm over the 500 cm of a vane meter";
    check(refused(&own, &list(&[(1, 13_000, 4_000)])), 18, At::Meter(1), dn_32);
    let small = refused(&own, &list(&[(2, 5_938, 740), (1, 1, 739), (2, 26_000, 100)]));
    assert_eq!(small.1.len(), 4, "each meter, and what would do");
    // 5,938 × 4,210,704 / 100,000,000 is 250.03.
    check(small.clone(), 18, At::Meter(1), "it loses 251 cm, 1 cm over the 250 cm of a turbine meter");
    check(small.clone(), 18, At::Meter(2), "the mean hour of 740 l/h is 1 l/h over its service flow of 739 l/h");
    check(
        small.clone(),
        18,
        At::Meter(3),
        "845 cm over the 250 cm of a turbine meter; the mean hour of 740 l/h is 640",
    );
    let would = "a vane meter of at most 1.1874 m/(l/s)2 or a turbine meter of at most 0.5937 m/(l/s)2 with a service flow \
        of at least 740 l/h would do";
    check(small, 18, At::House, would);
    // What would do does, and no more resistance does.
    for (design, most) in [(1, 11_874), (2, 5_937)] {
        assert!(calls::meter(&own, &list(&[(design, most, 740)])).is_ok());
        assert_eq!(calls::meter(&own, &list(&[(design, most + 1, 740)])), Err(Refusal::NoMeter));
    }
    // 4,000 residents of kind 1 with 400 litres each on the greatest day, all of it in one hour.
    let crowded =
        read(OWN).replace("hours           24", "hours 1").replace("residents hotel-75 71", "residents dwelling 4000");
    let crowded = crowded.replace("kind hotel-75 fixtures 80", "kind dwelling fixtures 60000");
    let crowded = refused(&house::pack(&crowded).expect("a house"), &list(&[(2, 1, 65_535)]));
    check(crowded, 18, At::House, "its mean hour is 1600000 l/h, and a list holds service flows to 65535 l/h");
}
