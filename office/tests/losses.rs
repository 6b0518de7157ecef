//! Lists of losses, `office losses` and `office heads`: figures by hand from documents 01 and 02, mistakes, refusals, and losses
//! that are not of the house.

#[path = "tools/json.rs"]
mod json;
#[path = "tools/lists.rs"]
mod lists;
#[path = "tools/run.rs"]
mod run;

use json::Value;
use lists::{Slip, are_named, put};
use office::answer::{self, Printed};
use office::at::{At, Field};
use office::mistake::Mistake;
use office::places::{Asked, Place, places};
use office::record::Record;
use office::{Refusal, calls, house, loss, losses, table};
use run::{office, office_with, read, scratch};

const OWN: &str = "examples/own-case.txt";
const OWN_TABLE: &str = "examples/own-case.csv";
const HOUSE: &str = "examples/house.txt";
const TABLE: &str = "examples/table.csv";
const LOSSES: &str = "examples/losses.csv";
/// The cheapest sizes of the example house.
const SIZES: &str = "5,4,4,3,3,5,4,3,3,1,1,2";

const THREE: &str = "section,loss cm\n1,133\n2,73\n3,51\n";
const THREE_BYTES: [u8; 12] = [0, 0, 0, 133, 0, 0, 0, 73, 0, 0, 0, 51];

fn own_job() -> Vec<u8> {
    house::pack(&read(OWN)).expect("a house")
}

#[test]
fn the_example_by_its_bytes() {
    let packed = losses::read(&read(LOSSES)).expect("a list");
    let wanted = [133, 73, 51, 52, 28, 56, 64, 55, 31, 447, 59, 38];
    assert_eq!(packed.bytes, wanted.map(u32::to_be_bytes).concat());
    assert_eq!((packed.lines.of(At::Loss(1)), packed.lines.of(At::Loss(12))), (Some(5), Some(16)));
    assert_eq!(office(&["pack", LOSSES, "--strict"]).output, packed.bytes, "the library takes it without a warning");
}

#[test]
fn every_list_of_whole_losses_comes_back() {
    let mut dice: u64 = 0x2545_f491_4f6c_dd1d;
    let mut next = || {
        dice ^= dice << 13;
        dice ^= dice >> 7;
        dice ^= dice << 17;
        dice
    };
    for turn in 0..3_000 {
        let own: Vec<u32> = (0..1 + turn % 63).map(|_| (next() >> (next() % 64)) as u32).collect();
        let bytes = loss::bytes(&own);
        let text = losses::show(&bytes).expect("whole losses");
        assert!(losses::is_list(&text), "{text}");
        assert_eq!(losses::pack(&text).as_ref(), Ok(&bytes), "{text}");
        assert_eq!(loss::read(&bytes), Ok(own));
    }
    for bytes in [&[][..], &[0], &[0, 0, 1], &[0, 0, 1, 0, 2], &[0; 256]] {
        assert!(losses::show(bytes).is_err());
    }
}

#[test]
fn what_can_mean_one_thing_is_taken() {
    let rows = THREE.split_once('\n').expect("a header").1;
    let texts = [
        THREE.replace(',', ";"),
        THREE.replace(',', "\t"),
        format!("sep=;\n{}", THREE.replace(',', ";")),
        format!("sep=\t\n{}", THREE.replace(',', "\t")),
        THREE.replace('\n', "\r\n"),
        THREE.replace('\n', "\r"),
        THREE.to_uppercase(),
        format!("# riser A\n\n{THREE},\n"),
        format!("section,loss (cm)\n{rows}"),
        format!("Section,\"loss, cm\"\n{rows}"),
        format!("section,loss [см]\n{rows}"),
        "section,loss m\n1,1.33\n2,0.73\n3,0.510000\n".to_string(),
        "section,loss (м)\n1,1.33\n2,0.73\n3,0.51\n".to_string(),
        "loss cm,section\n133,1\n73,2\n51,3\n".to_string(),
        "section,loss cm\n3,51\n1,133\n2,73\n".to_string(),
        put(THREE, "2,73", "02,0073 # at noon"),
        put(THREE, "2,73", "\"2\",\"73\""),
        "section,loss cm,notes\n1,133,measured\n2,73,\n3,51,no 3 is new\n".to_string(),
        "section;loss cm;remark\n1;133;2 bends\n2;73;\n3;51;7\n".to_string(),
        "notes,section,loss cm\nmain,1,133\nriser,2,73\n,3,51\n".to_string(),
    ];
    for text in texts {
        let ran = office_with(&["pack", "-"], text.as_bytes());
        assert_eq!((ran.status, ran.output.as_slice()), (0, &THREE_BYTES[..]), "{text}{}", ran.error);
    }
}

const SLIPS: &[Slip] = &[
    (
        "loss cm",
        "loss",
        1,
        "its unit, cm or m, is missing",
        "`section,loss cm`; `loss m` in place of `loss cm`, a column",
    ),
    (
        "loss cm",
        "loss mm",
        1,
        "`loss mm` is no column of a list of losses: the loss is in cm or m",
        "`section,loss cm`",
    ),
    ("loss cm", "loss cm,loss m", 1, "the column `loss cm` is there twice", "`section,loss cm`"),
    ("section,", "section,section,", 1, "the column `section` is there twice", "`section,loss cm`"),
    ("section,", "no,section,", 1, "`no` is no column of a list of losses", "rename it `notes` if it is for people"),
    ("2,73", "2,73.5", 3, "`73.5` for `loss cm` is finer than the record keeps", "a whole number of cm, 0 to 4259775"),
    ("2,73", "2,73.0", 3, "`73.0` for `loss cm` has a point", "write 73 if that is meant"),
    ("2,73", "2,-73", 3, "`-73` for `loss cm` has a sign", "0 to 4259775"),
    ("2,73", "2,+73", 3, "`+73` for `loss cm` has a sign", "0 to 4259775"),
    ("2,73", "2,\"0,73\"", 3, "`0,73` for `loss cm` has a comma", "nothing between thousands"),
    ("2,73", "2,1,073", 3, "`073` stands under no column", "a comma within a number makes two cells of it"),
    ("2,73", "2,", 3, "`loss cm` is empty", "a whole number of cm, 0 to 4259775"),
    ("2,73", "2", 3, "`loss cm` is empty", "a whole number of cm"),
    ("2,73", "2,73 cm", 3, "more than the number stands in it", "the number alone; its unit stands in the header"),
    ("2,73", "2,7e1", 3, "it has a power of ten", "a whole number of cm"),
    ("2,73", "2,much", 3, "`much` is no number for `loss cm`", "for example 71"),
    ("2,73", "2,4294967296", 3, "4294967296 is 1 more than its bytes can hold", "0 to 4259775"),
    ("2,73", "2,7#3", 3, "`#` stands within a word", "no # in a name or number"),
    ("2,73", "3,73", 4, "`loss of section 3` is given twice", "one line; the first is line 3"),
    (
        "2,73\n",
        "",
        3,
        "section 2 is missing: this line is section 3",
        "a line for section 2; sections number from 1 to 3",
    ),
    ("1,133\n2,73\n", "", 2, "sections 1 to 2 are missing: this line is section 3", "a line for section 1"),
    ("2,73", "0,73", 3, "`0` is no section's number", "a number from 1 to 63"),
    ("2,73", "64,73", 3, "`64` is no section's number", "a number from 1 to 63"),
    ("2,73", "300,73", 3, "`300` is no section's number", "a number from 1 to 63"),
    ("2,73", ",73", 3, "`section` is empty", "a whole number, 1 to 63"),
    ("2,73", "two,73", 3, "`two` is no number for `section`", "1 to 63"),
    ("2,73", "-2,73", 3, "`-2` for `section` has a sign", "1 to 63"),
    ("2,73", "2.0,73", 3, "`2.0` for `section` has a point", "write 2 if that is meant"),
];

fn first(text: &str) -> Mistake {
    lists::first(losses::pack, text)
}

#[test]
fn mistakes_name_their_line_and_what_is_wrong() {
    are_named(SLIPS, THREE, losses::pack, &["heads", HOUSE, "-"]);
    let metres = "section,loss m\n1,1.33\n2,0.73\n3,0.51\n";
    for (from, to, wrong, expected) in [
        (
            "0.73",
            "0.735",
            "`0.735` for `loss m` is finer than the record keeps",
            "0.00 to 42597.75 m, with at most two decimals, as 0.04; 0.74 is the next that states no less loss",
        ),
        ("0.73", "1.735", "`1.735` for `loss m` may be 1.735 or 1735", "fewer decimals"),
        ("0.73", "42949672.96", "is 0.01 more than its bytes can hold", "0.00 to 42597.75 m"),
        ("0.73", "\"0,73\"", "`0,73` for `loss m` has a comma", "a point before decimals"),
    ] {
        let mistake = first(&put(metres, from, to));
        assert!(mistake.wrong.contains(wrong) && mistake.expected.contains(expected), "{to}: {mistake}");
    }
    for text in ["# nothing\n", "section,loss cm\n"] {
        let mistake = first(text);
        let wanted = "`section,loss cm`, and below it a line for each section of the house, 1 to 63";
        assert!(mistake.line.is_none() && mistake.expected == wanted, "{mistake}");
    }
    // All mistakes come at once, and a section with a mistake in it is not called missing too.
    let all = losses::pack("section,loss cm\n1,a\n3,b\n2,c\n").expect_err("three");
    assert_eq!((all.list.len(), all.more), (3, 0), "{all}");
}

/// Document 01's own case: 50 + 600 + 200 and the loss; left are 1,200 - 50 - 71 - 600.
#[test]
fn the_own_case_in_two_steps() {
    let lost = office(&["losses", OWN, OWN_TABLE, "2"]);
    let wanted = "\
sizes  2

section  from  kind      size  bore  length  flow  velocity  loss
                                 mm       m  ml/s      mm/s    cm
      1  pump  hotel-75     2    50    10.0  2052      1026    71
loss: what the section's own pipe loses at its flow, with its local losses; `office heads` gives the heads with such losses
";
    assert_eq!((lost.status, lost.text().as_str(), lost.error.as_str()), (0, wanted, ""));
    let heads = office_with(&["heads", OWN, "-"], b"section,loss cm\n1,71\n");
    let wanted = "\
pump set: 2052 ml/s at 421 cm
design flow         2052 ml/s for the pump set to deliver
greatest hour       4542 l/h
greatest day       17750 l
mean hour            740 l/h
required head        921 cm
pump head            421 cm over the guaranteed 500 cm
delivered head      1200 cm
to spare             279 cm
dictating section      1
required head: meter loss 50 + elevation 600 + free head 200 + losses 71 = 921 cm
losses from section 1 to the pump: 71 (section 1) = 71 cm

section  from  kind      length  flow  loss  left  free
                              m  ml/s    cm    cm    cm
      1  pump  hotel-75    10.0  2052    71   479   200  *
left: head left at the end when the delivered head is delivered; * lies on the dictating path
loss: as given, and not worked out from a table of sizes; it is to be what the section's own pipe loses at its flow
";
    assert_eq!((heads.status, heads.text().as_str(), heads.error.as_str()), (0, wanted, ""));
    // 850 + 351 is 1 cm over the delivered head.
    let short = office_with(&["heads", OWN, "-"], b"section,loss m\n1,3.51\n").text();
    assert!(
        short.contains("\nto spare              -1 cm: TOO LITTLE HEAD\n") && short.contains(" SHORT\n"),
        "{short}"
    );
}

/// Riser B of the example, measured: 133 + 56 + 64 + 55 + 31 are 339 cm to section 9, and 337 to section 5. With 120 cm for the
/// meter, 1,040 of elevation and 300 free that is 1,799, and 899 over the guaranteed 900.
#[test]
fn measured_losses_move_the_dictating_section() {
    let text = office(&["heads", HOUSE, LOSSES]).text();
    assert!(text.starts_with("pump set: 2289 ml/s at 899 cm\n"), "{text}");
    for line in [
        "required head: meter loss 120 + elevation 1040 + free head 300 + losses 339 = 1799 cm",
        "losses from section 9 to the pump: 31 (section 9) + 55 (section 8) + 64 (section 7) + 56 (section 6) + 133 (section 1) = \
         339 cm",
        "dictating section      9",
        "to spare               1 cm",
    ] {
        assert!(text.lines().any(|own| own == line), "{line}: {text}");
    }
    let printed = json::parse(&office(&["heads", HOUSE, LOSSES, "--json"]).text());
    let path: Vec<Value> = [9, 8, 7, 6, 1].map(Value::Number).to_vec();
    assert_eq!((printed.list("dictating_path"), printed.number("path_loss_cm")), (&path[..], 339));
    assert_eq!((printed.number("required_head_cm"), printed.number("pump_head_cm")), (1_799, 899));
    assert_eq!(printed.list("sections")[6].number("loss_cm"), 64);
    // Without the measures section 5 dictates, as the rating of the example has it.
    let rated = office(&["losses", HOUSE, TABLE, SIZES, "--json"]);
    let printed = json::parse(&office_with(&["heads", HOUSE, "-", "--json"], &rated.output).text());
    assert_eq!((printed.number("required_head_cm"), printed.number("dictating_section")), (1_797, 5));
}

/// A way of more than eight sections is added up and not written out: nine of 7 cm each.
#[test]
fn a_long_way_stays_a_line() {
    let head = read(OWN).split("section 1").next().expect("the fields").to_string();
    let section = |number: u8| {
        let from = if number == 1 { "pump".to_string() } else { (number - 1).to_string() };
        format!("section {number} from {from} length 1 m elevation 0 cm kind hotel-75 fixtures 80 free 200 cm\n")
    };
    for (sections, said) in
        [(8, "7 (section 1) = 56 cm\n"), (9, "to the pump: 63 cm in 9 sections, which have a * below\n")]
    {
        let (file, house) = (scratch("long-way.txt"), (1..=sections).map(section).collect::<String>());
        std::fs::write(&file, format!("{head}{house}")).expect("written");
        let list: String = (1..=sections).map(|number| format!("{number},7\n")).collect();
        let text = office_with(&["heads", &file, "-"], format!("section,loss cm\n{list}").as_bytes()).text();
        assert!(text.contains(said), "{text}");
    }
}

fn keyed(value: &Value, keys: &[&str]) -> Vec<Value> {
    keys.iter().map(|key| value.get(key).clone()).collect()
}

/// The two in turn show what `rate` shows, and refuse as it does, in the same words.
#[test]
fn the_two_in_turn_are_the_rating() {
    let mixed = "examples/mixed.txt";
    for (house, sizes) in [(HOUSE, SIZES), (HOUSE, "6,6,6,6,6,6,6,6,6,6,6,6"), (mixed, "6,6,6,6,6,6,6")] {
        let rated = json::parse(&office(&["rate", house, TABLE, sizes, "--json"]).text());
        let lost = office(&["losses", house, TABLE, sizes, "--json"]);
        let headed = office_with(&["heads", house, "-", "--json"], &lost.output);
        assert_eq!(headed.status, 0, "{}", headed.error);
        let (lost, headed) = (json::parse(&lost.text()), json::parse(&headed.text()));
        let house =
            ["duty_ml_per_s", "hour_l_per_h", "local_losses_tenths", "suits", "required_head_cm", "pump_head_cm"];
        let heads = ["guaranteed_head_cm", "delivered_head_cm", "dictating_section"];
        assert_eq!(keyed(&rated, &house), keyed(&headed, &house));
        assert_eq!(keyed(&rated, &heads), keyed(&headed, &heads));
        let sections = rated.list("sections").iter().zip(lost.list("sections")).zip(headed.list("sections"));
        for ((rated, lost), headed) in sections {
            let own = ["section", "parent", "length_dm", "flow_ml_per_s", "one_tap_kinds", "loss_cm"];
            assert!(keyed(rated, &own) == keyed(lost, &own) && keyed(rated, &own) == keyed(headed, &own), "{lost:?}");
            assert_eq!(
                keyed(rated, &["size", "bore_mm", "velocity_mm_per_s"]),
                keyed(lost, &["size", "bore_mm", "velocity_mm_per_s"])
            );
            assert_eq!(
                keyed(rated, &["head_left_cm", "free_head_cm"]),
                keyed(headed, &["head_left_cm", "free_head_cm"])
            );
        }
    }
}

/// The answers of `rate`, `choose` and `heads` itself have the same losses.
#[test]
fn other_answers_with_losses_are_taken() {
    let lost = office(&["losses", HOUSE, TABLE, SIZES, "--json"]).output;
    let text = office_with(&["heads", HOUSE, "-"], &lost).text();
    assert!(text.starts_with("pump set: 2289 ml/s at 897 cm\n"), "{text}");
    let headed = office_with(&["heads", HOUSE, "-", "--json"], &lost).output;
    for answer in [
        office(&["rate", HOUSE, TABLE, SIZES, "--json"]).output,
        office(&["choose", HOUSE, TABLE, "--json"]).output,
        headed,
    ] {
        let ran = office_with(&["heads", HOUSE, "-"], &answer);
        assert_eq!((ran.status, ran.text()), (0, text.clone()), "{}", ran.error);
    }
}

#[test]
fn losses_refuses_as_rate_does() {
    let too_small = "1,4,4,3,3,5,4,3,3,1,1,2";
    for words in [
        [HOUSE, TABLE, too_small],
        [HOUSE, TABLE, "1,2"],
        [HOUSE, TABLE, "7,7,7,7,7,7,7,7,7,7,7,7"],
        [HOUSE, "examples/mistakes/falling-velocity.csv", SIZES],
        ["examples/mistakes/circle.txt", TABLE, SIZES],
        ["examples/mistakes/missing-unit.txt", TABLE, SIZES],
    ] {
        let [rate, losses] = ["rate", "losses"].map(|command| office(&[&[command], &words[..]].concat()));
        assert!(rate.status > 0 && rate.status == losses.status, "{words:?}");
        assert_eq!((rate.output, rate.error), (losses.output, losses.error), "{words:?}");
    }
}

/// `one tap of` stands behind a flow as in `rate`, with what it means.
#[test]
fn the_table_of_losses_marks_one_tap() {
    let lost = office(&["losses", "examples/mixed.txt", TABLE, "4,4,4,3,1,1,1"]).text();
    let rated = office(&["rate", "examples/mixed.txt", TABLE, "4,4,4,3,1,1,1"]).text();
    for text in [&lost, &rated] {
        assert!(text.contains("flow: one tap of hotel-100\n") && text.contains("\none tap of a kind: "), "{text}");
    }
    assert!(!lost.contains("left") && !lost.contains("head left") && !lost.contains('*'), "{lost}");
    let plain = office(&["losses", HOUSE, TABLE, SIZES]).text();
    assert!(!plain.contains("one tap"), "{plain}");
}

/// Losses that were worked out for another house, or for this one before a change, are not taken; the first difference is named.
#[test]
fn losses_of_another_house_are_not_taken() {
    let lost = office(&["losses", HOUSE, TABLE, SIZES, "--json"]).output;
    let house = read(HOUSE);
    for (from, to, why) in [
        ("residents hotel-75 84", "residents hotel-75 85", "section 1 has a flow of 2289 ml/s there and "),
        (
            "section  6 from 1    length 14.0 m",
            "section 6 from 1 length 14.1 m",
            "section 6 has a length of 14.0 m there and 14.1 m here",
        ),
        ("local losses    0.3", "local losses 0.2", "the house has local losses of 0.3 there and 0.2 here"),
        (
            "section 12 from 10 ",
            "section 12 from 6 ",
            "section 12 has its start at the end of section 10 there and the end of section 6 here",
        ),
    ] {
        let file = scratch("changed-house.txt");
        std::fs::write(&file, put(&house, from, to)).expect("written");
        let ran = office_with(&["heads", &file, "-"], &lost);
        assert_eq!((ran.status, ran.output.len()), (2, 0), "{to}");
        let wanted = format!("office: standard input is not of this house: {why}");
        assert!(ran.error.starts_with(&wanted), "{to}: {}", ran.error);
        assert!(ran.error.contains("made for another house, or for this one before a change; `office losses` works"));
    }
    // What the losses don't come of may change: elevations and heads.
    let higher = put(&house, "elevation  730 cm", "elevation 740 cm").replace("free 300 cm", "free 310 cm");
    let file = scratch("higher-house.txt");
    std::fs::write(&file, put(&higher, "meter loss      120 cm", "meter loss 75 cm")).expect("written");
    assert_eq!(office_with(&["heads", &file, "-"], &lost).status, 0);
    // Another count of sections is the library's to refuse.
    let other = office_with(&["heads", OWN, "-"], &lost);
    assert!(
        other.status == 1 && other.text().contains("losses given: 12; sections of the house: 1"),
        "{}",
        other.text()
    );
}

/// Two pipes that hang on each other's stem change no flow and no length.
#[test]
fn losses_of_another_tree_are_not_taken() {
    let head = read(OWN).split("section 1").next().expect("the fields").to_string();
    let section = |number: u8, from: &str| {
        format!("section {number} from {from} length 1 m elevation 0 cm kind hotel-75 fixtures 40 free 200 cm\n")
    };
    let tree = |parents: [&str; 4]| {
        head.clone() + &(1..).zip(parents).map(|(own, from)| section(own, from)).collect::<String>()
    };
    let [before, after] = ["tree-before.txt", "tree-after.txt"].map(scratch);
    std::fs::write(&before, tree(["pump", "pump", "1", "2"])).expect("written");
    std::fs::write(&after, tree(["pump", "pump", "2", "1"])).expect("written");
    let crossed = office(&["losses", &before, TABLE, "6,6,6,6", "--json"]).output;
    assert_eq!(office_with(&["heads", &before, "-"], &crossed).status, 0);
    let ran = office_with(&["heads", &after, "-"], &crossed);
    let why = "section 3 has its start at the end of section 1 there and the end of section 2 here";
    assert!(ran.status == 2 && ran.error.contains(why), "{}", ran.error);
}

/// What is put for what in the answer of `office losses`, what is wrong with it, and what is expected.
const SHAPES: &[(&str, &str, &str, &str)] = &[
    ("\"schema\":1", "\"schema\":2", "`schema` is not 1", "an answer of `office losses`"),
    ("\"schema\":1,", "", "the object has no key `schema`", "an answer of `office losses`"),
    (
        "\"command\":\"losses\"",
        "\"command\":\"flow\"",
        "it is an answer of `office flow`",
        "`office losses`, `rate`, `choose` or `heads` with `--json`",
    ),
    ("\"command\":\"losses\"", "\"command\":7", "`command` is no text", "with `--json`"),
    ("\"refusal\":null", "\"refusal\":{}", "the object has no key `number`", "an answer of"),
    ("\"refusal\":null", "\"refusal\":7", "no object stands here", "an answer of"),
    ("\"warnings\":[],", "", "the object has no key `warnings`", "an answer of"),
    ("\"warnings\":[]", "\"warnings\":null", "`warnings` is no list", "an answer of"),
    ("\"warnings\":[]", "\"warnings\":[{}]", "the object has no key `at`", "an answer of"),
    (
        "\"warnings\":[]",
        "\"warnings\":[{\"at\":\"a\",\"why\":\"b\",\"file\":7,\"line\":null}]",
        "`file` is no text",
        "an answer of",
    ),
    ("\"velocity_mm_per_s\":1026,", "", "the object has no key `velocity_mm_per_s`", "an answer of"),
    ("\"velocity_mm_per_s\":1026", "\"velocity_mm_per_s\":65536", "`velocity_mm_per_s` is out of range", "0 to 65535"),
    ("\"sections\":[", "\"sections\":7,\"rest\":[", "`sections` is no list", "an answer of"),
    ("\"sections\":[", "\"sections\":[],\"rest\":[", "`sections` is empty", "an answer of"),
    ("\"sections\":[", "\"rest\":[", "the object has no key `sections`", "an answer of"),
    ("\"local_losses_tenths\":3,", "", "the object has no key `local_losses_tenths`", "an answer of"),
    ("\"loss_cm\":71", "\"loss_cm\":71,\"loss_cm\":71", "the key `loss_cm` is there twice", "each key once"),
    ("\"loss_cm\":71", "\"loss_cm\":0.71", "`0.71` is no whole number of an answer", "a whole number"),
    ("\"loss_cm\":71", "\"loss_cm\":-71", "`loss_cm` is out of range", "0 to 4294967295"),
    ("\"loss_cm\":71", "\"loss_cm\":4294967296", "`loss_cm` is out of range", "0 to 4294967295"),
    ("\"loss_cm\":71", "\"loss_cm\":18446744073709551616", "`loss_cm` is out of range", "0 to 4294967295"),
    ("\"loss_cm\":71", "\"loss_cm\":1000000000000000000000000000000", "`loss_cm` is out of range", "0 to 4294967295"),
    ("\"loss_cm\":71", "\"loss_cm\":[[[[[[[[71]]]]]]]]", "deeper than in any answer", "as it was printed"),
    ("\"loss_cm\":71", "\"loss_cm\":\"71\"", "`loss_cm` is no number", "a whole number"),
    ("\"loss_cm\":71", "\"loss_cm\":null", "`loss_cm` is no number", "a whole number"),
    ("\"loss_cm\":71", "\"loss_m\":71", "the object has no key `loss_cm`", "an answer of"),
    ("\"flow_ml_per_s\":2052,", "", "the object has no key `flow_ml_per_s`", "an answer of"),
    ("\"length_dm\":100,", "", "the object has no key `length_dm`", "an answer of"),
    ("\"section\":1", "\"section\":2", "entry 1 of `sections` is section 2", "in their order, from 1 without a gap"),
    ("}]}", "}]}{}", "text follows the object", "nothing behind its last bracket"),
    ("}]}", "}]", "the text ends too early", "a comma or the object's end"),
    ("{\"section\"", "[\"section\"", "`:` stands here", "a comma or the list's end"),
];

#[test]
fn an_answer_is_read_strictly() {
    let answer = office(&["losses", OWN, OWN_TABLE, "2", "--json"]).text();
    assert_eq!(office_with(&["heads", OWN, "-"], answer.as_bytes()).status, 0);
    for (from, to, wrong, expected) in SHAPES {
        let text = put(&answer, from, to);
        let ran = office_with(&["heads", OWN, "-"], text.as_bytes());
        assert_eq!((ran.status, ran.output.len()), (2, 0), "{to}");
        assert!(
            ran.error.contains("office: standard input line 1: ") && ran.error.contains("wrong:    at character "),
            "{}",
            ran.error
        );
        assert!(ran.error.contains(wrong) && ran.error.contains(expected), "{to}: {}", ran.error);
    }
    // The place is counted in characters of its line.
    let at = 1 + answer.find("71").expect("the loss");
    let broken = office_with(&["heads", OWN, "-"], put(&answer, "\"loss_cm\":71", "\"loss_cm\":7.1").as_bytes()).error;
    assert!(broken.contains(&format!("at character {at}: `7.1` is no whole number")), "{broken}");
    // Keys that are not known, blanks, a mark in front, and UTF-16 as some shells write it change nothing.
    let wide: Vec<u8> = [0xfeff].into_iter().chain(answer.encode_utf16()).flat_map(u16::to_le_bytes).collect();
    let plain = office_with(&["heads", OWN, "-"], answer.as_bytes()).text();
    for other in [
        put(&answer, "{", "{\"later\":[{\"x\":null}],").into_bytes(),
        answer.replace(',', ",\r\n  ").into_bytes(),
        format!("\u{feff}\n{answer}").into_bytes(),
        wide,
    ] {
        let ran = office_with(&["heads", OWN, "-"], &other);
        assert_eq!((ran.status, ran.text()), (0, plain.clone()), "{}", ran.error);
    }
    let mistakes = json::parse(&office_with(&["heads", OWN, "-", "--json"], b"{\"schema\":7}").text());
    assert_eq!(mistakes.list("mistakes")[0].number("line"), 1);
}

/// The losses of an answer by the tests' own reader of JSON, which takes nothing that JSON does not.
fn by_another_reader(text: &str) -> Option<Vec<i64>> {
    let read = || {
        let value = json::parse(text);
        let sections = value.list("sections").to_vec();
        assert!(value.number("schema") == 1 && value.get("refusal") == &Value::Null);
        assert!((1..).zip(&sections).all(|(place, section)| section.number("section") == place));
        sections.iter().map(|section| section.number("loss_cm")).collect()
    };
    std::panic::catch_unwind(read).ok()
}

/// Changed answers are refused, or the other reader finds the same losses in them.
#[test]
fn a_changed_answer_is_not_misread() {
    let answer = office(&["losses", HOUSE, TABLE, SIZES, "--json"]).text();
    let pieces = ["", "0", "7", "-", ".", ",", ":", "\"", "{", "}", "[", "]", " ", "\n", "e", "null", "\"loss_cm\":1,"];
    let (mut taken, mut refused) = (0, 0);
    for turn in 0..20_000_usize {
        let at = turn * 7_919 % answer.len();
        let end = (at + turn % 3).min(answer.len());
        let text = format!("{}{}{}", &answer[..at], pieces[turn % pieces.len()], &answer[end..]);
        let Ok(Printed::Answer(found)) = answer::read(text.as_bytes()) else {
            refused += 1;
            continue;
        };
        taken += 1;
        let losses: Vec<i64> = found.losses().into_iter().map(i64::from).collect();
        assert_eq!(by_another_reader(&text), Some(losses), "{text}");
    }
    assert!(taken > 1_000 && refused > 10_000, "{taken} {refused}");
}

/// Each number that a loss comes of is held against the house: with another digit in it the answer is not of this house.
#[test]
fn every_number_that_a_loss_comes_of_is_held_against_the_house() {
    let answer = office(&["losses", HOUSE, TABLE, SIZES, "--json"]).text();
    let job = house::pack(&read(HOUSE)).expect("a house");
    let (record, flow) = (Record::read(&job).expect("a record"), calls::flow(&job).expect("accepted"));
    let difference = |text: &str| {
        let Ok(Printed::Answer(found)) = answer::read(text.as_bytes()) else { panic!("{text}") };
        found.difference(&record, &flow.flows)
    };
    assert_eq!(difference(&answer), None);
    let mut seen = 0;
    for key in ["\"local_losses_tenths\":", "\"parent\":", "\"length_dm\":", "\"flow_ml_per_s\":"] {
        for (at, _) in answer.match_indices(key) {
            let at = at + key.len();
            let digit = if &answer[at..=at] == "2" { "4" } else { "2" };
            let changed = format!("{}{digit}{}", &answer[..at], &answer[at + 1..]);
            assert!(difference(&changed).is_some(), "{key} {at}");
            seen += 1;
        }
    }
    assert_eq!(seen, 1 + 3 * 12);
}

#[test]
fn a_list_and_its_record_answer_alike() {
    let (file, job) = (scratch("alike.losses"), scratch("alike-house.job"));
    assert_eq!(office(&["pack", LOSSES, "-o", &file]).status, 0);
    assert_eq!(office(&["pack", HOUSE, "-o", &job]).status, 0);
    let text = office(&["heads", HOUSE, LOSSES]).text();
    for words in [
        &["heads", HOUSE, &file][..],
        &["heads", &job, &file],
        &["heads", "--record", &job, "--record", &file],
        &["heads", HOUSE, "--text", LOSSES],
    ] {
        assert_eq!(office(words).text(), text, "{words:?}");
    }
    let bytes = std::fs::read(&file).expect("there");
    let shown = office(&["show", &file]);
    assert_eq!((shown.status, shown.text()), (0, losses::show(&bytes).expect("a list")));
    assert_eq!(office_with(&["pack", "-"], &shown.output).output, bytes);
    let fields = json::parse(&office(&["show", &file, "--json"]).text());
    assert_eq!(fields.get("kind"), &Value::Text("losses".to_string()));
    assert_eq!(fields.list("losses")[9].number("loss_cm"), 447);
}

/// A record of losses is told by the first byte of each; one that is damaged there is shown where that is asked for. Ten losses
/// have the length of a job without sections.
#[test]
fn a_record_of_losses_is_known() {
    let ten = loss::bytes(&[40, 3, 1, 1, 1, 1, 1, 1, 1, 1]);
    assert_eq!(office_with(&["show", "-"], &ten).text(), losses::show(&ten).expect("a list"));
    let over = loss::bytes(&[71, 4_259_776]);
    let shown = office_with(&["show", "-"], &over);
    assert_eq!((shown.status, shown.text().lines().last()), (1, Some("2,4259776")), "{}", shown.error);
    assert!(
        shown.error.contains("refused 19: ")
            && shown.error.contains("loss of section 2: 4259776 cm is 1 cm over 4259775 cm")
    );
    let packed = office_with(&["pack", "-"], b"section,loss cm\n1,71\n2,4259776\n");
    assert_eq!((packed.status, &packed.output), (1, &over));
    assert!(packed.error.contains("standard input line 3, loss of section 2: 4259776 cm"), "{}", packed.error);
    let odd = loss::bytes(&[71, 1 << 24]);
    let neither = office_with(&["show", "-"], &odd);
    assert!(
        neither.status == 2 && neither.error.contains("no list of losses: 8 bytes, but the first of each 4 is not 0")
    );
    assert_eq!(office_with(&["show", "--record", "-"], &odd).text(), losses::show(&odd).expect("a list"));
    let cut = office_with(&["show", "-"], &over[..7]);
    assert!(
        cut.status == 2 && cut.error.contains("no list of losses: 7 bytes, but 4 for each section are 4"),
        "{}",
        cut.error
    );
}

#[test]
fn the_right_file_in_the_wrong_place_is_named() {
    let [record, meters, answer] = ["losses", "meters", "json"].map(|end| scratch(&format!("wrong-loss.{end}")));
    assert_eq!(office(&["pack", LOSSES, "-o", &record]).status, 0);
    assert_eq!(office(&["pack", "examples/meters.csv", "-o", &meters]).status, 0);
    assert_eq!(office(&["losses", HOUSE, TABLE, SIZES, "--json", "-o", &answer]).status, 0);
    let cases: [(&[&str], &str); 14] = [
        (&["flow", LOSSES], "is a list of losses; a house is expected"),
        (&["heads", LOSSES, HOUSE], "is a list of losses; a house is expected"),
        (&["choose", HOUSE, LOSSES], "is a list of losses; a table of sizes is expected"),
        (&["meter", HOUSE, LOSSES], "is a list of losses; a list of meters is expected"),
        (&["heads", HOUSE, HOUSE], "is a house; a list of losses is expected"),
        (&["heads", HOUSE, TABLE], "is a table of sizes; a list of losses is expected"),
        (&["heads", HOUSE, "examples/meters.csv"], "is a list of meters; a list of losses is expected"),
        (&["heads", HOUSE, &meters], "is a list of meters; a list of losses is expected"),
        (&["flow", &answer], "is an answer of `office` as JSON; a house is expected"),
        (&["choose", HOUSE, &answer], "is an answer of `office` as JSON; a table of sizes is expected"),
        (&["meter", HOUSE, &answer], "is an answer of `office` as JSON; a list of meters is expected"),
        (&["replay", &answer], "is an answer of `office` as JSON, and so no order to replay"),
        (&["show", LOSSES], "is readable already"),
        (&["pack", &record], "is no readable file"),
    ];
    for (words, why) in cases {
        let ran = office(words);
        assert!(ran.status == 2 && ran.output.is_empty() && ran.error.contains(why), "{words:?}: {}", ran.error);
    }
    for (text, why) in [
        (
            "5,4,3\n",
            "has nothing but numbers, as a list of sizes has; a list of losses has a header, `section,loss cm`",
        ),
        ("loss of 3: 71 cm\n", "is no list of losses: its first line is not `section,loss cm`"),
    ] {
        let ran = office_with(&["heads", HOUSE, "-"], text.as_bytes());
        assert!(ran.status == 2 && ran.error.contains(why), "{text}: {}", ran.error);
    }
    assert!(losses::is_list("section\tloss\n") && losses::is_list("Section ; Loss (m)\n"));
    assert!(
        !losses::is_list(&read(TABLE)) && !losses::is_list(&read(HOUSE)) && !losses::is_list("section\t1\tfrom pump\n")
    );
}

/// The same of records, which the library refuses.
#[test]
fn a_record_of_another_kind_is_named() {
    let [record, job, meters] = ["losses", "job", "meters"].map(|end| scratch(&format!("wrong-record.{end}")));
    assert_eq!(office(&["pack", LOSSES, "-o", &record]).status, 0);
    assert_eq!(office(&["pack", HOUSE, "-o", &job]).status, 0);
    assert_eq!(office(&["pack", "examples/meters.csv", "-o", &meters]).status, 0);
    let cat = scratch("wrong-record.cat");
    assert_eq!(office(&["pack", TABLE, "-o", &cat]).status, 0);
    let twelve: &[u8] = &[5, 4, 4, 3, 3, 5, 4, 3, 3, 1, 1, 2];
    for (ran, why) in [
        (office(&["heads", HOUSE, &job]), "these bytes have the length of a job record; a list of losses is expected"),
        (office(&["heads", HOUSE, &cat]), "these bytes have the length of a catalogue; a list of losses is expected"),
        (office_with(&["heads", HOUSE, "--record", "-"], twelve), "these bytes are a size number for each section"),
        (
            office(&["heads", HOUSE, "--record", &meters]),
            "these bytes are a list of meters; a list of losses is expected",
        ),
        (office(&["heads", &record, &job]), "these bytes are a list of losses; a job record is expected"),
    ] {
        assert!(ran.status == 1 && ran.text().contains(why), "{why}: {}", ran.text());
    }
}

/// The number of a refusal and its places.
fn refused(job: &[u8], losses: &[u8]) -> (u32, Vec<Place>) {
    let refusal = calls::heads(job, losses).expect_err("refused");
    (refusal.number(), places(&refusal, &Asked { job, losses, ..Asked::default() }))
}

fn check(found: (u32, Vec<Place>), number: u32, at: At, why: &str) {
    let words: Vec<String> = found.1.iter().map(Place::to_string).collect();
    assert_eq!(found.0, number, "{words:?}");
    assert!(found.1.iter().any(|place| place.at == at && place.why.contains(why)), "{number} {why}: {words:?}");
}

#[test]
fn the_rules_of_a_list_of_losses() {
    let own = own_job();
    check(refused(&own, &[]), 19, At::Losses, "the file is empty: it has 0 bytes; a section's loss has 4");
    check(refused(&own, &[0; 3]), 19, At::Loss(1), "the list has 3 bytes, 4 for each section: 1 is missing here");
    check(refused(&own, &[0; 6]), 19, At::Loss(2), "the list has 6 bytes, 4 for each section: 2 are missing here");
    check(
        refused(&own, &[0; 8]),
        19,
        At::Loss(2),
        "losses given: 2; sections of the house: 1; there is no such section",
    );
    let house = house::pack(&read(HOUSE)).expect("a house");
    let short = refused(&house, &loss::bytes(&[71; 11]));
    check(
        short,
        19,
        At::Losses,
        "losses given: 11; sections of the house: 12; that of section 12 is the first that is missing",
    );
    let mut over = [71; 12];
    (over[2], over[11]) = (4_259_776, u32::MAX);
    let over = refused(&house, &loss::bytes(&over));
    assert_eq!(over.1.len(), 2);
    check(over.clone(), 19, At::Loss(3), "4259776 cm is 1 cm over 4259775 cm, the most that any table can give");
    check(over, 19, At::Loss(12), "4294967295 cm is 4290707520 cm over");
    let cat = table::pack(&read(OWN_TABLE)).expect("a table");
    for (other, what) in [(&own, "a job record; a list of losses is"), (&cat, "a catalogue; a list of losses is")] {
        let found = refused(&own, other);
        assert_eq!(found.1.len(), 1, "what else is wrong says nothing");
        check(found, 19, At::Losses, &format!("these bytes have the length of {what}"));
    }
    // A refusal of the house comes first.
    check(refused(&own[..49], &[]), 1, At::Field(Field::Stated), "states 50 bytes and has 49");
    assert_eq!(Refusal::LossList.number(), 19);
}
