//! `--walk N` of `office rate` and `office heads`: the walk from a section to the pump, by hand from the losses, and from every
//! section of the examples against the model, which adds no path up but counts each loss at the ends below it.

#[path = "tools/json.rs"]
mod json;
#[path = "tools/run.rs"]
mod run;

use json::Value;
use office::case::{Buffer, Call, Case};
use office::model::heads::Heads;
use office::model::{Expected, Judged, judge};
use office::record::Record;
use office::{house, losses, table};
use run::{office, office_with, read, scratch};

const OWN: &str = "examples/own-case.txt";
const OWN_TABLE: &str = "examples/own-case.csv";
const HOUSE: &str = "examples/house.txt";
const TABLE: &str = "examples/table.csv";
const LOSSES: &str = "examples/losses.csv";
/// The cheapest sizes of the example house.
const SIZES: &str = "5,4,4,3,3,5,4,3,3,1,1,2";

/// The example house with its cheapest sizes.
const RATE: [&str; 4] = ["rate", HOUSE, TABLE, SIZES];
/// The example house with measured losses.
const HEADS: [&str; 3] = ["heads", HOUSE, LOSSES];

/// What stands below the answer; the answer itself is as without the walk, byte for byte.
fn walked(words: &[&str], section: &str) -> String {
    let (plain, with) = (office(words), office(&[words, &["--walk", section]].concat()));
    assert_eq!((with.status, &with.error), (0, &plain.error), "{words:?}");
    let text = with.text();
    let walk = text.strip_prefix(&plain.text()).unwrap_or_else(|| panic!("another answer: {text}"));
    walk.strip_prefix('\n').expect("an empty line between answer and walk").to_string()
}

/// The last lines of a walk, as many as are wanted.
fn last_lines(words: &[&str], section: &str, count: usize) -> Vec<String> {
    let walk = walked(words, section);
    let lines: Vec<&str> = walk.lines().collect();
    lines[lines.len() - count..].iter().map(|line| line.to_string()).collect()
}

/// Document 01's own case: a loss of 71, and 50 + 600 + 200 + 71 are 921.
#[test]
fn the_own_case() {
    let wanted = "\
walk from section 1 to the pump
section  own loss  sum
               cm   cm
      1        71   71
sum: lost from the end of section 1 back to where this section begins; in the last line it is the path loss of section 1
section 1 asks for meter loss 50 + elevation 600 + free head 200 + path loss 71 = 921 cm
that is the required head: section 1 dictates it
";
    assert_eq!(walked(&["rate", OWN, OWN_TABLE, "2"], "1"), wanted);
    let list = scratch("walk-own.csv");
    std::fs::write(&list, "section,loss cm\n1,71\n").expect("written");
    assert_eq!(walked(&["heads", OWN, &list], "1"), wanted);
}

/// The wing of the example hangs on riser B's main: 12 on 10, 10 on 6, 6 on 1. Their losses are 38, 447, 50 and 133 in the table of
/// the rating. 120 + 730 + 200 + 668 are 1,718, and section 5 asks for 120 + 1,040 + 300 and 28 + 52 + 51 + 73 + 133, 1,797.
#[test]
fn a_house_of_several_levels() {
    let wing = "\
walk from section 12 to the pump
section  own loss  sum
               cm   cm
     12        38   38
     10       447  485
      6        50  535
      1       133  668
sum: lost from the end of section 12 back to where this section begins; in the last line it is the path loss of section 12
section 12 asks for meter loss 120 + elevation 730 + free head 200 + path loss 668 = 1718 cm
that is 79 cm less than the required head of 1797 cm, which section 5 dictates
";
    assert_eq!(walked(&RATE, "12"), wing);
    let riser = "\
walk from section 5 to the pump
section  own loss  sum
               cm   cm
      5        28   28
      4        52   80
      3        51  131
      2        73  204
      1       133  337
sum: lost from the end of section 5 back to where this section begins; in the last line it is the path loss of section 5
section 5 asks for meter loss 120 + elevation 1040 + free head 300 + path loss 337 = 1797 cm
that is the required head: section 5 dictates it
";
    assert_eq!(walked(&RATE, "5"), riser);
}

/// With riser B as measured, 31, 55, 64 and 56 cm, section 9 dictates with 120 + 1,040 + 300 + 339, and the main's own end asks for
/// 120 + 60 + 133.
#[test]
fn the_losses_are_those_that_are_given() {
    let riser = "\
walk from section 9 to the pump
section  own loss  sum
               cm   cm
      9        31   31
      8        55   86
      7        64  150
      6        56  206
      1       133  339
sum: lost from the end of section 9 back to where this section begins; in the last line it is the path loss of section 9
section 9 asks for meter loss 120 + elevation 1040 + free head 300 + path loss 339 = 1799 cm
that is the required head: section 9 dictates it
";
    assert_eq!(walked(&HEADS, "9"), riser);
    let main = "\
walk from section 1 to the pump
section  own loss  sum
               cm   cm
      1       133  133
sum: lost from the end of section 1 back to where this section begins; in the last line it is the path loss of section 1
section 1 asks for meter loss 120 + elevation 60 + free head 0 + path loss 133 = 313 cm
that is 1486 cm less than the required head of 1799 cm, which section 9 dictates
further on from section 1, section 9 asks for the most: 1799 cm
";
    assert_eq!(walked(&HEADS, "1"), main);
}

/// With its cheapest sizes riser B loses 50, 51, 52 and 28 cm, the last three as riser A does, so that section 9 asks for
/// 120 + 1,040 + 300 and 314, 1,774, and section 8 for 120 + 710 + 300 and 286, 1,416. The wing's junction asks for 120 + 80 and
/// 447 + 50 + 133, 830, and of its two ends 12 for 1,718, and 11, with 59 cm, for 120 + 400 + 200 + 689, 1,409.
#[test]
fn a_junction_is_not_taken_for_its_branch() {
    let riser = [
        "section 6 asks for meter loss 120 + elevation 60 + free head 0 + path loss 183 = 363 cm",
        "that is 1434 cm less than the required head of 1797 cm, which section 5 dictates",
        "further on from section 6, section 9 asks for the most: 1774 cm",
    ];
    assert_eq!(last_lines(&RATE, "6", 3), riser);
    let wing = [
        "section 10 asks for meter loss 120 + elevation 80 + free head 0 + path loss 630 = 830 cm",
        "that is 967 cm less than the required head of 1797 cm, which section 5 dictates",
        "further on from section 10, section 12 asks for the most: 1718 cm",
    ];
    assert_eq!(last_lines(&RATE, "10", 3), wing);
    // Fixtures at the end of a section make no difference: what counts is that another hangs from it.
    assert_eq!(last_lines(&RATE, "8", 1), ["further on from section 8, section 9 asks for the most: 1774 cm"]);
    for end in ["5", "9", "11", "12"] {
        assert!(!walked(&RATE, end).contains("further on"), "nothing hangs from {end}");
    }
}

/// The example house with another delivered head.
fn delivering(name: &str, head: u16) -> String {
    let (file, text) = (scratch(name), read(HOUSE));
    assert!(text.contains("\ndelivered head  1800 cm "), "{text}");
    let other = text.replacen("delivered head  1800 cm", &format!("delivered head {head} cm"), 1);
    std::fs::write(&file, other).expect("written");
    file
}

/// Section 9 asks for 1,774 cm, section 5 for 1,797, section 12 for 1,718 and section 8 for 1,416, as above.
#[test]
fn a_delivered_head_that_is_too_little() {
    let low = delivering("walk-low.txt", 1_750);
    let low = ["rate", &low, TABLE, SIZES];
    let riser = [
        "section 9 asks for meter loss 120 + elevation 1040 + free head 300 + path loss 314 = 1774 cm",
        "that is 23 cm less than the required head of 1797 cm, which section 5 dictates",
        "the delivered head of 1750 cm is 24 cm too little for section 9",
    ];
    assert_eq!(last_lines(&low, "9", 3), riser);
    let dictating = [
        "that is the required head: section 5 dictates it",
        "the delivered head of 1750 cm is 47 cm too little for section 5",
    ];
    assert_eq!(last_lines(&low, "5", 2), dictating);
    for enough in ["8", "12"] {
        assert!(!walked(&low, enough).contains("too little"), "{enough}");
    }
    // What is just enough is enough.
    let (just, less) = (delivering("walk-just.txt", 1_774), delivering("walk-less.txt", 1_773));
    assert!(!walked(&["rate", &just, TABLE, SIZES], "9").contains("too little"));
    let lacking = ["the delivered head of 1773 cm is 1 cm too little for section 9"];
    assert_eq!(last_lines(&["rate", &less, TABLE, SIZES], "9", 1), lacking);
    let lowest = delivering("walk-lowest.txt", 1_400);
    let both = [
        "that is 381 cm less than the required head of 1797 cm, which section 5 dictates",
        "the delivered head of 1400 cm is 16 cm too little for section 8",
        "further on from section 8, section 9 asks for the most: 1774 cm",
    ];
    assert_eq!(last_lines(&["rate", &lowest, TABLE, SIZES], "8", 3), both);
}

/// The fields of document 01's own case, and sections of kind 7 below them, each from its parent at this elevation.
fn written(name: &str, sections: &[(u8, i16)]) -> String {
    let head = read(OWN).split("section 1").next().expect("the fields").to_string();
    let section = |(number, (parent, elevation)): (usize, &(u8, i16))| {
        let from = if *parent == 0 { "pump".to_string() } else { parent.to_string() };
        format!(
            "section {number} from {from} length 1 m elevation {elevation} cm kind hotel-75 fixtures 80 free 200 cm\n"
        )
    };
    let file = scratch(name);
    let sections: String = (1..).zip(sections).map(section).collect();
    std::fs::write(&file, format!("{head}{sections}")).expect("written");
    file
}

/// A list with these losses.
fn list(name: &str, losses: &[u32]) -> String {
    let rows: String = (1..).zip(losses).map(|(section, loss): (usize, _)| format!("{section},{loss}\n")).collect();
    let file = scratch(name);
    std::fs::write(&file, format!("section,loss cm\n{rows}")).expect("written");
    file
}

/// As many sections as a house may have, one behind the other, of which the last loses 1 cm, the one before it 2 cm, and so on.
/// After turn t the sum is t (t + 1) / 2, from section 63 in the end 2,016, and 50 + 0 + 200 + 2,016 are 2,266. Section 40 is the
/// 24th from behind: it loses 24 cm, the main 63, and the 40 of them 40 × 87 / 2, 1,740. The delivered head is 1,200.
#[test]
fn a_chain_of_63_sections() {
    let house = written("walk-chain.txt", &(0..63).map(|parent| (parent, 0)).collect::<Vec<_>>());
    let list = list("walk-chain.csv", &(1..=63).rev().collect::<Vec<_>>());
    let words = ["heads", house.as_str(), list.as_str()];
    let walk = walked(&words, "63");
    let lines: Vec<&str> = walk.lines().collect();
    assert_eq!(lines.len(), 3 + 63 + 4);
    for (turn, line) in (1..=63).zip(&lines[3..]) {
        let numbers: Vec<usize> = line.split_whitespace().map(|number| number.parse().expect("a number")).collect();
        assert_eq!(numbers, [64 - turn, turn, turn * (turn + 1) / 2]);
    }
    let last = [
        "sum: lost from the end of section 63 back to where this section begins; in the last line it is the path loss of section 63",
        "section 63 asks for meter loss 50 + elevation 0 + free head 200 + path loss 2016 = 2266 cm",
        "that is the required head: section 63 dictates it",
        "the delivered head of 1200 cm is 1066 cm too little for section 63",
    ];
    assert_eq!(lines[66..], last);
    let walk = walked(&words, "40");
    let lines: Vec<&str> = walk.lines().collect();
    assert_eq!(lines[3..=4], ["     40        24    24", "     39        25    49"]);
    let last = [
        "      1        63  1740",
        "sum: lost from the end of section 40 back to where this section begins; in the last line it is the path loss of section 40",
        "section 40 asks for meter loss 50 + elevation 0 + free head 200 + path loss 1740 = 1990 cm",
        "that is 276 cm less than the required head of 2266 cm, which section 63 dictates",
        "the delivered head of 1200 cm is 790 cm too little for section 40",
        "further on from section 40, section 63 asks for the most: 2266 cm",
    ];
    assert_eq!(lines[42..], last);
}

/// The most that losses can be: 63 times 4,259,775 are 268,365,825, and 268,366,075 with 50 + 200. Of these 1,200 are delivered.
#[test]
fn the_greatest_losses() {
    let house = written("walk-greatest.txt", &(0..63).map(|parent| (parent, 0)).collect::<Vec<_>>());
    let list = list("walk-greatest.csv", &[4_259_775; 63]);
    let walk = walked(&["heads", &house, &list], "63");
    assert!(walk.contains("\n      1   4259775  268365825\nsum: lost from "), "{walk}");
    let last = "\
section 63 asks for meter loss 50 + elevation 0 + free head 200 + path loss 268365825 = 268366075 cm
that is the required head: section 63 dictates it
the delivered head of 1200 cm is 268364875 cm too little for section 63
";
    assert!(walk.ends_with(last), "{walk}");
}

/// Sections 2 and 3 ask for 50 + 300 + 200 and 100 + 20, 670 both, and the lower number dictates. Section 4 asks for 1 cm less, and
/// section 1 for 50 + 0 + 200 + 100.
#[test]
fn of_equals_the_lowest_number_dictates() {
    let house = written("walk-equals.txt", &[(0, 0), (1, 300), (1, 300), (1, 299)]);
    let list = list("walk-equals.csv", &[100, 20, 20, 20]);
    let last = |section: &str, count: usize| last_lines(&["heads", &house, &list], section, count);
    let sum = |section: u8, elevation: u16, asked: u16| {
        format!(
            "section {section} asks for meter loss 50 + elevation {elevation} + free head 200 + path loss 120 = {asked} cm"
        )
    };
    let dictates = "that is the required head: section 2 dictates it, and section 3 asks for as much";
    assert_eq!(last("2", 2), [sum(2, 300, 670), dictates.to_string()]);
    let lower = "that is the required head too: of the sections that ask for it, section 2 has the lowest number and dictates it";
    assert_eq!(last("3", 2), [sum(3, 300, 670), lower.to_string()]);
    let less = "that is 1 cm less than the required head of 670 cm, which section 2 dictates";
    assert_eq!(last("4", 2), [sum(4, 299, 669), less.to_string()]);
    let main = [
        "that is 320 cm less than the required head of 670 cm, which section 2 dictates",
        "further on from section 1, section 2 asks for the most: 670 cm",
    ];
    assert_eq!(last("1", 2), main);
}

/// As many ends behind the main as ask for 670 cm each, from section 2 on. Up to three beside the one that dictates are named.
#[test]
fn equals_are_named_or_counted() {
    for (ends, others) in [
        (1, ""),
        (2, ", and section 3 asks for as much"),
        (3, ", and sections 3 and 4 ask for as much"),
        (4, ", and sections 3, 4 and 5 ask for as much"),
        (5, ", and 4 other sections ask for as much"),
        (6, ", and 5 other sections ask for as much"),
    ] {
        let sections = [vec![(0, 0)], vec![(1, 300); ends]].concat();
        let house = written("walk-as-much.txt", &sections);
        let list = list("walk-as-much.csv", &[vec![100], vec![20; ends]].concat());
        let wanted = format!("that is the required head: section 2 dictates it{others}");
        assert_eq!(last_lines(&["heads", &house, &list], "2", 1), [wanted]);
    }
}

/// Each end lies below the pump. With a loss of 10 cm a section, section 1 asks for 60 - 120 + 10, section 6 for
/// 60 - 950 + 150 + 30, and section 4, a junction, for 60 - 150 + 20, more than any other behind section 1.
#[test]
fn heads_below_the_pump_are_negative() {
    let list = list("walk-attic.csv", &[10; 6]);
    let words = ["heads", "examples/attic.txt", list.as_str()];
    let walk = walked(&words, "6");
    let last = "\
section 6 asks for meter loss 60 + elevation -950 + free head 150 + path loss 30 = -710 cm
that is 660 cm less than the required head of -50 cm, which section 1 dictates
";
    assert!(walk.ends_with(last), "{walk}");
    let main = [
        "that is the required head: section 1 dictates it",
        "further on from section 1, section 4 asks for the most: -70 cm",
    ];
    assert_eq!(last_lines(&words, "1", 2), main);
    let printed = json::parse(&office(&[&words[..], &["--walk", "6", "--json"]].concat()).text());
    let walk = printed.get("walk");
    assert_eq!((walk.number("asked_head_cm"), printed.number("required_head_cm")), (-710, -50));
}

/// The walk of an answer as JSON, or by the model.
#[derive(Debug, PartialEq)]
struct Walk {
    section: i64,
    /// Section, loss and sum.
    turns: Vec<[i64; 3]>,
    path_loss: i64,
    /// Meter loss, elevation and free head.
    parts: [i64; 3],
    asked: i64,
}

fn walk_of(printed: &Value) -> Walk {
    let walk = printed.get("walk");
    let turns = walk.list("turns").iter().map(|turn| ["section", "loss_cm", "sum_cm"].map(|key| turn.number(key)));
    Walk {
        section: walk.number("section"),
        turns: turns.collect(),
        path_loss: walk.number("path_loss_cm"),
        parts: ["meter_loss_cm", "elevation_cm", "free_head_cm"].map(|key| walk.number(key)),
        asked: walk.number("asked_head_cm"),
    }
}

/// The key stands last, and all before it is as without the walk.
#[test]
fn as_json() {
    let plain = office(&[&RATE[..], &["--json"]].concat()).text();
    let text = office(&[&RATE[..], &["--json", "--walk", "12"]].concat()).text();
    let own = "\"walk\":{\"section\":12,\"turns\":[{\"section\":12,\"loss_cm\":38,\"sum_cm\":38},\
               {\"section\":10,\"loss_cm\":447,\"sum_cm\":485},{\"section\":6,\"loss_cm\":50,\"sum_cm\":535},\
               {\"section\":1,\"loss_cm\":133,\"sum_cm\":668}],\"path_loss_cm\":668,\
               \"meter_loss_cm\":120,\"elevation_cm\":730,\"free_head_cm\":200,\"asked_head_cm\":1718}";
    assert_eq!(text, format!("{},{own}}}\n", plain.strip_suffix("}\n").expect("an object")));
    let printed = json::parse(&office(&[&HEADS[..], &["--json", "--walk", "9"]].concat()).text());
    let turns = vec![[9, 31, 31], [8, 55, 86], [7, 64, 150], [6, 56, 206], [1, 133, 339]];
    let riser = Walk { section: 9, turns, path_loss: 339, parts: [120, 1_040, 300], asked: 1_799 };
    assert_eq!(walk_of(&printed), riser);
    let other = json::parse(&office(&[&HEADS[..], &["--json", "--walk", "1"]].concat()).text());
    assert_eq!(
        (other.number("path_loss_cm"), walk_of(&other).path_loss),
        (339, 133),
        "the dictating path, and section 1's"
    );
    // The page has each key.
    let page = read("docs/COMMAND.md");
    let row = page.lines().find(|line| line.starts_with("|`rate` and `heads` with `--walk`|")).expect("a row");
    let (Value::Object(walk), Value::Object(turn)) = (printed.get("walk"), &printed.get("walk").list("turns")[0])
    else {
        panic!("objects");
    };
    for key in walk.keys().chain(turn.keys()) {
        assert!(row.contains(&format!("`{key}`")), "{key}");
        for command in ["rate", "heads"] {
            assert!(office(&["help", command]).text().contains(key), "{key}");
        }
    }
}

/// What the model says of a house with these losses, or with those of a list of sizes.
fn judged(call: Call, files: [&str; 2], sizes: &[u8]) -> (Judged, Vec<i128>) {
    let job = house::pack(&read(files[0])).expect("a house");
    let (cat, list) = match call {
        Call::Rate => (table::pack(&read(files[1])).expect("a table"), Vec::new()),
        _ => (Vec::new(), losses::pack(&read(files[1])).expect("a list")),
    };
    let buffer = Buffer { length: 700, pattern: Vec::new() };
    let (work, meters, sizes) = (buffer.clone(), Vec::new(), sizes.to_vec());
    let judged = judge(&Case { call, job, meters, losses: list, cat, sizes, t: 0, loss: 0, work, out: buffer });
    let losses = match &judged.result {
        Expected::Rated(rating) => rating.sections.iter().map(|fitted| fitted.loss).collect(),
        Expected::Headed(_) => judged.losses.all.clone(),
        _ => panic!("{files:?} are refused"),
    };
    (judged, losses)
}

fn heads_of(judged: &Judged) -> &Heads {
    match &judged.result {
        Expected::Rated(rating) => &rating.heads,
        Expected::Headed(heads) => heads,
        _ => panic!("no heads"),
    }
}

/// The walk from a section as the model has it: its path, the losses of the sections on it, and what its end asks for.
fn of_model(judged: &Judged, losses: &[i128], section: usize) -> Walk {
    let path = &judged.house.paths[section - 1];
    let turn = |(place, at): (usize, &usize)| {
        let sum: i128 = path[..=place].iter().map(|at| losses[at - 1]).sum();
        [*at as i64, losses[at - 1] as i64, sum as i64]
    };
    let (own, reach) = (&judged.house.sections[section - 1], heads_of(judged).reaches[section - 1]);
    let meter = judged.house.meter;
    Walk {
        section: section as i64,
        turns: path.iter().enumerate().map(turn).collect(),
        path_loss: (reach - own.elevation - own.free) as i64,
        parts: [meter, own.elevation, own.free].map(|part| part as i64),
        asked: (meter + reach) as i64,
    }
}

/// The lines that only some walks have, as the model's heads ask for them.
fn more_lines(judged: &Judged, section: usize) -> String {
    let (house, reaches) = (&judged.house, &heads_of(judged).reaches);
    let asked = |section: usize| house.meter + reaches[section - 1];
    let (delivered, lacking) = (house.delivered, asked(section) - house.delivered);
    let mut lines = String::new();
    if lacking > 0 {
        lines.push_str(&format!(
            "the delivered head of {delivered} cm is {lacking} cm too little for section {section}\n"
        ));
    }
    let further: Vec<usize> = house.below[section - 1].members().filter(|below| *below != section).collect();
    if let Some(most) = further.iter().map(|below| asked(*below)).max() {
        let first = further.iter().filter(|below| asked(**below) == most).min().expect("one asks for the most");
        lines.push_str(&format!("further on from section {section}, section {first} asks for the most: {most} cm\n"));
    }
    lines
}

/// Every section of every example house, with the widest sizes and with its cheapest or given ones.
#[test]
fn every_walk_is_the_models() {
    let wide = |sections: usize| vec![6; sections];
    let (own, cheapest) = (vec![2], vec![5, 4, 4, 3, 3, 5, 4, 3, 3, 1, 1, 2]);
    let mut seen = 0;
    for (files, sizes) in [
        ([OWN, OWN_TABLE], own),
        ([HOUSE, TABLE], cheapest),
        ([HOUSE, TABLE], wide(12)),
        (["examples/mixed.txt", TABLE], wide(7)),
        (["examples/attic.txt", TABLE], wide(6)),
        (["examples/hotel-cold.txt", TABLE], wide(7)),
        (["examples/hotel-hot.txt", TABLE], wide(7)),
        ([HOUSE, LOSSES], Vec::new()),
    ] {
        let call = if sizes.is_empty() { Call::Heads } else { Call::Rate };
        let (judged, losses) = judged(call, files, &sizes);
        let list = sizes.iter().map(u8::to_string).collect::<Vec<_>>().join(",");
        let mut words = vec![call.name(), files[0], files[1]];
        words.extend((!sizes.is_empty()).then_some(list.as_str()));
        for section in 1..=judged.house.sections.len() {
            let number = section.to_string();
            let text = walked(&words, &number);
            let first = format!("walk from section {number} to the pump\nsection  own loss ");
            assert!(text.starts_with(&first), "{words:?}: {text}");
            let (_, more) = text.split_once("\nthat is ").and_then(|(_, last)| last.split_once('\n')).expect("lines");
            assert_eq!(more, more_lines(&judged, section), "{words:?}");
            let printed = office(&[&words[..], &["--walk", &number, "--json"]].concat());
            assert_eq!(walk_of(&json::parse(&printed.text())), of_model(&judged, &losses, section), "{words:?}");
            seen += 1;
        }
    }
    assert_eq!(seen, 1 + 12 + 12 + 7 + 6 + 7 + 7 + 12);
}

/// The head left at an end is the delivered head less what the end asks for without its free head.
#[test]
fn the_walk_goes_with_the_table() {
    for (section, words) in (1..=12).flat_map(|section| [(section, &RATE[..]), (section, &HEADS[..])]) {
        let printed = json::parse(&office(&[words, &["--walk", &section.to_string(), "--json"]].concat()).text());
        let Walk { turns, path_loss, parts, asked, .. } = walk_of(&printed);
        let own = &printed.list("sections")[section - 1];
        let left = printed.number("delivered_head_cm") - asked + own.number("free_head_cm");
        assert_eq!(own.number("head_left_cm"), left, "{words:?} {section}");
        assert_eq!(turns.last().map(|[.., sum]| *sum), Some(path_loss));
        assert_eq!(parts.iter().sum::<i64>() + path_loss, asked, "it can be checked from the object");
        let dictates = printed.number("dictating_section") == section as i64;
        assert_eq!(asked == printed.number("required_head_cm"), dictates, "no two ends ask for the same here");
    }
}

fn misused(words: &[&str], why: &str) {
    for words in [words.to_vec(), [words, &["--json"]].concat()] {
        let ran = office(&words);
        assert_eq!((ran.status, ran.output.len()), (2, 0), "{words:?}");
        assert_eq!(ran.error, format!("office: {why}\n"), "{words:?}");
    }
}

/// What is said of a word that can't be a section's number.
fn no_section(word: &str) -> String {
    format!("`{word}` is no section's number for `--walk`: give a whole number of 1 or more in digits, as `--walk 3`")
}

#[test]
fn what_is_no_section_is_misuse() {
    for words in [&RATE[..], &HEADS] {
        let with = |number: &'static str| [words, &["--walk", number]].concat();
        for odd in ["", "x", "-1", "+7", "7.0", "7,0", "1e1", " 7", "7 ", "7m", "section 7", "٧", "0x7", "-"] {
            misused(&with(odd), &no_section(odd));
        }
        for pump in ["0", "000"] {
            let why = "the pump, which is no section and where the walk ends; sections number from 1";
            misused(&with(pump), &format!("`{pump}` for `--walk` is {why}"));
        }
        for more in ["13", "013", "63", "64", "255", "256", "257", "268", "4294967297", "18446744073709551617"] {
            misused(&with(more), &format!("the house has no section {more} for `--walk`; its sections are 1 to 12"));
        }
        assert_eq!(office(&with("012")).output, office(&with("12")).output, "zeros in front change no number");
    }
    misused(
        &["rate", OWN, OWN_TABLE, "2", "--walk", "2"],
        "the house has no section 2 for `--walk`; its only section is 1",
    );
}

/// Where the number is left out, the file behind `--walk` is named, and not the count of the words that are left.
#[test]
fn a_file_in_place_of_the_number_is_named() {
    for (words, file) in [
        (&["rate", "--walk", "house.txt", "table.csv", "5,4"][..], "house.txt"),
        (&["rate", "--walk", HOUSE, TABLE, SIZES], HOUSE),
        (&["rate", HOUSE, "--walk", TABLE, SIZES], TABLE),
        (&["rate", HOUSE, TABLE, "--walk", SIZES], SIZES),
        (&["--walk", "heads", HOUSE, LOSSES], "heads"),
        (&["heads", "--walk", HOUSE, LOSSES], HOUSE),
        (&["heads", HOUSE, "--walk", LOSSES], LOSSES),
    ] {
        misused(words, &no_section(file));
    }
    // With a number it is the count that is wrong.
    let ran = office(&["rate", "--walk", "3", HOUSE, TABLE]);
    assert!(ran.status == 2 && ran.error.starts_with("office: `rate` takes 3 words, not 2\n"), "{}", ran.error);
}

#[test]
fn the_number_is_given_once_and_to_rate_and_heads_alone() {
    for words in [&RATE[..], &HEADS] {
        misused(&[words, &["--walk", "12", "--walk", "12"]].concat(), "`--walk` is given twice");
        misused(
            &[words, &["--walk=12"]].concat(),
            "there is no option `--walk=12`; write a blank in place of `=`, as `--walk 12`",
        );
        for next in ["--json", "--strict", "-o", "--walk"] {
            let why = "it wants a section's number, as `--walk 3`";
            let why = format!("`--walk` has no number: `{next}` stands behind it; {why}");
            misused(&[words, &["--walk", next]].concat(), &why);
        }
        let last = office(&[words, &["--walk"]].concat());
        let why = "office: `--walk` wants a section's number, as `--walk 3`\n";
        assert_eq!((last.status, last.error.as_str()), (2, why));
    }
    for words in [
        &["flow", HOUSE][..],
        &["meter", HOUSE, "examples/meters.csv"],
        &["losses", HOUSE, TABLE, SIZES],
        &["choose", HOUSE, TABLE],
        &["heat", "examples/hotel-hot.txt", "--cold-water", "5", "--loss", "0"],
        &["draw", HOUSE, TABLE],
        &["pack", HOUSE],
        &["kinds"],
        &["help"],
        &["--version"],
    ] {
        let ran = office(&[words, &["--walk", "1"]].concat());
        let name = words[0];
        let why = format!("office: `{name}` has no option --walk; `rate` and `heads` have it\nusage: office {name}");
        assert!(ran.status == 2 && ran.output.is_empty() && ran.error.starts_with(&why), "{words:?}: {}", ran.error);
    }
}

/// What the library refuses, and a list of another house, is told as without the walk, also where the house has no such section.
#[test]
fn a_refusal_stays_as_it_is() {
    let small = "1,4,4,3,3,5,4,3,3,1,1,2";
    let wing = "examples/mistakes/losses-of-the-wing.csv";
    let circle = "examples/mistakes/circle.txt";
    let other = scratch("walk-other.json");
    let narrow = read(HOUSE).replacen("local losses    0.3", "local losses 0.2", 1);
    let printed = office_with(&["losses", "-", TABLE, SIZES, "--json"], narrow.as_bytes()).output;
    std::fs::write(&other, printed).expect("written");
    for (words, status) in [
        (&["rate", HOUSE, TABLE, small][..], 1),
        (&["rate", HOUSE, TABLE, "1,2"], 1),
        (&["rate", circle, TABLE, "1,1,1"], 1),
        (&["heads", HOUSE, wing], 1),
        (&["heads", circle, LOSSES], 1),
        (&["heads", HOUSE, &other], 2),
        (&["rate", "examples/mistakes/missing-unit.txt", TABLE, SIZES], 2),
    ] {
        for json in [&[][..], &["--json"]] {
            let plain = office(&[words, json].concat());
            assert_eq!(plain.status, status, "{words:?}");
            for section in ["1", "12", "99"] {
                let with = office(&[words, json, &["--walk", section]].concat());
                assert_eq!((with.status, with.output, &with.error), (status, plain.output.clone(), &plain.error));
            }
        }
    }
}

/// Options stand anywhere, a file of `-o` gets answer and walk, and warnings stay where they are.
#[test]
fn with_other_options() {
    let text = office(&[&RATE[..], &["--walk", "12"]].concat()).output;
    assert_eq!(office(&["--walk", "12", "rate", HOUSE, "--strict", TABLE, SIZES]).output, text);
    assert_eq!(office_with(&["rate", "-", "--walk", "12", TABLE, SIZES], read(HOUSE).as_bytes()).output, text);
    let kept = scratch("walk-kept.txt");
    let ran = office(&[&RATE[..], &["--walk", "12", "-o", &kept]].concat());
    assert_eq!((ran.status, ran.output.len(), std::fs::read(&kept).expect("kept")), (0, 0, text));
    // A loss of 0 gets a warning.
    let list = list("walk-warned.csv", &[133, 73, 51, 52, 28, 56, 64, 55, 31, 447, 59, 0]);
    assert!(walked(&["heads", HOUSE, &list], "12").contains("\n     12         0    0\n"));
    let strict = office(&["heads", HOUSE, &list, "--walk", "12", "--strict"]);
    assert!(strict.status == 2 && strict.output.is_empty() && strict.error.contains("--strict makes a warning"));
}

/// `heads`, `show` and `pack` take an answer with a walk for what it is without.
#[test]
fn an_answer_with_a_walk_has_its_losses() {
    for words in [&RATE[..], &HEADS] {
        let [plain, with] =
            [&[][..], &["--walk", "12"]].map(|walk| office(&[words, &["--json"], walk].concat()).output);
        assert_ne!(plain, with);
        for taker in [&["heads", HOUSE, "-", "--walk", "7"][..], &["show", "-"], &["pack", "-"]] {
            let [by_plain, by_with] = [&plain, &with].map(|answer| office_with(taker, answer));
            assert_eq!((by_plain.status, by_plain.output), (0, by_with.output), "{taker:?}: {}", by_with.error);
        }
    }
}

/// A record and its text give the same walk; so do versions 1 and 2.
#[test]
fn records_of_both_versions() {
    let text = office(&[&RATE[..], &["--walk", "12"]].concat()).text();
    let (_, walk) = text.rsplit_once("\n\n").expect("a walk below the answer");
    let mut record = Record::read(&house::pack(&read(HOUSE)).expect("a house")).expect("a record");
    let file = scratch("walk-record.job");
    for version in [1, 2] {
        record.version = version;
        record.stated = record.len() as u32;
        std::fs::write(&file, record.bytes()).expect("written");
        assert_eq!(walked(&["rate", &file, TABLE, SIZES], "12"), walk, "version {version}");
    }
}

/// Where the page tells the engineer to stop the walk is the start of a turn, and what it says is shown there is so.
#[test]
fn the_page_names_the_line_where_a_turn_starts() {
    let (page, source) = (read("docs/COMMAND.md"), read("office/src/walk.rs"));
    let line = 1 + source.lines().position(|line| line.trim() == "while 0 < at {").expect("the loop");
    assert!(page.contains(&format!("`break walk.rs:{line} if section == 12`")), "line {line}");
    assert!(page.contains(&format!("\nLine {line} of `office/src/walk.rs` is the start of a turn.")), "line {line}");
    let command = RATE.join(" ");
    assert!(page.contains(&format!("\n    gdb --args office/target/debug/office {command} --walk 12\n")), "{command}");
    let Walk { turns, path_loss, .. } =
        walk_of(&json::parse(&office(&[&RATE[..], &["--walk", "12", "--json"]].concat()).text()));
    let before = [0].into_iter().chain(turns.iter().map(|[.., sum]| *sum));
    let at = turns.iter().map(|[section, ..]| *section).chain([0]);
    let rows: String = (1..).zip(at.zip(before)).map(|(stop, (at, sum))| format!("|{stop}|{at}|{sum}|\n")).collect();
    assert!(page.contains(&format!("|stop|`at`|`sum`|\n|-|-|-|\n{rows}\n")), "{rows}");
    assert!(rows.ends_with(&format!("|0|{path_loss}|\n")));
}

/// Help and page say how the walk goes in the same words. An end that asks for less than the required head is not called short.
#[test]
fn help_and_page_have_the_same_words() {
    let unfolded = |text: String| text.split_whitespace().collect::<Vec<_>>().join(" ");
    let [rate, heads] = ["rate", "heads"].map(|command| unfolded(office(&["help", command]).text()));
    let page = unfolded(read("docs/COMMAND.md"));
    let way = "first section N, then the section that it hangs from, and so on to the pump, one at each turn";
    for text in [&rate, &page] {
        assert!(text.contains(way), "{text}");
        assert!(text.contains("all their paths must lose less before it falls"), "{text}");
    }
    for text in [rate, heads, page] {
        assert!(!text.contains("below the required head"), "{text}");
    }
}
