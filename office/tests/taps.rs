//! Flows that one tap sets: the words behind them in the tables, and the kinds in JSON. Expected figures are by hand.

#[path = "tools/json.rs"]
mod json;
#[path = "tools/mixed.rs"]
mod mixed;
#[path = "tools/run.rs"]
mod run;

use json::Value;
use mixed::{branch, flat, house};
use run::{office, office_with, read};

const MIXED: &str = "examples/mixed.txt";
const TABLE: &str = "examples/table.csv";
const METERS: &str = "examples/meters.csv";
const LEGEND: &str = "one tap of a kind: one fixture of this kind draws more than the formula gives for all that is served; \
    the flow is what it draws\n";

/// What a command says of a house, in words.
fn words(command: &[&str], house: &str) -> String {
    let ran = office_with(command, house.as_bytes());
    assert_eq!((ran.status, ran.error.as_str()), (0, ""), "{command:?}");
    ran.text()
}

fn flow(house: &str) -> String {
    words(&["flow", "-"], house)
}

/// The line of a section in a table.
fn line(text: &str, section: usize) -> String {
    let (_, table) = text.split_once("\n\n").expect("figures, then a table");
    let own = |line: &&str| line.split_whitespace().next() == Some(&section.to_string());
    table.lines().find(own).unwrap_or_else(|| panic!("no section {section} in {text}")).trim_start().to_string()
}

fn kinds(value: &Value, key: &str) -> Vec<i64> {
    let number = |value: &Value| if let Value::Number(kind) = value { *kind } else { panic!("{value:?}") };
    value.list(key).iter().map(number).collect()
}

/// The kinds of the house's tap, and those of each section's.
fn taps(text: &str) -> (Vec<i64>, Vec<Vec<i64>>) {
    let printed = json::parse(text);
    let sections = printed.list("sections").iter().map(|section| kinds(section, "one_tap_kinds")).collect();
    (kinds(&printed, "duty_one_tap_kinds"), sections)
}

/// Section 5 has one of the 48 baths of 24 guests, a share of 25,000 × 300 × 24 × 1 / (9 × 30 × 48), 13,889, and six of the 30
/// basins of 30 workers, 25,000 × 40 × 30 × 6 / (9 × 14 × 30), 47,620. Their m is 61,509; Table 2 has 0.289 at 0.060 and 0.292 at
/// 0.062, so α is 0.291264. The sum of share × Z is 13,889 × 30 + 47,620 × 14 = 1,083,350, and the average flow 1,083,350 × 291,264
/// / (20,000 × 61,509), 256.5: 257. One bath draws 300. At section 7 m is 13,889 and α 0.2: the average is 300 itself.
#[test]
fn the_example_by_hand() {
    let wanted = "\
design flow    1185 ml/s for the pump set to deliver
greatest hour  2342 l/h
greatest day   7680 l
mean hour       320 l/h

section  from  kind       fixtures  flow
                                    ml/s
      1  pump  none              0  1185
      2  1     offices          24  1168
      3  2     hotel-100        24  1163
      4  3     hotel-100        23   825
      5  1     none              0   300  one tap of hotel-100
      6  5     offices           6   189
      7  5     hotel-100         1   300
";
    assert_eq!(office(&["flow", MIXED]).text(), format!("{wanted}{LEGEND}"));
    let sizes = "4,4,4,3,1,1,1";
    let marked = (Vec::new(), vec![vec![], vec![], vec![], vec![], vec![8], vec![], vec![]]);
    for command in [&["flow", MIXED][..], &["choose", MIXED, TABLE], &["rate", MIXED, TABLE, sizes]] {
        assert_eq!(taps(&office(&[command, &["--json"]].concat()).text()), marked, "{command:?}");
    }
    for command in [&["choose", MIXED, TABLE][..], &["rate", MIXED, TABLE, sizes]] {
        let text = office(command).text();
        assert!(text.ends_with(&format!("* lies on the dictating path\n{LEGEND}")), "{text}");
        assert!(line(&text, 5).ends_with("  flow: one tap of hotel-100"), "{text}");
        assert_eq!(text.matches("one tap of hotel-100\n").count(), 1, "{text}");
    }
    let metered = office(&["meter", MIXED, METERS]).text();
    assert!(!metered.contains("one tap"), "no section stands in it: {metered}");
}

/// One of the four baths of one guest, 6,945, and all basins of one worker, 7,937: m is 14,882, under 15,000, so α is 0.2 and
/// the average 10 × the mean Z: 10 × (6,945 × 30 + 7,937 × 14) / 14,882 = 214.7. The house has all four baths, and its average,
/// 329, is more than one tap.
#[test]
fn a_bath_among_basins() {
    let text = flow(&house(
        &[("hotel-100", 1), ("offices", 1)],
        &[("pump", "none", 0), ("1", "hotel-100", 1), ("1", "offices", 40), ("pump", "hotel-100", 3)],
    ));
    assert!(text.starts_with("design flow    329 ml/s for the pump set to deliver\n"), "{text}");
    assert!(line(&text, 1).ends_with("  300  one tap of hotel-100"), "{text}");
    assert!(line(&text, 2).ends_with("  300") && line(&text, 3).ends_with("  140"), "one kind each: {text}");
    assert!(text.ends_with(LEGEND));
}

/// Each section has one kind and no mark, and the house has both kinds.
#[test]
fn the_house_alone() {
    let text = flow(&flat());
    let duty = "design flow    300 ml/s (one tap of dwelling) for the pump set to deliver\n";
    assert!(text.starts_with(duty) && text.ends_with(LEGEND), "{text}");
    // 5 × 0.211038 × 30 × 10, and 5 × 0.29424 × 14 × 10, up.
    assert!(line(&text, 1).ends_with("  317") && line(&text, 2).ends_with("  206"), "{text}");
    assert_eq!(taps(&words(&["flow", "-", "--json"], &flat())), (vec![1], vec![vec![], vec![]]));
    let chosen = words(&["choose", "-", TABLE], &flat());
    assert!(chosen.contains(" 300 ml/s (one tap of dwelling) for the pump set to deliver\n"), "{chosen}");
    assert!(chosen.ends_with(LEGEND) && chosen.matches("one tap of").count() == 2, "{chosen}");
    assert_eq!(taps(&words(&["choose", "-", TABLE, "--json"], &flat())), (vec![1], vec![vec![], vec![]]));
    let metered = words(&["meter", "-", METERS], &flat());
    assert!(
        metered.starts_with("design flow  300 ml/s (one tap of dwelling) for the pump set to deliver\n"),
        "{metered}"
    );
    assert!(metered.ends_with(&format!("that you would not fit.\n{LEGEND}")), "{metered}");
    let metered = json::parse(&words(&["meter", "-", METERS, "--json"], &flat()));
    assert_eq!(kinds(&metered, "duty_one_tap_kinds"), [1]);
}

/// With m under 15,000 the average is 10 × the mean Z, which lies below the largest; with all five kinds of the largest Z m is
/// 17,443, α 0.208329 and the average 237. Kinds of the same Z share the mark, and kinds of a smaller Z have none. The average
/// of the house, whose share of these kinds is eleven times as large, is over one tap.
#[test]
fn several_kinds() {
    let named: [(&[&str], &str, &[i64]); 5] = [
        (&["hotel-75", "hotel-100"], "300  one tap of hotel-75 or hotel-100", &[7, 8]),
        (&["hotel-100", "hospital"], "300  one tap of hotel-100", &[8]),
        (
            &["hospital", "hostel-showers", "hotel-showers"],
            "200  one tap of hostel-showers, hotel-showers or hospital",
            &[2, 5, 9],
        ),
        (
            &["hostel-showers", "hostel-kitchens", "hotel-showers", "hospital", "polyclinic"],
            "200  one tap of hostel-showers, hostel-kitchens, hotel-showers, hospital or polyclinic",
            &[2, 3, 5, 9, 10],
        ),
        (
            &["dwelling", "hotel-shared", "hotel-25", "hotel-75", "hotel-100"],
            "300  one tap of dwelling, hotel-shared, hotel-25, hotel-75 or hotel-100",
            &[1, 4, 6, 7, 8],
        ),
    ];
    for (served, wanted, numbers) in named {
        let text = flow(&branch(served));
        assert!(line(&text, 1).ends_with(&format!("  {wanted}")), "{text}");
        assert!(text.contains("for the pump set to deliver\n"), "{text}");
        let (house, sections) = taps(&words(&["flow", "-", "--json"], &branch(served)));
        assert_eq!((house, sections[0].as_slice()), (Vec::new(), numbers), "{served:?}");
        assert!(sections[1..].iter().all(Vec::is_empty), "an end has one kind: {sections:?}");
    }
}

/// The average itself where it is as much as one tap: kinds of one Z with m under 15,000. An office's share is 7,937, a
/// school's 25,000 × 27 / (9 × 14), 5,358.
#[test]
fn no_mark_at_a_tie() {
    let one = house(&[("offices", 1)], &[("pump", "none", 0), ("1", "offices", 4)]);
    let two =
        house(&[("offices", 1), ("schools", 1)], &[("pump", "none", 0), ("1", "offices", 4), ("1", "schools", 4)]);
    for text in [one, two] {
        let printed = flow(&text);
        assert!(printed.starts_with("design flow    140 ml/s for the pump set to deliver\n"), "{printed}");
        assert!(line(&printed, 1).ends_with("  140") && !printed.contains("tap"), "{printed}");
        let (house, sections) = taps(&words(&["flow", "-", "--json"], &text));
        assert!(house.is_empty() && sections.iter().all(Vec::is_empty));
    }
    assert!(!office(&["choose", "examples/house.txt", TABLE]).text().contains("tap"), "the average is more there");
}

/// A program finds the keys of a section on the page, and the help names them.
#[test]
fn the_keys_of_a_section_are_those_of_the_page() {
    let page = read("docs/COMMAND.md");
    for (start, command) in [("|`flow`|", &["flow", MIXED][..]), ("|`rate`, `choose`|", &["choose", MIXED, TABLE])] {
        let row = page.lines().find(|line| line.starts_with(start)).expect(start);
        let help = office(&["help", if command[0] == "choose" { "rate" } else { command[0] }]).text();
        let printed = json::parse(&office(&[command, &["--json"]].concat()).text());
        let Value::Object(section) = &printed.list("sections")[0] else { panic!("{printed:?}") };
        for key in section.keys().map(String::as_str).chain(["duty_one_tap_kinds"]) {
            assert!(row.contains(&format!("`{key}`")), "{start} lacks {key}");
            assert!(help.contains(key), "the help of {command:?} lacks {key}");
        }
    }
}
