//! `office heat`, with figures worked out by hand from document 02.

#[path = "tools/json.rs"]
mod json;
#[path = "tools/run.rs"]
mod run;

use json::Value;
use office::{calls, house};
use run::{Ran, office, office_with, read, scratch};

const HOT: &str = "examples/hotel-hot.txt";
const COLD: &str = "examples/hotel-cold.txt";
const HOUSE: &str = "examples/house.txt";

/// The command on a house, with the temperature and the loss.
fn heat(file: &str, cold: &str, loss: &str) -> Ran {
    office(&["heat", file, "--cold-water", cold, "--loss", loss])
}

/// Document 01's own case as a hot line: 71 residents of kind 7 and 80 fixtures.
fn own() -> Vec<u8> {
    house::pack(&format!("service hot\n{}", read("examples/own-case.txt"))).expect("a house")
}

/// 60 guests use 150 litres each, 9,000 a day and 375 in a mean hour. For the greatest hour the share is 100,000 × 150 × 60 / 190,
/// 4,736,843 up; Table 2 has 2.456 at 4.7 and 2.490 at 4.8, so α is 2,468,527 up, and 190 × 2,468,527 / 200,000 are 2,346 l/h up.
/// 116 × 375 × 50 / 100 is 21,750 and 116 × 2,346 × 50 / 100 is 136,068.
#[test]
fn the_example_by_hand() {
    let ran = heat(HOT, "5", "1200");
    assert_eq!((ran.status, ran.error.as_str()), (0, ""));
    let wanted = "\
service           hot line; `office kinds hot` has its norms
cold water          5 degrees C
heat loss        1200 W
mean hour         375 l/h
  heat flow     22950 W, which is 22.950 kW
greatest hour    2346 l/h
  heat flow    137268 W, which is 137.268 kW

mean hour: 116 x 375 x (55 - 5) / 100, rounded up, is 21750 W; with the heat loss of 1200 W it is 22950 W
greatest hour: 116 x 2346 x (55 - 5) / 100, rounded up, is 136068 W; with the heat loss of 1200 W it is 137268 W
";
    assert_eq!(ran.text(), wanted);
    let parsed = json::parse(&office(&["heat", HOT, "--cold-water", "5", "--loss", "1200", "--json"]).text());
    assert_eq!((parsed.get("service"), parsed.get("refusal")), (&Value::Text("hot".to_string()), &Value::Null));
    assert_eq!(parsed.list("files"), [Value::Text(HOT.to_string())]);
    for (key, value) in [
        ("cold_water_celsius", 5),
        ("heat_loss_w", 1_200),
        ("mean_hour_l_per_h", 375),
        ("mean_hour_heat_w", 22_950),
        ("hour_l_per_h", 2_346),
        ("hour_heat_w", 137_268),
    ] {
        assert_eq!(parsed.number(key), value, "{key}");
    }
}

/// The own case's hot line has 10,650 litres a day, 444 in a mean hour up; its greatest hour has the share 5,605,264, α 2,761,738
/// between 2.760 at 5.6 and 2.793 at 5.7, and 2,624 l/h up. Each heat flow is rounded up before the loss: 116 × 444 × 49 / 100 is
/// 25,236.96, and 116 × 2,624 × 49 / 100 is 149,148.16.
#[test]
fn the_edges_of_both_ranges() {
    let record = scratch("own-hot.record");
    std::fs::write(&record, own()).expect("written");
    for (cold, loss, mean, greatest) in [
        (5, 1_200, 26_952, 153_392),
        (6, 0, 25_237, 149_149),
        (6, 1, 25_238, 149_150),
        (0, 0, 28_328, 167_412),
        (30, 1_000_000, 1_012_876, 1_076_096),
    ] {
        let (t, w) = (cold.to_string(), loss.to_string());
        let ran = office(&["heat", &record, "--cold-water", &t, "--loss", &w, "--json"]);
        let parsed = json::parse(&ran.text());
        let found = (parsed.number("mean_hour_heat_w"), parsed.number("hour_heat_w"));
        assert_eq!((ran.status, found), (0, (mean, greatest)), "{cold} {loss}");
        let library = calls::heat(&own(), cold, loss).expect("a hot line");
        assert_eq!(found, (library.mean_hour.into(), library.greatest_hour.into()));
    }
}

/// A text, its record and standard input answer alike; options stand anywhere.
#[test]
fn a_text_and_its_record_answer_alike() {
    let text = heat(HOT, "5", "1200").output;
    let record = scratch("hotel-hot.record");
    assert_eq!(office(&["pack", HOT, "-o", &record]).status, 0);
    assert_eq!(heat(&record, "5", "1200").output, text);
    assert_eq!(office_with(&["heat", "--loss", "1200", "-", "--cold-water", "5"], read(HOT).as_bytes()).output, text);
    let kept = scratch("heat.txt");
    let ran = office(&["heat", HOT, "--cold-water", "5", "--loss", "1200", "-o", &kept]);
    assert_eq!((ran.status, ran.output.len()), (0, 0));
    assert_eq!(std::fs::read(&kept).expect("kept"), text);
    let refused = office(&["heat", COLD, "--cold-water", "5", "--loss", "1200", "-o", &kept]);
    assert_eq!((refused.status, std::fs::read(&kept).expect("kept")), (1, text), "a refusal leaves the file alone");
}

#[test]
fn another_service_is_refused_with_its_place() {
    let own = "a hot line has a house of its own, with `service hot` and the pipes and fixtures of that line";
    let total = scratch("total.txt");
    std::fs::write(&total, format!("{}\nservice total # all of it\n", read(HOUSE))).expect("written");
    let last = read(HOUSE).lines().count() + 2;
    for (file, place) in [
        (HOUSE, format!("{HOUSE}, service: it is total, cold and hot water together, as where none is given; {own}")),
        (COLD, format!("{COLD} line 4, service: it is cold; {own}")),
        (&total, format!("{total} line {last}, service: it is total, cold and hot water together; {own}")),
    ] {
        // 20 comes before 21, which both numbers would give.
        for (cold, loss) in [("5", "1200"), ("31", "1000001")] {
            let ran = heat(file, cold, loss);
            let wanted = format!(
                "refused 20: The heat flow is asked for a job that isn't hot. A hot line's job has version 2 and service 2.\n  \
                 {place}\n"
            );
            assert_eq!((ran.status, ran.text()), (1, wanted));
        }
    }
}

#[test]
fn what_is_out_of_range_is_refused_by_the_library() {
    let text = "refused 21: The cold water's temperature or the heat loss is out of range. The temperature is 0 to 30 degrees C, \
                and the loss 0 to 1,000,000 W.\n";
    let (cold, loss) = ("  cold water: ", "  heat loss: ");
    for (t, w, places) in [
        ("31", "0", format!("{cold}31 is outside 0 to 30 degrees C\n")),
        ("0", "1000001", format!("{loss}1000001 is outside 0 to 1000000 W\n")),
        (
            "4294967295",
            "4294967295",
            format!("{cold}4294967295 is outside 0 to 30 degrees C\n{loss}4294967295 is outside 0 to 1000000 W\n"),
        ),
    ] {
        let ran = heat(HOT, t, w);
        assert_eq!((ran.status, ran.text()), (1, format!("{text}{places}")));
    }
    let parsed = json::parse(&office(&["heat", HOT, "--cold-water", "31", "--loss", "0", "--json"]).text());
    let place = &parsed.get("refusal").list("places")[0];
    assert_eq!(parsed.get("refusal").number("number"), 21);
    assert_eq!((place.get("file"), place.get("line")), (&Value::Null, &Value::Null));
    assert_eq!(place.get("at"), &Value::Text("cold water".to_string()));
}

/// A house that is refused for itself is told that first.
#[test]
fn one_to_nine_come_first() {
    let text = read(COLD).replace("velocity limit  1500 mm/s", "velocity limit 0 mm/s");
    let ran = office_with(&["heat", "-", "--cold-water", "99", "--loss", "0"], text.as_bytes());
    assert!(ran.status == 1 && ran.text().starts_with("refused 3: "), "{}", ran.text());
}

fn misused(words: &[&str], why: &str) {
    let ran = office(words);
    assert_eq!((ran.status, ran.text().as_str()), (2, ""), "{words:?}");
    assert!(ran.error.starts_with("office: ") && ran.error.contains(why), "{words:?}: {}", ran.error);
}

/// Nothing is cut, rounded or guessed: what is not whole digits of 32 bits is no number.
#[test]
fn numbers_are_never_misread() {
    let odd = [
        "5C", "5°C", "5 C", "5.0", "5,5", "0.5", "-5", "-0", "+5", "", " 5", "5 ", "five", "0x5", "5e0", "1_000", "٥",
        "1.2kW", "1200W", "1 200", "1,200", "1'200", "NaN",
    ];
    for given in odd {
        misused(&["heat", HOT, "--cold-water", given, "--loss", "0"], "is no whole number for `--cold-water`; ");
        misused(&["heat", HOT, "--cold-water", "5", "--loss", given], "is no whole number for `--loss`; ");
    }
    for given in ["4294967296", "4294967301", "18446744073709551621", "99999999999999999999999999"] {
        misused(
            &["heat", HOT, "--cold-water", given, "--loss", "0"],
            "is more than 32 bits hold; the temperature of the cold",
        );
        misused(
            &["heat", HOT, "--cold-water", "5", "--loss", given],
            "is more than 32 bits hold; the heat that the line's",
        );
    }
    assert_eq!(heat(HOT, "005", "01200").output, heat(HOT, "5", "1200").output, "zeros in front change no number");
}

#[test]
fn both_numbers_are_needed_once_and_by_heat_alone() {
    let usage = "\nusage: office heat JOB --cold-water T --loss W ";
    for (words, why) in [
        (
            &["heat", HOT][..],
            "`heat` needs `--cold-water`, the temperature of the cold water in whole degrees C, 0 to 30;",
        ),
        (&["heat", HOT, "--loss", "0"], "where it is not known, SNiP 2.04.01-85 takes 5"),
        (
            &["heat", HOT, "--cold-water", "5"],
            "`heat` needs `--loss`, the heat that the line's pipes lose in whole W, 0 to 1000000;",
        ),
        (&["heat", "--cold-water", "5", "--loss", "0"], "`heat` takes 1 word, not 0"),
        (&["heat", HOT, COLD, "--cold-water", "5", "--loss", "0"], "`heat` takes 1 word, not 2"),
    ] {
        misused(words, why);
        misused(words, usage);
    }
    misused(&["heat", HOT, "--cold-water", "5", "--loss"], "`--loss` wants a number of W");
    misused(&["heat", HOT, "--loss", "0", "--cold-water"], "`--cold-water` wants a temperature in degrees C");
    misused(&["heat", HOT, "--loss", "0", "--cold-water", "5", "--loss", "1"], "`--loss` is given twice");
    misused(&["heat", HOT, "--loss", "0", "--cold-water", "5", "--cold-water", "5"], "`--cold-water` is given twice");
    misused(&["flow", HOT, "--loss", "0"], "`flow` has no option --loss; `heat` has it\nusage: office flow");
    misused(
        &["losses", HOT, "examples/table.csv", "1", "--cold-water", "5"],
        "`losses` has no option --cold-water; `heat` has it\nusage: office losses",
    );
    misused(
        &["heat", "examples/table.csv", "--cold-water", "5", "--loss", "0"],
        "is a table of sizes; a house is expected",
    );
    for (words, wanted) in [
        (["--cold-water=5", "--loss", "0"], "`--cold-water=5`; write a blank in place of `=`, as `--cold-water 5`\n"),
        (["--cold-water", "5", "--loss=1200"], "`--loss=1200`; write a blank in place of `=`, as `--loss 1200`\n"),
        (["--warm-water=5", "--loss", "0"], "`--warm-water=5`; `office help` lists them\n"),
        (["--json=5", "--loss", "0"], "`--json=5`; `office help` lists them\n"),
    ] {
        misused(&[&["heat", HOT], &words[..]].concat(), &format!("there is no option {wanted}"));
    }
    for (words, option, next) in [
        (&["heat", HOT, "--cold-water", "--loss", "0"][..], "--cold-water", "--loss"),
        (&["heat", "--cold-water", "--loss", "0", HOT], "--cold-water", "--loss"),
        (&["heat", HOT, "--cold-water", "5", "--loss", "--json"], "--loss", "--json"),
        (&["heat", HOT, "--cold-water", "5", "--loss", "-o", "x"], "--loss", "-o"),
    ] {
        misused(words, &format!("`{option}` has no number: `{next}` stands behind it; it wants a "));
    }
}

/// The 60 guests' 150 litres each are 375 l/h in the mean hour, which take 116 x 375 x (55 - t) / 100 W: 21,750 from 5 degrees on, 10,875
/// from 30. Pipes that lose more than that are likely a zero too many.
#[test]
fn a_loss_above_the_mean_hours_own_heat_gets_a_warning() {
    for (cold, water, loss) in
        [("5", 21_750, 21_750), ("5", 21_750, 21_751), ("30", 10_875, 10_875), ("30", 10_875, 12_000)]
    {
        let ran = heat(HOT, cold, &loss.to_string());
        let why = format!(
            "warning: heat loss: {loss} W, more than the {water} W that the water of the mean hour takes itself; has it a digit \
             too many?\n"
        );
        assert_eq!((ran.status, ran.error.as_str()), (0, if loss > water { why.as_str() } else { "" }), "{loss}");
        let strict = office(&["heat", HOT, "--cold-water", cold, "--loss", &loss.to_string(), "--strict"]);
        assert_eq!(strict.status, if loss > water { 2 } else { 0 });
    }
}

/// A service that is given in version 1 is given: the place does not say that it is not.
#[test]
fn total_in_version_1_is_called_total() {
    let text = format!("version 1\nservice total\n{}", read(HOUSE));
    let ran = office_with(&["heat", "-", "--cold-water", "5", "--loss", "0"], text.as_bytes());
    let place = "standard input line 2, service: it is total, cold and hot water together, as where none is given; ";
    assert!(ran.status == 1 && ran.text().contains(place), "{}", ran.text());
}

/// The day's 9,000 litres in 4 hours are 2,250 l/h, under the 2,346 of the greatest hour, and in 3 hours 3,000.
#[test]
fn hours_too_few_for_the_day_get_a_warning() {
    for (hours, mean, warned) in [("4", 2_250, false), ("3", 3_000, true), ("1", 9_000, true)] {
        let text = read(HOT).replacen("hours           24", &format!("hours {hours}"), 1);
        let line = 1 + text.lines().position(|line| line.starts_with("hours")).expect("hours");
        let why = format!(
            "warning: standard input line {line}, hours: the 9000 litres of a day in {hours} hours are {mean} l/h in the mean hour, \
             more than the 2346 l/h of the greatest; are the hours of use a day right?\n"
        );
        for words in [&["heat", "-", "--cold-water", "5", "--loss", "0"][..], &["flow", "-"]] {
            let ran = office_with(words, text.as_bytes());
            assert_eq!((ran.status, ran.error.as_str()), (0, if warned { why.as_str() } else { "" }), "{hours}");
            let strict = office_with(&[words, &["--strict"]].concat(), text.as_bytes());
            assert_eq!(strict.status, if warned { 2 } else { 0 });
        }
    }
}

/// A loss that a few metres of pipe have may be in kW; none is stated with 0.
#[test]
fn a_loss_that_may_be_in_kilowatts_gets_a_warning() {
    for (loss, warned) in [("0", false), ("1", true), ("12", true), ("99", true), ("100", false), ("1200", false)] {
        let ran = heat(HOT, "5", loss);
        let why = format!(
            "warning: heat loss: {loss} W, which a few metres of pipe lose; is it in kW? {loss} kW would be {loss}000 W\n"
        );
        assert_eq!((ran.status, ran.error.as_str()), (0, if warned { why.as_str() } else { "" }), "{loss}");
        let strict = office(&["heat", HOT, "--cold-water", "5", "--loss", loss, "--strict"]);
        assert_eq!(strict.status, if warned { 2 } else { 0 }, "{loss}");
    }
    let parsed = json::parse(&office(&["heat", HOT, "--cold-water", "5", "--loss", "12", "--json"]).text());
    assert_eq!(parsed.list("warnings")[0].get("at"), &Value::Text("heat loss".to_string()));
}
