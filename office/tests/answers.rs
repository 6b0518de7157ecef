//! What `heads`, `show` and `pack` take from an answer that was printed with `--json`: its losses, its warnings, its refusal.

#[path = "tools/json.rs"]
mod json;
#[path = "tools/lists.rs"]
mod lists;
#[path = "tools/run.rs"]
mod run;

use json::Value;
use lists::put;
use office::{loss, losses};
use run::{Ran, office, office_with, read, scratch};

const OWN: &str = "examples/own-case.txt";
const OWN_TABLE: &str = "examples/own-case.csv";
const HOUSE: &str = "examples/house.txt";
const TABLE: &str = "examples/table.csv";
const LOSSES: &str = "examples/losses.csv";
/// The cheapest sizes of the example house.
const SIZES: &str = "5,4,4,3,3,5,4,3,3,1,1,2";

fn written(name: &str, text: impl AsRef<[u8]>) -> String {
    let file = scratch(name);
    std::fs::write(&file, text).expect("written");
    file
}

/// Section 1 has 2,289 ml/s in a bore of 53 mm: 816 + 317 × 489 / 700 is 1,037.4 mm/s, and so 1,038.
#[test]
fn a_velocity_over_the_limit_is_of_the_house_before_a_change() {
    let limit = |mm: u32| put(&read(HOUSE), "velocity limit  1500 mm/s", &format!("velocity limit {mm} mm/s"));
    let (slow, fast) = (written("slow-house.txt", limit(1_037)), written("fast-house.txt", limit(1_038)));
    for words in [&["losses", HOUSE, TABLE, SIZES][..], &["rate", HOUSE, TABLE, SIZES], &["choose", HOUSE, TABLE]] {
        let lost = office(&[words, &["--json"]].concat()).output;
        let ran = office_with(&["heads", &slow, "-"], &lost);
        let why = "is not of this house: section 1 has a velocity of 1038 mm/s there, over the limit of 1037 mm/s here; it was made";
        assert!(ran.status == 2 && ran.output.is_empty() && ran.error.contains(why), "{words:?}: {}", ran.error);
        let held: Vec<i64> = json::parse(&String::from_utf8_lossy(&lost))
            .list("sections")
            .iter()
            .map(|s| s.number("velocity_mm_per_s"))
            .collect();
        let most = held.iter().max() <= Some(&1_038);
        assert_eq!(office_with(&["heads", &fast, "-"], &lost).status, if most { 0 } else { 2 }, "{held:?}");
        // An answer of `heads` has no velocities.
        let headed = office_with(&["heads", HOUSE, "-", "--json"], &lost).output;
        assert_eq!(office_with(&["heads", &slow, "-"], &headed).status, 0);
    }
    assert_eq!(office(&["rate", &slow, TABLE, SIZES]).status, 1, "the library gives 13");
}

/// What was written differs before what comes of it, over all sections; with `--json` there is an object.
#[test]
fn differences_come_in_their_order() {
    let lost = office(&["losses", HOUSE, TABLE, SIZES, "--json"]).output;
    let residents = ("residents hotel-75 84", "residents hotel-75 85");
    let length = ("length 22.0 m", "length 22.1 m");
    let limit = ("velocity limit  1500 mm/s", "velocity limit 500 mm/s");
    let local = ("local losses    0.3", "local losses 0.2");
    let changed = |changes: &[(&str, &str)]| {
        let text = changes.iter().fold(read(HOUSE), |text, (from, to)| put(&text, from, to));
        written("order-of-differences.txt", text)
    };
    for (changes, why) in [
        (&[local, length, residents, limit][..], "the house has local losses of 0.3 there and 0.2 here;"),
        (&[length, residents, limit], "section 10 has a length of 22.0 m there and 22.1 m here;"),
        (&[residents, limit], " here, which comes of other residents, fixtures or kinds;"),
        (&[limit], "mm/s there, over the limit of 500 mm/s here;"),
    ] {
        let ran = office_with(&["heads", &changed(changes), "-", "--json"], &lost);
        assert!(ran.status == 2 && ran.error.contains(why), "{}", ran.error);
        let mistake = json::parse(&ran.text()).list("mistakes")[0].clone();
        let Value::Text(wrong) = mistake.get("wrong") else { panic!("{}", ran.text()) };
        assert!(wrong.contains(why.trim_end_matches(';')), "{wrong}");
        assert_eq!(mistake.get("file"), &Value::Text("standard input".to_string()));
    }
}

/// The example's table with velocities in cm/s under a header of mm/s.
fn tenth() -> String {
    let line = |line: &str| {
        let mut cells: Vec<String> = line.split(',').map(str::to_string).collect();
        if let Some(velocity) = cells.get_mut(4).and_then(|cell| Some((cell.parse::<u32>().ok()?, cell))) {
            *velocity.1 = (velocity.0 / 10).to_string();
        }
        cells.join(",") + "\n"
    };
    read(TABLE).lines().map(line).collect()
}

#[test]
fn warnings_of_an_answer_are_not_lost() {
    let table = written("tenth.csv", tenth());
    let lost = office(&["losses", HOUSE, &table, SIZES, "--json"]);
    assert!(lost.status == 0 && lost.error.contains("size 1 row 1: the velocity is 28 mm/s"), "{}", lost.error);
    let answer = written("tenth.json", &lost.output);
    let ran = office(&["heads", HOUSE, &answer]);
    let why = format!(
        "warning: {answer} comes with this warning: {table} line 4, size 1 row 1: the velocity is 28 mm/s, but "
    );
    assert!(ran.status == 0 && ran.error.starts_with(&why) && ran.error.lines().count() == 1, "{}", ran.error);
    let strict = office(&["heads", HOUSE, &answer, "--strict"]);
    assert!(strict.status == 2 && strict.output.is_empty() && strict.error.contains("--strict"), "{}", strict.error);
    let headed = office(&["heads", HOUSE, &answer, "--json"]);
    let warning = json::parse(&headed.text()).list("warnings")[0].clone();
    assert_eq!((warning.number("line"), warning.get("answer")), (4, &Value::Text(answer.clone())));
    // Handed on again it is still there, and in a list that is shown it is said too.
    assert_eq!(office_with(&["heads", HOUSE, "-", "--strict"], &headed.output).status, 2);
    for command in ["show", "pack"] {
        assert!(
            office(&[command, &answer]).error.starts_with(&why) && office(&[command, &answer, "--strict"]).status == 2
        );
    }
}

#[test]
fn warnings_of_an_answer_are_said_once() {
    // What this run finds itself is said once: a pipe that is too steep.
    let steep =
        written("steep-answer.txt", put(&read(HOUSE), "length  3.3 m elevation  710", "length 0.3 m elevation 710"));
    let lost = office(&["losses", &steep, TABLE, SIZES, "--json"]);
    let ran = office_with(&["heads", &steep, "-"], &lost.output);
    assert!(
        lost.status == 0 && lost.error.lines().count() == 1 && ran.error == lost.error,
        "{}{}",
        lost.error,
        ran.error
    );
    // An object that `--strict` left without an answer says so.
    let none = office(&["losses", &steep, TABLE, SIZES, "--json", "--strict"]).output;
    let ran = office_with(&["heads", HOUSE, "-"], &none);
    assert!(
        ran.status == 2 && ran.error.contains("it has warnings of which `--strict` made a refusal"),
        "{}",
        ran.error
    );
}

/// 10 m at 2,526 mm/m, with three tenths of it for the fittings, lose over 30 m: more than the pipe is long, and no slip.
#[test]
fn losses_that_were_worked_out_have_no_warning() {
    let table = written(
        "rough.csv",
        "size,bore mm,price,flow ml/s,velocity mm/s,slope mm/m\n1,50,1,1000,509,2000\n1,50,1,3000,1528,3000\n",
    );
    let rated = office(&["rate", OWN, &table, "1", "--strict"]);
    let lost = office(&["losses", OWN, &table, "1", "--json", "--strict"]);
    let headed = office_with(&["heads", OWN, "-", "--strict", "--json"], &lost.output);
    assert_eq!([rated.status, lost.status, headed.status], [0; 3], "{}{}{}", rated.error, lost.error, headed.error);
    let list = office_with(&["show", "-"], &lost.output).output;
    let record = office_with(&["pack", "-"], &lost.output).output;
    for written in [list, record, headed.output] {
        let ran = office_with(&["heads", OWN, "-", "--strict"], &written);
        assert!(ran.status == 2 && ran.error.contains(" cm in a pipe that is 1000 cm long; "), "{}", ran.error);
    }
}

#[test]
fn a_refusal_is_handed_on() {
    let refused = office(&["losses", OWN, OWN_TABLE, "1", "--json"]);
    assert_eq!(refused.status, 1);
    let answer = written("refused.json", &refused.output);
    let plain = office(&["losses", OWN, OWN_TABLE, "1"]).text();
    let (first, places) = plain.split_once('\n').expect("lines");
    for command in [&["heads", OWN, &answer][..], &["show", &answer], &["pack", &answer]] {
        let ran = office(command);
        let said =
            format!("{first}\n  it stands in {answer}, an answer of `office losses`, in place of losses\n{places}");
        assert_eq!((ran.status, ran.text()), (1, said), "{command:?}: {}", ran.error);
        let (own, handed) =
            (json::parse(&refused.text()), json::parse(&office(&[command, &["--json"]].concat()).text()));
        for key in ["number", "text", "places"] {
            assert_eq!(own.get("refusal").get(key), handed.get("refusal").get(key));
        }
        assert_eq!(handed.get("refusal").get("answer"), &Value::Text(answer.clone()));
    }
    // Its text moves no cursor.
    let odd = refused.text().replacen("A section's", "\\u001b[2JA\\nsection's", 1);
    let ran = office_with(&["heads", OWN, "-"], odd.as_bytes());
    assert!(ran.status == 1 && ran.text().starts_with("refused 13: \\u{1b}[2JA\\u{a}section's"), "{}", ran.text());
    assert_eq!(
        office_with(
            &["heads", OWN, "-"],
            office(&["flow", "examples/mistakes/circle.txt", "--json"]).output.as_slice()
        )
        .status,
        2
    );
    let mistakes = office(&["rate", "examples/mistakes/missing-unit.txt", TABLE, "1", "--json"]);
    let ran = office_with(&["heads", OWN, "-"], &mistakes.output);
    assert!(ran.status == 2 && ran.error.contains("it has mistakes of a file, and no losses"), "{}", ran.error);
}

fn one_line(ran: Ran, why: &str) {
    assert!(ran.status == 2 && ran.output.is_empty() && ran.error.contains(why), "{why}: {}", ran.error);
    assert_eq!(ran.error.lines().count(), 1, "{}", ran.error);
}

#[test]
fn what_is_printed_for_people_is_named() {
    let lost = office(&["losses", HOUSE, TABLE, SIZES]).text();
    let table = lost.split_once("\n\n").expect("a table").1.to_string();
    let refused = office(&["losses", HOUSE, TABLE, "1,2"]).text();
    for text in
        [lost, table, refused, office(&["rate", HOUSE, TABLE, SIZES]).text(), office(&["heads", HOUSE, LOSSES]).text()]
    {
        let why = "is what `office` prints for people; the losses are taken from what `office losses` or `rate` prints with `--json`";
        one_line(office_with(&["heads", HOUSE, "-"], text.as_bytes()), why);
    }
    let answer = office(&["losses", HOUSE, TABLE, SIZES, "--json"]).text();
    for command in [&["heads", HOUSE, "-"][..], &["pack", "-"]] {
        for text in [format!("warning: x\n{answer}"), format!("losses = {answer}"), format!("# losses\n\n {answer}")] {
            one_line(office_with(command, text.as_bytes()), "JSON: text stands before its `{`; one object is expected");
        }
    }
    for command in [&["heads", HOUSE, "-"][..], &["pack", "-"], &["show", "-"]] {
        let list = format!("[{answer}]");
        one_line(
            office_with(command, list.as_bytes()),
            "JSON: it begins with `[`, as a list does; one object is expected",
        );
    }
    // A bracket in a note makes no JSON of a list.
    let noted = "section,loss cm,notes\n1,71,{old}\n";
    assert_eq!(office_with(&["heads", OWN, "-"], noted.as_bytes()).status, 0);
}

#[test]
fn an_answer_is_shown_and_packed() {
    let list = [133, 73, 51, 52, 28, 56, 64, 55, 31, 447, 59, 38];
    let headed = office(&["heads", HOUSE, LOSSES, "--json"]).output;
    let answer = written("shown, 1.json", headed);
    let shown = office(&["show", &answer]);
    let first = format!("# the losses of {answer}, an answer of `office heads`\n");
    let wanted = first + &losses::show(&loss::bytes(&list)).expect("a list");
    assert_eq!((shown.status, shown.text(), shown.error), (0, wanted, String::new()));
    assert_eq!(office_with(&["pack", "-"], &shown.output).output, loss::bytes(&list));
    assert_eq!(office(&["pack", &answer]).output, loss::bytes(&list));
    let fields = json::parse(&office(&["show", &answer, "--json"]).text());
    assert_eq!((fields.get("kind"), fields.list("losses").len()), (&Value::Text("losses".to_string()), 12));
    assert_eq!(json::parse(&office(&["pack", &answer, "--json"]).text()).number("bytes"), 48);
    for command in ["show", "pack"] {
        let flow = office_with(&[command, "-"], &office(&["flow", HOUSE, "--json"]).output);
        assert!(flow.status == 2 && flow.error.contains("it is an answer of `office flow`"), "{}", flow.error);
    }
    for command in [["losses", HOUSE, TABLE, SIZES], ["rate", HOUSE, TABLE, SIZES]] {
        let text = office_with(&["show", "-"], &office(&[&command[..], &["--json"]].concat()).output).text();
        assert!(
            text.starts_with(&format!("# the losses of standard input, an answer of `office {}`\n", command[0])),
            "{text}"
        );
    }
}

#[test]
fn the_bytes_of_a_record_are_counted() {
    let record = office(&["pack", LOSSES]).output;
    for (bytes, why) in [
        ([&record[..], &[0]].concat(), "list of losses: 49 bytes; the house's 12 sections need 48: 1 too many"),
        (record[..47].to_vec(), "list of losses: 47 bytes; the house's 12 sections need 48: 1 too few"),
        (record[..6].to_vec(), "list of losses: 6 bytes; the house's 12 sections need 48: 42 too few"),
    ] {
        let ran = office_with(&["heads", HOUSE, "-"], &bytes);
        assert!(
            ran.status == 1 && ran.text().contains(why) && ran.text().lines().count() == 2,
            "{why}: {}",
            ran.text()
        );
    }
    let answer = written("no-record.json", office(&["losses", HOUSE, TABLE, SIZES, "--json"]).output);
    for file in [LOSSES, &answer] {
        let ran = office(&["heads", HOUSE, "--record", file]);
        let why = "these bytes are a text and no record; leave `--record` out, and the file is read as what it is";
        assert!(ran.status == 1 && ran.text().contains(why) && ran.text().lines().count() == 2, "{}", ran.text());
    }
}
