//! What programs read: the JSON's promise, key by key.

#[path = "tools/json.rs"]
mod json;
#[path = "tools/run.rs"]
mod run;

use json::Value;
use run::{office, office_with, read, scratch};

const HOUSE: &str = "examples/house.txt";
const TABLE: &str = "examples/table.csv";
const METERS: &str = "examples/meters.csv";
const LOSSES: &str = "examples/losses.csv";
const HOT: &str = "examples/hotel-hot.txt";
const WIDE: &str = "6,6,6,6,6,6,6,6,6,6,6,6";

fn keys(value: &Value) -> Vec<String> {
    match value {
        Value::Object(fields) => fields.keys().cloned().collect(),
        other => panic!("{other:?}"),
    }
}

fn texts(value: &Value, key: &str) -> Vec<String> {
    let text = |value: &Value| if let Value::Text(text) = value { text.clone() } else { panic!("{value:?}") };
    value.list(key).iter().map(text).collect()
}

/// The name of a file with the record of a text.
fn packed(text: &str, name: &str) -> String {
    let record = scratch(name);
    assert_eq!(office(&["pack", text, "-o", &record]).status, 0);
    record
}

/// Every key that the page has for a command is in its object, and none that it has not.
#[test]
fn the_keys_are_those_of_the_page() {
    let page = read("docs/COMMAND.md");
    let record = packed(HOUSE, "machines.job");
    let (list, lost) = (packed(METERS, "machines.meters"), packed(LOSSES, "machines.losses"));
    let heat = ["heat", HOT, "--cold-water", "5", "--loss", "1200"];
    let rows: [(&str, &[&str]); 18] = [
        ("|`pack`|", &["pack", HOUSE]),
        ("|`pack`|", &["pack", METERS]),
        ("|`pack`|", &["pack", LOSSES]),
        ("|`show` of losses|", &["show", &lost]),
        ("|`losses`|", &["losses", HOUSE, TABLE, WIDE]),
        ("|`heads`|", &["heads", HOUSE, LOSSES]),
        ("|`show` of a job|", &["show", &record]),
        ("|`show` of meters|", &["show", &list]),
        ("|`meter`|", &["meter", HOUSE, METERS]),
        ("|`flow`|", &["flow", HOUSE]),
        ("|`flow`|", &["flow", HOT]),
        ("|`pack`|", &["pack", HOT]),
        ("|`meter`|", &["meter", HOT, METERS]),
        ("|`heat`|", &heat),
        ("|`rate`, `choose`|", &["rate", HOUSE, TABLE, WIDE]),
        ("|`rate`, `choose`|", &["choose", HOUSE, TABLE]),
        ("|`kinds`|", &["kinds"]),
        ("|`--version`|", &["--version"]),
    ];
    let common = page.lines().find(|line| line.starts_with("|every one|")).expect("the page has it");
    for (row, words) in rows {
        let own = page.lines().find(|line| line.starts_with(row)).expect(row);
        let printed = json::parse(&office(&[words, &["--json"]].concat()).text());
        for key in keys(&printed) {
            let named = format!("`{key}`");
            assert!(own.contains(&named) || common.contains(&named), "{words:?}: the page lacks {key}");
        }
        for named in common.split('`').skip(1).step_by(2) {
            printed.get(named);
        }
        assert_eq!((printed.number("schema"), printed.get("refusal")), (1, &Value::Null));
        assert_eq!(printed.get("command"), &Value::Text(words[0].to_string()));
        assert_eq!(printed.list("warnings"), []);
    }
}

#[test]
fn files_are_named_in_every_answer() {
    let sizes = scratch("machines.sizes");
    std::fs::write(&sizes, WIDE).expect("written");
    let by_file = format!("@{sizes}");
    for (words, files) in [
        (&["flow", HOUSE][..], vec![HOUSE]),
        (&["heat", HOT, "--cold-water", "5", "--loss", "1200"], vec![HOT]),
        (&["heat", HOUSE, "--cold-water", "5", "--loss", "1200"], vec![HOUSE]),
        (&["choose", HOUSE, TABLE], vec![HOUSE, TABLE]),
        (&["meter", HOUSE, METERS], vec![HOUSE, METERS]),
        (&["heads", HOUSE, LOSSES], vec![HOUSE, LOSSES]),
        (&["losses", HOUSE, TABLE, WIDE], vec![HOUSE, TABLE]),
        (&["rate", HOUSE, TABLE, WIDE], vec![HOUSE, TABLE]),
        (&["rate", HOUSE, TABLE, &by_file], vec![HOUSE, TABLE, &sizes]),
        (&["rate", HOUSE, TABLE, "1"], vec![HOUSE, TABLE]),
        (&["flow", "examples/mistakes/circle.txt"], vec!["examples/mistakes/circle.txt"]),
        (&["flow", "examples/mistakes/missing-unit.txt"], vec!["examples/mistakes/missing-unit.txt"]),
    ] {
        let printed = json::parse(&office(&[words, &["--json"]].concat()).text());
        assert_eq!(texts(&printed, "files"), files, "{words:?}");
    }
    let printed = json::parse(&office_with(&["flow", "-", "--json"], read(HOUSE).as_bytes()).text());
    assert_eq!(texts(&printed, "files"), ["standard input"]);
}

#[test]
fn mistakes_of_a_text_come_as_json_too() {
    let text = read(HOUSE).replace("hours           24", "hours 24,0").replace("meter loss      120 cm", "");
    let ran = office_with(&["choose", "-", TABLE, "--json"], text.as_bytes());
    assert_eq!(ran.status, 2);
    assert!(ran.error.contains("has a comma"), "the words stand on standard error too");
    let printed = json::parse(&ran.text());
    let mistakes = printed.list("mistakes");
    assert_eq!((mistakes.len(), printed.number("more_mistakes"), printed.number("schema")), (2, 0, 1));
    assert_eq!((mistakes[0].number("line"), mistakes[1].get("line")), (5, &Value::Null));
    assert_eq!(mistakes[0].get("text"), &Value::Text("hours 24,0".to_string()));
    assert_eq!(mistakes[1].get("wrong"), &Value::Text("the file has no line `meter loss`".to_string()));
    assert_eq!(mistakes[0].get("file"), &Value::Text("standard input".to_string()));
    assert!(!keys(&printed).contains(&"sizes".to_string()));
    let table = office_with(&["choose", HOUSE, "-", "--json"], read(TABLE).replace("310", "310.00").as_bytes());
    assert_eq!((table.status, json::parse(&table.text()).list("mistakes").len()), (2, 8));
}

/// Every key that a meter has in an object is on the page, and the keys of `show` are among those of the answer.
#[test]
fn the_keys_of_a_meter_are_those_of_the_page() {
    let page = read("docs/COMMAND.md");
    let row = |start: &str| page.lines().find(|line| line.starts_with(start)).expect("the page has it");
    let list = packed(METERS, "machines-keys.meters");
    let shown = json::parse(&office(&["show", &list, "--json"]).text());
    let picked = json::parse(&office(&["meter", HOUSE, METERS, "--json"]).text());
    let (shown, picked) = (keys(&shown.list("meters")[0]), keys(&picked.list("meters")[0]));
    assert!(shown.iter().all(|key| row("|`show` of meters|").contains(&format!("`{key}`"))), "{shown:?}");
    assert!(shown.iter().all(|key| picked.contains(key)), "{picked:?}");
    let own: Vec<&String> = picked.iter().filter(|key| !shown.contains(key)).collect();
    assert!(own.len() == 6 && own.iter().all(|key| row("|`meter`|").contains(&format!("`{key}`"))), "{own:?}");
    let mistaken = office_with(&["meter", HOUSE, "-", "--json"], read(METERS).replace("0.143", "0.1430001").as_bytes());
    let mistakes = json::parse(&mistaken.text());
    assert_eq!((mistaken.status, mistakes.list("mistakes").len()), (2, 1));
    assert_eq!(mistakes.list("mistakes")[0].number("line"), 13);
}

#[test]
fn a_rating_says_whether_the_list_suits() {
    let printed = json::parse(&office(&["rate", HOUSE, TABLE, WIDE, "--json"]).text());
    assert_eq!((printed.get("suits"), printed.number("delivered_head_cm")), (&Value::Truth(true), 1_800));
    // Price times length in dm: 1,150 for each of the house's 966 dm.
    assert_eq!(printed.number("cost_tenths"), 1_150 * 966);
    let low = read(HOUSE).replace("delivered head  1800 cm", "delivered head 1000 cm");
    let printed = json::parse(&office_with(&["rate", "-", TABLE, WIDE, "--json"], low.as_bytes()).text());
    assert_eq!((printed.get("suits"), printed.get("refusal")), (&Value::Truth(false), &Value::Null));
    let chosen = json::parse(&office(&["choose", HOUSE, TABLE, "--json"]).text());
    let flow = json::parse(&office(&["flow", HOUSE, "--json"]).text());
    for key in ["duty_ml_per_s", "hour_l_per_h", "day_l", "mean_hour_l_per_h"] {
        assert_eq!(chosen.number(key), flow.number(key));
    }
    assert_eq!(chosen.get("suits"), &Value::Truth(true));
    // The example's one pipe at the pump carries all of the house.
    assert_eq!(chosen.number("duty_ml_per_s"), chosen.list("sections")[0].number("flow_ml_per_s"));
    let words = office(&["choose", HOUSE, TABLE]).text();
    assert!(words.starts_with("pump set: 2289 ml/s at 897 cm\ndesign flow "), "{words}");
}
