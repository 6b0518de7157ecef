//! The lines of a house: what every command says of a cold and a hot line, and that one line's answer is not taken for another's.

#[path = "tools/json.rs"]
mod json;
#[path = "tools/run.rs"]
mod run;

use json::Value;
use office::record::Record;
use office::which::Which;
use office::{calls, house, kinds, losses, table};
use run::{office, office_with, read, scratch};

const HOT: &str = "examples/hotel-hot.txt";
const COLD: &str = "examples/hotel-cold.txt";
const HOUSE: &str = "examples/house.txt";
const TABLE: &str = "examples/table.csv";
const METERS: &str = "examples/meters.csv";

fn answered(words: &[&str]) -> String {
    let ran = office(words);
    assert_eq!((ran.status, ran.error.as_str()), (0, ""), "{words:?}");
    ran.text()
}

fn written(name: &str, text: impl AsRef<[u8]>) -> String {
    let file = scratch(name);
    std::fs::write(&file, text).expect("written");
    file
}

/// The example's sizes, as `choose` prints them.
fn sizes(file: &str) -> String {
    let chosen = answered(&["choose", file, TABLE, "--strict"]);
    chosen.lines().find_map(|line| line.strip_prefix("sizes  ")).expect("a list of sizes").to_string()
}

/// Hot: m is 25,000 × 150 × 60 / (9 × 20), 1,250,000, where Table 2 has 1.096: 20 × 1,096,000 / 20,000 are 1,096 ml/s. Cold: m is
/// 1,083,334 up, between 0.995 at 1.05 and 1.021 at 1.10: α is 1,012,334 up, and the flow 1,013 ml/s up. A guest uses 150 litres of
/// hot water a day and 100 of cold.
#[test]
fn the_two_lines_of_the_hotel_by_hand() {
    for (file, line, duty, day, mean) in [(HOT, "hot", 1_096, 9_000, 375), (COLD, "cold", 1_013, 6_000, 250)] {
        let flow = answered(&["flow", file, "--strict"]);
        let wanted = format!(
            "line; `office kinds {line}` has its norms\ndesign flow    {duty} ml/s for the pump set to deliver\n"
        );
        assert!(flow.starts_with("service ") && flow.contains(&wanted), "{flow}");
        assert!(flow.contains(&format!("\ngreatest day   {day} l\n")), "{flow}");
        assert!(flow.contains(&format!("\nmean hour       {mean} l/h\n")), "{flow}");
    }
    let (hot, cold) = (Record::read(&packed(HOT)).expect("a record"), Record::read(&packed(COLD)).expect("a record"));
    assert_eq!(hot.residents, cold.residents, "both lines have all guests");
    assert_ne!(sizes(HOT), sizes(COLD), "each has its own sizes");
}

fn packed(file: &str) -> Vec<u8> {
    house::pack(&read(file)).expect("a house")
}

/// One tap draws 10 × Z of the line: 200 ml/s of kind 8, and not the 300 of all water. In the wing of the mixed house, section 5, the
/// hot line has the shares 25,000 × 160 × 24 / (9 × 20 × 48), 11,112 up, and 25,000 × 20 × 30 × 6 / (9 × 10 × 30), 33,334 up; α of
/// 44,446 is 263,892, and the formula gives (11,112 × 20 + 33,334 × 10) × 263,892 / (20,000 × 44,446), 165 ml/s up. The cold line has
/// 9,723 and 33,334, α 261,114, and 161 ml/s up. Section 7 has the bath alone, and the formula itself gives 200.
#[test]
fn one_tap_is_that_of_the_line() {
    let mixed = read("examples/mixed.txt");
    for (service, tap) in [("hot", 200), ("cold", 200), ("total", 300)] {
        let text = format!("service {service}\n{mixed}");
        let parsed = json::parse(&office_with(&["flow", "-", "--json"], text.as_bytes()).text());
        let wing = &parsed.list("sections")[4..];
        let found = wing.iter().map(|own| (own.number("flow_ml_per_s"), own.list("one_tap_kinds").len()));
        let found: Vec<_> = found.collect();
        assert_eq!((found[0], found[2]), ((tap, 1), (tap, 0)), "{service}");
        assert_eq!(wing[0].list("one_tap_kinds"), [Value::Number(8)]);
    }
}

/// The words of each command on a house, with its own sizes and the losses that they give.
fn commands(file: &str, sizes: &str) -> Vec<Vec<String>> {
    let lost = answered(&["losses", file, TABLE, sizes, "--json"]);
    let name = file.replace(['/', '.'], "-");
    let lost = written(&format!("lines-{name}.json"), lost);
    [
        &["flow", file][..],
        &["meter", file, METERS],
        &["rate", file, TABLE, sizes],
        &["losses", file, TABLE, sizes],
        &["heads", file, &lost],
        &["choose", file, TABLE],
    ]
    .map(|words| words.iter().map(|word| word.to_string()).collect())
    .to_vec()
}

/// Every table says which line it is, and every object; of a house without a service the tables say nothing.
#[test]
fn every_answer_says_which_line_it_is() {
    let total = written("house-total.txt", format!("service total\n{}", read(HOUSE)));
    for (file, service) in [(HOT, "hot"), (COLD, "cold"), (&total, "total"), (HOUSE, "")] {
        for words in commands(file, &sizes(file)) {
            let words: Vec<&str> = words.iter().map(String::as_str).collect();
            let text = answered(&words);
            let said = text.lines().find(|line| line.starts_with("service "));
            assert_eq!(said.is_some(), !service.is_empty(), "{words:?}: {text}");
            assert!(said.is_none_or(|line| line.split_whitespace().nth(1) == Some(service)), "{words:?}: {text}");
            let set = text.lines().find(|line| line.starts_with("pump set: "));
            let line = ["hot", "cold"].contains(&service);
            assert!(set.is_none_or(|set| set.ends_with(&format!(" cm for the {service} line")) == line), "{text}");
            let parsed = json::parse(&answered(&[&words, &["--json"][..]].concat()));
            let wanted = if service.is_empty() { "total" } else { service };
            assert_eq!(parsed.get("service"), &Value::Text(wanted.to_string()), "{words:?}");
        }
    }
}

/// Without the lines that name the service, all water in version 2 answers as version 1 does.
#[test]
fn all_water_is_the_same_in_both_versions() {
    let total = written("house-total-too.txt", format!("service total\n{}", read(HOUSE)));
    let list = sizes(HOUSE);
    assert_eq!(sizes(&total), list);
    for (own, other) in commands(HOUSE, &list).into_iter().zip(commands(&total, &list)) {
        let [own, other] = [own, other].map(|words| {
            let text = answered(&words.iter().map(String::as_str).collect::<Vec<_>>());
            let lines = text.lines().filter(|line| !line.starts_with("service "));
            // The columns of figures may be wider with the word `service` among their names.
            lines.map(|line| line.split_whitespace().collect::<Vec<_>>().join(" ")).collect::<Vec<_>>()
        });
        assert_eq!(own, other);
    }
}

/// A record of a line is shown with its service, in words and as JSON, and packed to the same bytes.
#[test]
fn a_line_goes_through_show_and_pack() {
    for (file, service) in [(HOT, "hot"), (COLD, "cold")] {
        let record = scratch(&format!("lines-{service}.record"));
        answered(&["pack", file, "-o", &record]);
        let bytes = std::fs::read(&record).expect("packed");
        assert_eq!((bytes.len(), bytes[4], bytes[40]), (41 + 10 * 7, 2, if service == "hot" { 2 } else { 1 }));
        let shown = answered(&["show", &record]);
        assert!(shown.starts_with(&format!("service {service}\nlocal losses 0.3\n")), "{shown}");
        assert_eq!(office_with(&["pack", "-"], shown.as_bytes()).output, bytes);
        let parsed = json::parse(&answered(&["show", &record, "--json"]));
        assert_eq!((parsed.number("version"), parsed.get("service")), (2, &Value::Text(service.to_string())));
    }
    let parsed = json::parse(&office_with(&["show", "-", "--json"], &packed(HOUSE)).text());
    assert_eq!((parsed.number("version"), parsed.get("service")), (1, &Value::Text("total".to_string())));
}

/// A service that there is not is refused, shown as its number, and packed to the same bytes.
#[test]
fn an_odd_service_can_be_looked_at() {
    let mut odd = packed(HOT);
    odd[40] = 7;
    let ran = office_with(&["show", "-"], &odd);
    assert!(ran.status == 1 && ran.text().starts_with("service 7\n"), "{}", ran.text());
    assert!(
        ran.error.contains("refused 3: ") && ran.error.contains("service: 7 is none of 0 (total), 1 (cold), 2 (hot)")
    );
    let again = office_with(&["pack", "-"], ran.text().as_bytes());
    assert_eq!((again.status, again.output), (1, odd));
    assert!(again.error.contains("standard input line 1, service: 7 is none of "), "{}", again.error);
}

/// The meter's house keeps its line: in a text every other byte, in a record the version and the service.
#[test]
fn a_meter_keeps_the_line() {
    let out = scratch("hot-with-meter.txt");
    let metered = answered(&["meter", HOT, METERS, "-o", &out]);
    let text = std::fs::read_to_string(&out).expect("written");
    assert!(metered.starts_with("service ") && text.contains("\nservice hot\n"), "{metered}");
    assert_eq!(text.replace("meter loss      1 cm", "meter loss      40 cm"), read(HOT));
    let record = written("hot.record", packed(HOT));
    let kept = scratch("hot-with-meter.record");
    answered(&["meter", &record, METERS, "-o", &kept]);
    assert_eq!(std::fs::read(&kept).expect("written"), house::pack(&text).expect("a house"));
}

/// One resident of kind 8 and two ends with two of its four fixtures each. Of the hot line m of an end is 25,000 × 160 × 2 / (9 × 20 ×
/// 4), 11,112 up, of the cold one 9,723: both are under 15,000, where α is 0.2, so that both lines have 200 ml/s in each pipe.
const ALIKE: &str = "local losses 0.3\nhours 24\nmeter loss 50 cm\nguaranteed head 500 cm\ndelivered head 3000 cm\n\
    velocity limit 1500 mm/s\nresidents hotel-100 1\n\
    section 1 from pump length 5 m elevation 300 cm kind hotel-100 fixtures 2 free 200 cm\n\
    section 2 from pump length 5 m elevation 310 cm kind hotel-100 fixtures 2 free 200 cm\n";

/// Losses of one line are not taken for another's, also where no flow tells them apart.
#[test]
fn an_answer_of_another_line_is_refused() {
    let house = |service: &str| written(&format!("alike-{service}.txt"), format!("service {service}\n{ALIKE}"));
    let [hot, cold, total] = ["hot", "cold", "total"].map(house);
    let plain = written("alike.txt", ALIKE);
    let flows = |file: &str| -> Vec<i64> {
        let parsed = json::parse(&answered(&["flow", file, "--json"]));
        parsed.list("sections").iter().map(|section| section.number("flow_ml_per_s")).collect()
    };
    assert_eq!((flows(&hot), flows(&cold)), (vec![200, 200], vec![200, 200]));
    for words in [&["losses", &cold, TABLE, "2,2"][..], &["rate", &cold, TABLE, "2,2"], &["choose", &cold, TABLE]] {
        let answer = office(&[words, &["--json"]].concat()).output;
        let headed = office_with(&["heads", &cold, "-", "--json"], &answer);
        assert_eq!(headed.status, 0, "{}", headed.error);
        for (file, here) in [(&hot, "hot"), (&total, "total"), (&plain, "total")] {
            for answer in [&answer, &headed.output] {
                let ran = office_with(&["heads", file, "-"], answer);
                let why = format!(
                    "is not of this house: the house has as its service cold there and {here} here; \
                    give the house of the cold line with it; "
                );
                assert!(ran.status == 2 && ran.output.is_empty() && ran.error.contains(&why), "{}", ran.error);
            }
        }
    }
    // All water is all water in either version.
    let answer = office(&["losses", &plain, TABLE, "2,2", "--json"]).output;
    assert_eq!(office_with(&["heads", &total, "-"], &answer).status, 0);
}

/// The list of a line's answer says in every row which line it is of, and is taken for no other; one of all water has no such column.
#[test]
fn a_list_of_an_answer_names_its_line() {
    for (file, line, own) in [(HOT, " for the hot line", "hot"), (COLD, " for the cold line", "cold"), (HOUSE, "", "")]
    {
        for command in [&["losses", file, TABLE, &sizes(file)][..], &["choose", file, TABLE]] {
            let answer = answered(&[command, &["--json"]].concat());
            let list = office_with(&["show", "-"], answer.as_bytes()).text();
            let first = format!("# the losses of standard input, an answer of `office {}`{line}\n", command[0]);
            assert!(list.starts_with(&first), "{list}");
            let rows: Vec<Vec<&str>> = list.lines().skip(1).map(|line| line.split(',').collect()).collect();
            let third = |place: usize| rows[place].get(2).copied().unwrap_or("");
            assert_eq!(third(0), if own.is_empty() { "" } else { "service" });
            assert!((1..rows.len()).all(|place| third(place) == own), "{list}");
            let ran = office_with(&["heads", file, "-", "--strict"], list.as_bytes());
            assert_eq!((ran.status, ran.error.as_str()), (0, ""));
            assert_eq!(ran.text(), office_with(&["heads", file, "-"], answer.as_bytes()).text());
        }
    }
}

const LOST: [&str; 3] = ["section", "loss cm", "service"];

/// A list of two losses with its columns in an order, cells parted so, and these services.
fn lost(order: [usize; 3], separator: &str, services: [&str; 2]) -> String {
    let row = |cells: [&str; 3]| order.map(|place| cells[place]).join(separator) + "\n";
    row(LOST) + &row(["1", "31", services[0]]) + &row(["2", "32", services[1]])
}

const ORDERS: [[usize; 3]; 6] = [[0, 1, 2], [0, 2, 1], [1, 0, 2], [1, 2, 0], [2, 0, 1], [2, 1, 0]];

/// Losses of one line are not taken for the other, nor for all water, in whatever order and form the list says which line it is.
#[test]
fn a_list_of_another_line_is_refused() {
    let house = |service: &str| written(&format!("two-{service}.txt"), format!("service {service}\n{ALIKE}"));
    let (plain, houses) = (written("two.txt", ALIKE), ["total", "cold", "hot"].map(|line| (line, house(line))));
    let houses: Vec<_> = houses.into_iter().chain([("total", plain)]).collect();
    for (order, separator) in ORDERS.iter().flat_map(|order| [",", ";", "\t", " , "].map(|own| (*order, own))) {
        for there in ["total", "cold", "hot", "HOT"] {
            let list = lost(order, separator, [there; 2]);
            assert!(losses::is_list(&list) && Which::of(&list) == Which::Losses, "{list}");
            for (here, file) in &houses {
                let ran = office_with(&["heads", file, "-", "--strict", "--json"], list.as_bytes());
                if there.to_lowercase() == *here {
                    let parsed = json::parse(&ran.text());
                    assert_eq!((ran.status, parsed.get("service")), (0, &Value::Text(here.to_string())), "{list}");
                    continue;
                }
                let ran = office_with(&["heads", file, "-"], list.as_bytes());
                let there = there.to_lowercase();
                let why = format!("the house has as its service {there} there and {here} here");
                assert!(ran.status == 2 && ran.output.is_empty() && ran.error.contains(&why), "{list}{}", ran.error);
            }
        }
    }
}

/// A list of a line says it once and the same in every row, by its name.
#[test]
fn services_of_a_list_are_one_name() {
    let expected = "total, cold or hot, the same in every row";
    for (services, line, wrong) in [
        (["cold", "hot"], 3, "`service` is hot here and cold in line 2"),
        (["hot", "total"], 3, "`service` is total here and hot in line 2"),
        (["", "hot"], 2, "`service` is empty"),
        (["hot", ""], 3, "`service` is empty"),
        (["2", "2"], 2, "`2` is no service"),
        (["7", "7"], 2, "`7` is no service"),
        (["warm", "warm"], 2, "`warm` is no service"),
        (["hot line", "hot"], 2, "`hot line` is no service"),
        (["хот", "hot"], 2, "`хот` is no service"),
    ] {
        for order in ORDERS {
            let found = losses::pack(&lost(order, ",", services)).expect_err(wrong);
            let first = &found.list[0];
            assert_eq!(first.line.as_ref().map(|(number, _)| *number), Some(line), "{found}");
            assert!(first.wrong.starts_with(wrong) && (line == 3 || first.expected == expected), "{found}");
        }
    }
    let twice = losses::pack("service,section,loss cm,service\nhot,1,3,hot\n").expect_err("twice");
    assert!(twice.list[0].wrong.contains("the column `service` is there twice"), "{twice}");
    // The record has the losses alone, and the library judges them.
    let bytes = losses::pack(&lost([2, 1, 0], ",", ["cold"; 2])).expect("a list");
    assert_eq!(bytes, [0, 0, 0, 31, 0, 0, 0, 32]);
}

/// A list that does not say its line, readable or as a record, is warned of for a house that is one line; all water needs no word.
#[test]
fn a_list_without_its_line_is_warned_of() {
    let list = "section,loss cm\n1,31\n2,32\n";
    let record = losses::pack(list).expect("a list");
    for (service, warned) in
        [("service hot\n", true), ("service cold\n", true), ("service total\n", false), ("", false)]
    {
        let house = written(&format!("unsaid-{}.txt", service.trim()), format!("{service}{ALIKE}"));
        for given in [list.as_bytes(), &record] {
            let why = "warning: standard input, list of losses: the list does not say which line of the house its losses are of;";
            let ran = office_with(&["heads", &house, "-"], given);
            assert_eq!((ran.status, ran.error.starts_with(why), ran.error.is_empty()), (0, warned, !warned));
            let strict = office_with(&["heads", &house, "-", "--strict"], given);
            assert_eq!((strict.status, strict.output.is_empty()), if warned { (2, true) } else { (0, false) });
            // A list of another length is refused, and its line is not what is wrong with it.
            let short = office_with(&["heads", &house, "-"], &record[..4]);
            assert!(short.status == 1 && !short.error.contains("which line"), "{}", short.error);
        }
    }
}

/// An answer from before there were services has no such key: it is of all water. One that is no service is refused.
#[test]
fn an_older_answer_is_of_all_water() {
    let answer = |file: &str, list: &str| answered(&["losses", file, TABLE, list, "--json"]);
    let (house, hot) = (answer(HOUSE, &sizes(HOUSE)), answer(HOT, &sizes(HOT)));
    let older = |text: &str, service: &str| {
        let key = format!("\"service\":\"{service}\",");
        assert_eq!(text.matches(&key).count(), 1);
        text.replace(&key, "")
    };
    assert_eq!(office_with(&["heads", HOUSE, "-"], older(&house, "total").as_bytes()).status, 0);
    let ran = office_with(&["heads", HOT, "-"], older(&hot, "hot").as_bytes());
    let why = "is not of this house: it names no service, so that it is of all water: the house has as its service total there and hot \
               here; give the house for all its water with it; it was made for another house, or ";
    assert!(ran.status == 2 && ran.error.contains(why), "{}", ran.error);
    for (value, why) in
        [("\"warm\"", "`service` is `warm`"), ("\"7\"", "`service` is `7`"), ("2", "`service` is no text")]
    {
        let odd = hot.replace("\"service\":\"hot\"", &format!("\"service\":{value}"));
        let ran = office_with(&["heads", HOT, "-"], odd.as_bytes());
        assert!(ran.status == 2 && ran.error.contains(why), "{value}: {}", ran.error);
    }
}

/// What `losses` prints of a line for people is told apart from a list of losses, and from a house that begins with its service.
#[test]
fn a_table_for_people_is_no_list() {
    let table = answered(&["losses", HOT, TABLE, &sizes(HOT)]);
    assert!(table.starts_with("sizes  ") && table.lines().nth(1) == Some("service  hot"), "{table}");
    let ran = office_with(&["heads", HOT, "-"], table.as_bytes());
    assert!(ran.status == 2 && ran.error.contains("is what `office` prints for people"), "{}", ran.error);
    let other = read(COLD).replace("service cold", "service         cold");
    let first: String = other.lines().filter(|line| !line.starts_with('#')).map(|line| format!("{line}\n")).collect();
    let ran = office_with(&["heads", HOT, "-"], first.as_bytes());
    assert!(ran.status == 2 && ran.error.contains("is a house; a list of losses is expected"), "{}", ran.error);
}

/// A sign before the service is the house's mistake, and makes no list of it.
#[test]
fn a_house_that_begins_with_a_sign_is_a_house() {
    for first in [";service hot", "; service hot", ",service cold", ";service", "x;service hot"] {
        let text = format!("{first}\n{}", read(HOUSE));
        assert_eq!(Which::of(&text), Which::House, "{first}");
        let ran = office_with(&["flow", "-"], text.as_bytes());
        assert!(ran.status == 2 && ran.error.contains(" begins no line of a house"), "{first}: {}", ran.error);
    }
    // A list of meters that lacks a unit is still one.
    for header in ["type,resistance m/(l/s)2,service", "type;service", "service flow;name"] {
        assert_eq!(Which::of(&format!("{header}\nvane,1.3,4000\n")), Which::Meters, "{header}");
    }
}

/// Kind 7 uses 250 litres a day, 150 of them hot, and 28.0 in the hour, 15.0 of them hot; a fixture of either line gives 0.20 l/s and
/// 190 l/h.
#[test]
fn kinds_of_a_line() {
    for (words, row, last) in [
        (
            &["kinds"][..],
            "7 hotel, baths 75 % 250 28.0 0.30 280",
            "service total, cold and hot water together; `office kinds cold` and `office kinds hot`",
        ),
        (&["kinds", "total"], "7 hotel, baths 75 % 250 28.0 0.30 280", "service total, "),
        (
            &["kinds", "cold"],
            "7 hotel, baths 75 % 100 13.0 0.20 190",
            "service cold, the cold line; `office kinds total` and `office kinds hot`",
        ),
        (
            &["kinds", "HOT"],
            "7 hotel, baths 75 % 150 15.0 0.20 190",
            "service hot, the hot line; `office kinds total` and `office kinds cold`",
        ),
    ] {
        let text = answered(words);
        let found = text.lines().find(|line| line.starts_with("hotel-75 ")).expect("a line for each kind");
        assert_eq!(found.split_whitespace().skip(1).collect::<Vec<_>>().join(" "), row);
        assert!(text.ends_with(" have those of the other services.\n") && text.contains(last), "{text}");
        let parsed = json::parse(&answered(&[words, &["--json"]].concat()));
        let service = words.get(1).map_or("total".to_string(), |word| word.to_lowercase());
        assert_eq!((parsed.get("service"), parsed.list("files").len()), (&Value::Text(service), 0));
        assert_eq!(parsed.list("kinds").len(), kinds::ALL.len());
    }
    let hot = json::parse(&answered(&["kinds", "hot", "--json"]));
    let days: Vec<i64> = hot.list("kinds").iter().map(|kind| kind.number("day_l")).collect();
    assert_eq!(days, [130, 60, 90, 70, 140, 100, 150, 180, 75, 6, 7, 8], "document 02's");
    let cold = json::parse(&answered(&["kinds", "cold", "--json"]));
    let hours: Vec<i64> = cold.list("kinds").iter().map(|kind| kind.number("hour_tenths_l")).collect();
    assert_eq!(hours, [91, 41, 45, 43, 70, 120, 130, 140, 30, 14, 20, 15], "document 01's less document 02's");
    for word in ["warm", "1", "both", ""] {
        let ran = office(&["kinds", word]);
        assert!(
            ran.status == 2 && ran.error.contains("is no service; `kinds` gives the norms of total, cold or hot"),
            "{word}"
        );
    }
}

/// What the list of sizes of one line costs and asks for in the other is another thing; the library's choice is each line's own.
#[test]
fn each_line_is_chosen_for_itself() {
    let cat = table::pack(&read(TABLE)).expect("a table");
    for file in [HOT, COLD] {
        let choice = calls::choose(&packed(file), &cat).expect("a list suits");
        let own = choice.sizes.iter().map(u8::to_string).collect::<Vec<_>>().join(",");
        assert_eq!(own, sizes(file));
        let chosen = answered(&["choose", file, TABLE]);
        assert!(
            chosen.contains(&format!("\ncost               {}.{} price units\n", choice.cost / 10, choice.cost % 10)),
            "{chosen}"
        );
    }
}
