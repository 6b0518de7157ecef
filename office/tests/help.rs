//! What the command tells an installer who has no page of the repository: kinds, files, refusals, files to start from, versions.

#[path = "tools/json.rs"]
mod json;
#[path = "tools/run.rs"]
mod run;

use json::Value;
use office::record::Record;
use office::service::TOTAL;
use office::{Refusal, calls, house, kinds, losses, meters, table};
use run::{Ran, office, office_with, read, scratch};

fn answered(words: &[&str]) -> String {
    let ran = office(words);
    assert_eq!((ran.status, ran.error.as_str()), (0, ""), "{words:?}");
    ran.text()
}

/// A text without its line ends, so that lines that were folded can be looked for.
fn unfolded(text: &str) -> String {
    text.split_whitespace().collect::<Vec<_>>().join(" ")
}

fn misused(ran: Ran, why: &str) {
    assert_eq!((ran.status, ran.output.len()), (2, 0), "{why}");
    assert!(ran.error.starts_with("office: ") && ran.error.contains(why), "{}", ran.error);
}

#[test]
fn kinds_in_words_in_json_and_on_the_page() {
    let printed = answered(&["kinds"]);
    let parsed = json::parse(&answered(&["kinds", "--json"]));
    let page = read("docs/FILES.md");
    assert_eq!(parsed.list("kinds").len(), kinds::ALL.len());
    for (number, (kind, listed)) in (1..).zip(kinds::ALL.iter().zip(parsed.list("kinds"))) {
        let (name, what) = (kind.name, kind.what);
        assert_eq!(listed.number("kind"), number);
        assert_eq!((listed.get("name"), listed.get("what")), (&Value::Text(name.into()), &Value::Text(what.into())));
        let keys = ["day_l", "hour_tenths_l", "fixture_hundredths_l_per_s", "fixture_l_per_h"];
        let [day, hour, fixture, fixture_hour] = keys.map(|key| listed.number(key));
        let norm = kind.norm(TOTAL);
        let own = [norm.day, norm.hour, norm.fixture, norm.fixture_hour];
        assert_eq!([day, hour, fixture, fixture_hour], own.map(|norm| norm as i64));
        let line = printed.lines().find(|line| line.starts_with(&format!("{name} "))).expect("a line for each kind");
        let litres = format!("{}.{} 0.{fixture:02} {fixture_hour}", hour / 10, hour % 10);
        assert_eq!(unfolded(line), format!("{name} {number} {what} {day} {litres}"));
        assert!(page.contains(&format!("\n|`{name}`|{number}|{what}|\n")), "docs/FILES.md has another line for {name}");
    }
}

/// The indented lines of a help text, block by block; a blank line within a block belongs to it.
fn blocks(text: &str) -> Vec<String> {
    let mut blocks = vec![String::new()];
    for line in text.lines() {
        let last = blocks.last_mut().expect("there is a first block");
        match line.strip_prefix("    ") {
            Some(line) => last.push_str(&format!("{line}\n")),
            None if line.is_empty() => last.push('\n'),
            None => blocks.push(String::new()),
        }
    }
    blocks.into_iter().map(|block| block.trim().to_string() + "\n").filter(|block| block != "\n").collect()
}

#[test]
fn the_examples_of_the_help_on_files_are_packed_from_that_text() {
    let examples = blocks(&answered(&["help", "files"]));
    let [house, table, list, lost] = &examples[..] else { panic!("a house, a table and two lists: {examples:?}") };
    let packed = [house::pack(house), table::pack(table), meters::pack(list), losses::pack(lost)];
    for (text, packed) in [house, table, list, lost].into_iter().zip(packed) {
        let ran = office_with(&["pack", "-", "--strict"], text.as_bytes());
        assert_eq!((ran.status, ran.error.as_str()), (0, ""), "{text}");
        assert_eq!(Ok(ran.output), packed);
    }
    let new = ["house", "table", "meters", "losses"].map(|what| answered(&["new", what]));
    assert_eq!([house, table, list, lost].map(String::as_str), new.each_ref().map(String::as_str));
}

#[test]
fn the_help_on_files_has_every_field() {
    let text = answered(&["help", "files"]);
    let lists = [meters::quantities(), losses::quantities()].into_iter().flatten();
    for quantity in house::quantities().into_iter().chain(table::quantities()).chain(lists) {
        let wanted = unfolded(&format!("{} {} {}", quantity.name, quantity.taken, quantity.units));
        assert!(text.lines().any(|line| unfolded(line) == wanted), "{wanted}");
    }
    assert!(text.lines().any(|line| unfolded(line) == "loss m 0.00 to 42597.75 m"), "the other unit of a loss: {text}");
}

#[test]
fn new_files_are_taken_without_refusal_or_warning() {
    let (house, table, list) = (scratch("new-house.txt"), scratch("new-table.csv"), scratch("new-meters.csv"));
    let lost = scratch("new-losses.csv");
    for (what, file) in [("house", &house), ("table", &table), ("meters", &list), ("losses", &lost)] {
        let _ = std::fs::remove_file(file);
        assert_eq!(answered(&["new", what, "-o", file]), "");
        assert_eq!(std::fs::read_to_string(file).expect("written"), answered(&["new", what]));
    }
    answered(&["flow", &house, "--strict"]);
    let chosen = answered(&["choose", &house, &table, "--strict"]);
    let sizes = chosen.lines().find_map(|line| line.strip_prefix("sizes  ")).expect("a list of sizes");
    assert!(sizes.contains('1') && sizes.contains('2'), "the example mixes sizes: {sizes}");
    answered(&["rate", &house, &table, sizes, "--strict"]);
    answered(&["losses", &house, &table, sizes, "--strict"]);
    // Meter loss 50, elevation 680, free head 300, and the losses of sections 3, 2 and 1: 118, 80 and 295.
    let heads = answered(&["heads", &house, &lost, "--strict"]);
    assert!(heads.contains("\nrequired head      1523 cm\n") && heads.contains("118 (section 3) + 80 "), "{heads}");
    answered(&["heads", "examples/house.txt", "examples/losses.csv", "--strict"]);
    assert!(answered(&["meter", &house, &list, "--strict"]).contains("* qualifies"));
    assert!(answered(&["meter", "examples/house.txt", "examples/meters.csv", "--strict"]).contains("* qualifies"));
    answered(&["choose", &house, "examples/table.csv", "--strict"]);
    answered(&["choose", "examples/house.txt", "examples/table.csv", "--strict"]);
}

#[test]
fn the_list_begins_with_what_an_installer_does_first() {
    let list = answered(&["help"]);
    let first = list.split("\n\n").nth(1).expect("lines to start with");
    let lines: Vec<&str> = first.lines().map(str::trim_start).collect();
    let wanted =
        ["office new house -o house.txt ", "office new table -o table.csv ", "office choose house.txt table.csv "];
    assert_eq!(lines.len(), wanted.len());
    lines.iter().zip(wanted).for_each(|(line, words)| assert!(line.starts_with(words), "{line}"));
    // Done one after another in an empty folder they give an answer.
    let files = [scratch("first-house.txt"), scratch("first-table.csv")];
    files.iter().for_each(|file| drop(std::fs::remove_file(file)));
    answered(&["new", "house", "-o", &files[0]]);
    answered(&["new", "table", "-o", &files[1]]);
    assert!(answered(&["choose", &files[0], &files[1]]).starts_with("pump set: "));
}

/// The gauges' example is of the house to start from: section 3 rises from 380 to 680 cm, and its loss stands in the list.
#[test]
fn the_example_of_gauges_is_worked_out() {
    let (house, list) = (answered(&["new", "house"]), answered(&["new", "losses"]));
    let record = Record::read(&house::pack(&house).expect("a house")).expect("a record");
    let flow = calls::flow(&record.bytes()).expect("accepted").flows[2];
    let rise = record.sections[2].elevation - record.sections[1].elevation;
    let measured = 1_613 - 1_270 - u32::try_from(rise).expect("it rises");
    let hundredths = (measured * flow * flow * 100).div_ceil(300 * 300);
    let loss = (measured * flow * flow).div_ceil(300 * 300);
    assert_eq!((record.sections[2].parent, rise, measured, hundredths, loss), (2, 300, 43, 11_707, 118));
    assert!(list.contains(&format!("\n3,{loss},measured\n")), "{list}");
    let figures =
        ["1613 cm", "1270 cm", "343 cm", "300 cm", "43 cm", "300 ml/s", "495 ml/s", "(495 / 300)", "117.07", "118"];
    let rules = [
        "the difference of their readings less the height by which the section's end lies above its beginning, or plus it where \
         the end lies lower",
        "(design flow / measured flow)",
        "rounded up to a whole cm",
    ];
    let page = read("docs/FILES.md");
    for text in [plain(&list), unfolded(&answered(&["help", "heads"])), unfolded(&page)] {
        for words in figures.iter().chain(&rules) {
            assert!(text.contains(words), "{words}: {text}");
        }
        assert!(flow == 495 && text.contains("the square of the flow"), "{text}");
    }
    assert!(unfolded(&read("docs/COMMAND.md")).contains(rules[0]));
    assert!(list.contains("of `office new house`"), "{list}");
}

/// What the help and the page say of a drawing in work.
#[test]
fn a_drawing_in_work_has_losses_without_heights_and_heads() {
    let (table, blank) = (scratch("drawing-table.csv"), scratch("drawing-house.txt"));
    std::fs::write(&table, answered(&["new", "table"])).expect("written");
    let house = answered(&["new", "house"]);
    let losses = |house: &str, sizes: &str| {
        std::fs::write(&blank, house).expect("written");
        office(&["losses", &blank, &table, sizes])
    };
    let mut nothing = Record::read(&house::pack(&house).expect("a house")).expect("a record");
    (nothing.meter, nothing.guaranteed, nothing.delivered) = (0, 0, 0);
    nothing.sections.iter_mut().for_each(|section| (section.elevation, section.free) = (0, 0));
    let mut dead_end = nothing.clone();
    (dead_end.sections[3].kind, dead_end.sections[3].fixtures) = (0, 0);
    let [nothing, dead_end] = [nothing, dead_end].map(|record| house::show(&record.bytes()).expect("a house"));
    let (whole, without) = (losses(&house, "2,2,1,1"), losses(&nothing, "2,2,1,1"));
    assert_eq!((whole.status, without.status, without.error.as_str()), (0, 0, ""));
    assert_eq!(whole.text(), without.text());
    assert!(losses(&dead_end, "2,2,1,1").text().starts_with("refused 6: "), "{dead_end}");
    let small = losses(&nothing, "1,2,1,1").text();
    assert!(small.starts_with("refused 13: ") && !small.contains("velocity  loss"), "{small}");
    let help = unfolded(&answered(&["help", "losses"]));
    let said = "Elevations, free heads, guaranteed and delivered head and meter loss play no part";
    assert!(help.contains(&format!("{said}, so 0 may stand for what is not known yet.")), "{help}");
    assert!(help.contains("needs its fixtures all the same (refusal 6)") && help.contains("(13) leaves no table"));
    assert!(
        read("docs/COMMAND.md")
            .contains(&format!("{said} in `losses`, so that 0 may stand for what is not known yet."))
    );
    // Its pipe works with the files to start from.
    let pipe = help
        .split("--json | office heads house.txt -")
        .next()
        .and_then(|front| front.split(' ').rev().nth(1))
        .expect("sizes");
    assert_eq!(losses(&house, pipe).status, 0, "{pipe}");
}

/// A line of the glossary: what it says of a word.
fn glossary(word: &str) -> String {
    let page = read("docs/ARCHITECTURE.md");
    let line = page.lines().find_map(|line| line.strip_prefix(&format!("|{word}|"))).expect(word);
    line.trim_end_matches('|').to_string()
}

/// A text without its line ends, and without the signs for comments.
fn plain(text: &str) -> String {
    unfolded(&text.replace('#', " "))
}

#[test]
fn a_word_of_the_trade_means_the_same_everywhere() {
    let (template, rate) = (plain(&answered(&["new", "house"])), unfolded(&answered(&["help", "rate"])));
    let losses = glossary("local losses");
    let (_, when) = losses.split_once(". ").expect("what they are, and when which");
    assert!(when.starts_with("0.3 for ") && when.contains("; 0.2 where ") && template.contains(when), "{when}");
    let delivered = glossary("delivered head H");
    let (what, parts) = delivered.split_once(": ").expect("what it is, and of what");
    assert!(template.contains(&delivered), "{delivered}");
    assert!(rate.contains(&format!("Delivered head: {what}, {parts}.")), "{delivered}");
    let parts = parts.replace("the set", "the pump set");
    assert!(read("docs/FILES.md").contains(&format!("the delivered head, which is {parts}.\n")), "{parts}");
    let house = answered(&["new", "house"]).replace("guaranteed head 1000 cm", "guaranteed head 3000 cm");
    let warned = office_with(&["flow", "-"], house.as_bytes()).error;
    assert!(warned.ends_with(&format!("the delivered head of 2000 cm, which is {parts}\n")), "{warned}");
    let pump = glossary("pump head");
    let needs = pump.strip_prefix("what a list of sizes needs of the pump set: ").expect("whose head it is");
    assert!(rate.contains(&format!("Pump head: what the list needs of the pump set, {needs}.")), "{pump}");
    assert!(rate.contains(&format!("Dictating section: {}", glossary("dictating section"))), "{rate}");
    assert!(answered(&["help", "choose"]).contains("`office help rate` explains the heads and the dictating section"));
    for number in ["8", "9"] {
        let of_m = unfolded(&answered(&["help", number]));
        assert!(of_m.contains("m, which is how many ") && of_m.contains(" are in use at once on average, "), "{of_m}");
    }
}

#[test]
fn the_help_says_what_is_so_of_blanks_units_and_files() {
    let files = unfolded(&answered(&["help", "files"]));
    assert!(files.contains("How many blanks stand between words doesn't matter"));
    assert!(files.contains("A unit is never left out where there is one."));
    let meter = unfolded(&answered(&["help", "meter"]));
    assert!(meter.contains("in the form that JOB has: of a readable house one number is another and all else stays"));
    assert!(meter.contains("a vane meter loses at most 500 cm, a turbine meter at most 250 cm"), "{meter}");
    assert!(meter.contains("design flow, rounded up to whole cm."), "{meter}");
    assert!(meter.contains("has must be in its range, and plays no part beyond that."), "{meter}");
    let over = read("examples/house.txt").replacen("meter loss      120 cm", "meter loss      1001 cm", 1);
    let refused = office_with(&["meter", "-", "examples/meters.csv"], over.as_bytes());
    assert!(refused.status == 1 && refused.text().starts_with("refused 3: "), "{}", refused.text());
    assert!(meter.contains("with -o - the words stand on standard error, so that a pipe gets an answer or nothing"));
    assert!(answered(&["help", "choose"]).contains("`sizes` can be given to `rate`, `losses` and `draw`."));
    let draw = unfolded(&answered(&["help", "draw"]));
    assert!(draw.contains("`draw` with refusal 16, do their work and write the file all the same"), "{draw}");
}

/// Where the words stand, the help leads to what they mean; nothing says "average flow", which reads as a mean over time.
#[test]
fn one_tap_is_explained() {
    for topic in ["flow", "meter", "rate", "losses", "heads", "choose", "draw", "13", "16"] {
        let text = unfolded(&answered(&["help", topic]));
        assert!(text.contains("one tap") && !text.contains("average"), "{text}");
        assert!(topic == "flow" || text.contains("`office help flow`"), "{text}");
    }
    let flow = unfolded(&answered(&["help", "flow"]));
    assert!(flow.contains("A design flow is what the standard's formula gives for all the fixtures that "), "{flow}");
    let draw = unfolded(&answered(&["help", "draw"]));
    assert!(draw.contains("in brackets behind the flow of the pump set where it is the house's"), "{draw}");
}

/// 18 comes of the house's design flow or its mean hour, and neither of them of one tap or of how many fixtures there are.
#[test]
fn the_causes_of_18_are_causes() {
    let text = unfolded(&answered(&["help", "18"]));
    assert!(!text.contains("one tap"), "{text}");
    assert!(text.contains("The residents of the house are too many or its hours of use too few"), "{text}");
    assert!(text.contains("how many fixtures it has plays no part"), "{text}");
    let figures = |from: &str, to: &str| {
        let house = read("examples/own-case.txt");
        assert!(house.contains(from), "{house}");
        let job = house::pack(&house.replace(from, to)).expect("a house");
        (calls::duty(&job).expect("accepted"), calls::flow(&job).expect("accepted").mean_hour)
    };
    // Document 01's figures; 17,750 litres in 12 hours are 1,479.2 an hour.
    assert_eq!(figures("fixtures 80", "fixtures 8000"), (2_052, 740));
    assert_eq!(figures("hours           24", "hours 12"), (2_052, 1_480));
    assert!(figures("residents hotel-75 71", "residents hotel-75 72").0 > 2_052);
}

#[test]
fn new_replaces_no_file() {
    let file = scratch("new-kept.txt");
    std::fs::write(&file, "my own house").expect("written");
    misused(office(&["new", "house", "-o", &file]), "is there already, and `new` replaces no file");
    assert_eq!(std::fs::read_to_string(&file).expect("as it was"), "my own house");
    misused(office(&["new", "shed"]), "`new` gives no `shed`; it gives house, table, meters or losses");
    misused(office(&["new"]), "`new` takes 1 word, not 0");
    // What is no file of the disk is written as it is, as by every command.
    if cfg!(unix) {
        assert_eq!(answered(&["new", "house", "-o", "/dev/null"]), "");
    }
}

#[test]
fn each_refusal_has_its_help() {
    let list = answered(&["help", "refusals"]);
    for refusal in Refusal::all() {
        let number = refusal.number();
        let text = answered(&["help", &number.to_string()]);
        assert!(text.lines().all(|line| line.chars().count() <= 120), "{text}");
        let words = unfolded(&text);
        assert!(words.starts_with(&format!("{refusal} {} Usual causes: - ", refusal.plain())), "{text}");
        for sentence in refusal.causes().iter().chain(refusal.remedies()) {
            assert!(words.contains(&format!("- {sentence}")), "{sentence}");
        }
        assert!(list.contains(&format!("{number:>2}  {}\n", refusal.plain())), "{list}");
    }
}

#[test]
fn help_on_what_there_is_not_says_what_there_is() {
    let last = Refusal::all().count();
    for word in ["0", &(last + 1).to_string(), "016", "+1", "frobnicate", ""] {
        misused(office(&["help", word]), &format!("there is no help on `{word}`; the commands are pack, show"));
        misused(
            office(&["help", word]),
            &format!("the topics are files, refusals, and a refusal's number, 1 to {last}\n"),
        );
    }
    // A topic has one spelling: it is no command.
    for words in [&["files"][..], &["refusals", "--help"], &["13", "--help"], &["version"]] {
        misused(office(words), "there is no command `");
    }
}

#[test]
fn versions_a_line_each() {
    let version = env!("CARGO_PKG_VERSION");
    let wanted =
        format!("command {version}\nlibrary {version}\nspecification document 01 with L1 to L6 of document 02\n");
    assert_eq!(answered(&["--version"]), wanted);
    let parsed = json::parse(&answered(&["--version", "--json"]));
    assert_eq!(parsed.get("command_version"), &Value::Text(version.into()));
    assert_eq!(parsed.get("library_version"), &Value::Text(version.into()));
    assert_eq!(parsed.get("specification"), &Value::Text("document 01 with L1 to L6 of document 02".into()));
    misused(office(&["flow", "examples/house.txt", "--version"]), "`--version` stands alone");
    misused(office(&["--version", "please"]), "`--version` takes no words, but `please` is given");
}

/// The commands' usages as `office help` lists them.
fn usages() -> Vec<String> {
    let list = answered(&["help"]);
    let commands = list.split("\n\n").nth(2).expect("the list of commands");
    commands.lines().map(|line| line.trim_start().split("  ").next().unwrap_or("").to_string()).collect()
}

#[test]
fn every_command_of_the_list_has_its_help_and_its_line_on_the_page() {
    assert_eq!(
        [answered(&[]), answered(&["--help"]), answered(&["help", "help"])],
        [(); 3].map(|()| answered(&["help"]))
    );
    let page = read("docs/COMMAND.md");
    for usage in usages() {
        let name = usage.split(' ').nth(1).expect("a name behind `office`");
        let help = answered(&["help", name]);
        assert!(name == "help" || help.starts_with(&format!("{usage}\n")), "{usage}");
        assert!(help.contains("Status: 0"), "{usage}");
        assert_eq!(help, answered(&[name, "--help"]));
        assert!(page.contains(&format!("\n|`office {name}")), "docs/COMMAND.md has no line for `office {name}`");
    }
    assert!(usages().len() >= 16, "{:?}", usages());
}
