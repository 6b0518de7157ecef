//! The built command: its answers, its statuses, its words.

#[path = "tools/json.rs"]
mod json;
#[path = "tools/run.rs"]
mod run;

use json::Value;
use office::{Refusal, calls, house, table};
use run::{office, office_with, read, scratch, top};

const HOUSE: &str = "examples/house.txt";
const TABLE: &str = "examples/table.csv";
const METERS: &str = "examples/meters.csv";
const LOSSES: &str = "examples/losses.csv";

fn example() -> (Vec<u8>, Vec<u8>) {
    (house::pack(&read(HOUSE)).expect("a house"), table::pack(&read(TABLE)).expect("a table"))
}

#[test]
fn the_examples_answers_are_the_librarys() {
    let (job, cat) = example();
    let flow = calls::flow(&job).expect("accepted");
    let printed = json::parse(&office(&["flow", HOUSE, "--json"]).text());
    assert_eq!(printed.get("refusal"), &Value::Null);
    assert_eq!(printed.number("hour_l_per_h"), i64::from(flow.hour));
    assert_eq!(printed.number("day_l"), i64::from(flow.day));
    assert_eq!(printed.number("mean_hour_l_per_h"), i64::from(flow.mean_hour));
    let flows: Vec<i64> = printed.list("sections").iter().map(|section| section.number("flow_ml_per_s")).collect();
    assert_eq!(flows, flow.flows.iter().map(|flow| i64::from(*flow)).collect::<Vec<_>>());

    let choice = calls::choose(&job, &cat).expect("some list suits");
    assert!(choice.sizes.iter().any(|size| size != &choice.sizes[0]), "the example mixes sizes");
    let printed = json::parse(&office(&["choose", HOUSE, TABLE, "--json"]).text());
    assert_eq!(printed.number("cost_tenths"), i64::from(choice.cost));
    let sizes: Vec<Value> = choice.sizes.iter().map(|size| Value::Number(i64::from(*size))).collect();
    assert_eq!(printed.list("sizes"), sizes);
    rated_as_the_library(&printed, &job, &cat, &choice.sizes);

    let list: Vec<String> = choice.sizes.iter().map(u8::to_string).collect();
    let printed = json::parse(&office(&["rate", HOUSE, TABLE, &list.join(","), "--json"]).text());
    rated_as_the_library(&printed, &job, &cat, &choice.sizes);
}

fn rated_as_the_library(printed: &Value, job: &[u8], cat: &[u8], sizes: &[u8]) {
    let rating = calls::rate(job, cat, sizes).expect("rated");
    assert_eq!(printed.number("required_head_cm"), i64::from(rating.required));
    assert_eq!(printed.number("pump_head_cm"), i64::from(rating.pump));
    assert_eq!(printed.number("dictating_section"), i64::from(rating.dictating));
    let sections = printed.list("sections");
    assert_eq!(sections.len(), rating.sections.len());
    for (section, rated) in sections.iter().zip(&rating.sections) {
        assert_eq!(section.number("velocity_mm_per_s"), i64::from(rated.velocity));
        assert_eq!(section.number("loss_cm"), i64::from(rated.loss));
        assert!(section.number("head_left_cm") >= section.number("free_head_cm") || rating.required > 1_800);
    }
    let dictating = &sections[usize::from(rating.dictating) - 1];
    // The dictating end has the least head over its free head, and what is over is what the pump delivers too much.
    let spare = dictating.number("head_left_cm") - dictating.number("free_head_cm");
    assert_eq!(spare, 1_800 - i64::from(rating.required));
}

#[test]
fn packing_and_showing_are_inverse_through_files() {
    let (job, cat) = example();
    for (file, bytes) in [(HOUSE, job), (TABLE, cat)] {
        let packed = office(&["pack", file]);
        assert_eq!((packed.status, packed.error.as_str()), (0, ""));
        assert_eq!(packed.output, bytes);
        let kept = scratch(&file.replace('/', "-"));
        assert_eq!(office(&["pack", file, "-o", &kept]).status, 0);
        let shown = office(&["show", &kept]);
        assert_eq!(shown.status, 0);
        assert_eq!(office_with(&["pack", "-"], &shown.output).output, bytes);
        let printed = json::parse(&office(&["pack", file, "--json"]).text());
        assert_eq!(printed.number("bytes"), bytes.len() as i64);
        let hex: String = bytes.iter().map(|byte| format!("{byte:02x}")).collect();
        assert_eq!(printed.get("record"), &Value::Text(hex));
        let fields = json::parse(&office(&["show", &kept, "--json"]).text());
        assert_eq!(fields.number("stated_length"), bytes.len() as i64);
    }
}

#[test]
fn readable_files_and_records_are_alike() {
    let (job, cat) = example();
    let (kept_job, kept_cat) = (scratch("alike.job"), scratch("alike.cat"));
    std::fs::write(&kept_job, &job).expect("written");
    std::fs::write(&kept_cat, &cat).expect("written");
    let readable = office(&["choose", HOUSE, TABLE]).text();
    assert_eq!(office(&["choose", &kept_job, &kept_cat]).text(), readable);
    assert_eq!(office_with(&["choose", "-", TABLE], &job).text(), readable);
    assert_eq!(office_with(&["choose", HOUSE, "-"], &cat).text(), readable);
    assert_eq!(office_with(&["choose", HOUSE, "-"], read(TABLE).as_bytes()).text(), readable);
    let older = [b"# \xea\xf3\xf5\xed\xff\n", read(HOUSE).as_bytes()].concat();
    assert_eq!(office_with(&["choose", "-", TABLE], &older).text(), readable, "comments in an older code page");
    let damaged = [&[0xee], &job[1..]].concat();
    assert_eq!(office_with(&["flow", "-"], &damaged).status, 2, "what does not begin with 0 is text");
    assert!(office_with(&["flow", "--record", "-"], &damaged).text().starts_with("refused 1: "));
    let sizes = calls::choose(&job, &cat).expect("some list suits").sizes;
    let (bytes, words) = (scratch("alike.sizes"), scratch("alike.numbers"));
    std::fs::write(&bytes, &sizes).expect("written");
    let list: Vec<String> = sizes.iter().map(u8::to_string).collect();
    std::fs::write(&words, list.join("\n")).expect("written");
    let rated = office(&["rate", HOUSE, TABLE, &list.join(",")]);
    assert_eq!(rated.status, 0);
    assert_eq!(office(&["rate", HOUSE, TABLE, &format!("@{bytes}")]).text(), rated.text());
    assert_eq!(office(&["rate", HOUSE, TABLE, &format!("@{words}")]).text(), rated.text());
}

#[test]
fn answers_go_to_the_file_and_refusals_leave_it_alone() {
    let kept = scratch("kept.txt");
    let answer = office(&["flow", HOUSE]);
    let written = office(&["flow", HOUSE, "-o", &kept]);
    assert_eq!((written.status, written.output.len(), written.error.as_str()), (0, 0, ""));
    assert_eq!(std::fs::read(&kept).expect("written"), answer.output);
    let refused = office(&["rate", HOUSE, TABLE, "1,1", "-o", &kept]);
    assert_eq!(refused.status, 1);
    assert!(refused.text().starts_with("refused 12: ") && refused.error.is_empty());
    assert!(refused.text().contains("  list of sizes: size numbers given: 2; sections of the house: 12\n"));
    assert_eq!(std::fs::read(&kept).expect("as it was"), answer.output);
}

#[test]
fn a_refused_record_is_packed_and_shown_with_a_warning() {
    let file = "examples/mistakes/circle.txt";
    let packed = office(&["pack", file]);
    assert_eq!(packed.status, 1);
    assert_eq!(packed.output, house::pack(&read(file)).expect("it has its bytes"));
    assert!(packed.error.starts_with("warning: the library will not take this\n"), "{}", packed.error);
    assert!(packed.error.contains("refused 5: ") && packed.error.contains("line 10, section 2: it hangs"));
    let shown = office_with(&["show", "-"], &packed.output);
    assert_eq!(shown.status, 1);
    assert_eq!(shown.text(), house::show(&packed.output).expect("a record"));
    assert!(shown.error.contains("standard input, section 2: it hangs from section 3"), "{}", shown.error);
    let printed = json::parse(&office_with(&["show", "-", "--json"], &packed.output).text());
    assert_eq!(printed.get("refusal").number("number"), 5);
}

#[test]
fn every_refusal_is_said_alike_in_words_and_json() {
    let (job, cat) = example();
    let short = &job[..job.len() - 1];
    let words = office_with(&["flow", "-"], short);
    assert_eq!(words.status, 1);
    let refusal = Refusal::from_number(1).expect("a refusal");
    let place =
        format!("  standard input, stated length: the record states {} bytes and has {}", job.len(), short.len());
    assert_eq!(words.text(), format!("{refusal}\n{place}\n"));
    let printed = office_with(&["choose", "-", TABLE, "--json"], short);
    assert_eq!((printed.status, printed.error.as_str()), (1, ""));
    let printed = json::parse(&printed.text());
    let refused = printed.get("refusal");
    assert_eq!(refused.number("number"), 1);
    assert_eq!(refused.get("text"), &Value::Text(refusal.text().to_string()));
    assert_eq!(refused.list("places")[0].get("line"), &Value::Null);
    let bad = office_with(&["draw", HOUSE, "-"], &cat[1..]);
    assert!(bad.status == 1 && bad.text().starts_with("refused 10: "), "{}", bad.text());
    let empty = office_with(&["flow", "-"], b"");
    let advice = "standard input is empty; `office new house` gives a house to start from\n";
    assert!(empty.status == 1 && empty.text().starts_with(&format!("{advice}{refusal}\n")), "{}", empty.text());
    let empty = office_with(&["choose", HOUSE, "-"], b"").text();
    let advice = "standard input is empty; `office new table` gives a table to start from\nrefused 10: ";
    assert!(empty.starts_with(advice), "{empty}");
    assert_eq!(json::parse(&office_with(&["flow", "-", "--json"], b"").text()).get("refusal").number("number"), 1);
}

#[test]
fn the_documented_messages_are_the_real_ones() {
    let documented = read("docs/FILES.md");
    let mut files = Vec::new();
    for file in std::fs::read_dir(top().join("examples/mistakes")).expect("the examples are there") {
        files.push(format!("examples/mistakes/{}", file.expect("a file").file_name().to_string_lossy()));
    }
    assert!(files.len() >= 12);
    for file in files {
        let name = file.rsplit('/').next().unwrap_or("");
        let ran = match name.split_once('-') {
            Some(("meters", _)) => office(&["meter", HOUSE, &file]),
            Some(("losses", _)) => office(&["heads", HOUSE, &file]),
            _ if file.ends_with(".csv") => office(&["choose", HOUSE, &file]),
            _ => office(&["flow", &file]),
        };
        let printed = if ran.status == 1 { ran.text() } else { ran.error };
        // Where a list is too short there is no line to name.
        assert!(
            ran.status > 0 && (printed.contains(" line ") || printed.contains("losses given")),
            "{file}: {printed}"
        );
        let indented: String = printed.lines().map(|line| format!("    {line}\n")).collect();
        assert!(documented.contains(&format!("`{file}`: ")), "docs/FILES.md does not name {file}");
        assert!(documented.contains(&indented), "docs/FILES.md has another message for {file}:\n{indented}");
    }
}

#[test]
fn misuse_has_status_2_and_says_why() {
    let cases: [(&[&str], &str); 27] = [
        (&["losses", HOUSE, TABLE], "`losses` takes 3 words, not 2\nusage: office losses JOB CAT SIZES"),
        (&["heads", HOUSE], "`heads` takes 2 words, not 1\nusage: office heads JOB LOSSES"),
        (&["heads", "-", "-"], "standard input can be read only once"),
        (&["heads", HOUSE, "no-such-file"], "no-such-file can't be read"),
        (&["meter", HOUSE], "`meter` takes 2 words, not 1\nusage: office meter JOB METERS [-o HOUSE]"),
        (&["meter", HOUSE, METERS, "-o", "no-such-folder/file"], "no-such-folder/file can't be written"),
        (&["meter", "-", "-"], "standard input can be read only once"),
        (&["frobnicate"], "there is no command `frobnicate`; the commands are pack, show"),
        (&["flow"], "`flow` takes 1 word, not 0\nusage: office flow JOB"),
        (&["rate", HOUSE, TABLE], "`rate` takes 3 words, not 2"),
        (&["flow", HOUSE, "--jsn"], "there is no option `--jsn`"),
        (&["flow", HOUSE, "-o"], "`-o` wants a file"),
        (&["flow", HOUSE, "--seed", "7"], "`flow` has no option --seed; `soak` has it\nusage: office flow"),
        (&["draw", HOUSE, TABLE, "--json"], "`draw` has no option --json\nusage: office draw"),
        (&["kinds", "--text"], "`kinds` has no option --text\nusage: office kinds"),
        (&["--version", "--record"], "`--version` has no option --record"),
        (&["show", "--text", HOUSE], "`show` has no option --text"),
        (&["choose", HOUSE, TABLE, "--text"], "`--record` or `--text` stands before the file that it is about"),
        (&["kinds", "hotel-75"], "`hotel-75` is no service; `kinds` gives the norms of total, cold or hot"),
        (&["flow", "no-such-file"], "no-such-file can't be read"),
        (&["flow", HOUSE, "-o", "no-such-folder/file"], "no-such-folder/file can't be written"),
        (&["flow", TABLE], "is a table of sizes; a house is expected"),
        (&["choose", HOUSE, HOUSE], "is no table of sizes: its first line is not `size,bore mm"),
        (&["choose", "-", "-"], "standard input can be read only once"),
        (&["rate", HOUSE, TABLE, "1,two"], "`two` is no size number"),
        (&["show", HOUSE], "is readable already"),
        (&["soak", "many"], "`many` is no whole number"),
    ];
    for (words, why) in cases {
        let ran = office(words);
        assert_eq!((ran.status, ran.output.len()), (2, 0), "{words:?}");
        assert!(ran.error.starts_with("office: ") && ran.error.contains(why), "{words:?}: {}", ran.error);
    }
    let neither = office_with(&["show", "-"], &[0; 45]);
    assert_eq!(neither.status, 2);
    assert!(neither.error.contains("45 bytes, but a job record with section count 0 has 40"), "{}", neither.error);
    assert!(
        neither.error.contains("45 bytes, but a catalogue with size count 0 and row count 0 has 7"),
        "{}",
        neither.error
    );
    let binary = office_with(&["pack", "-"], &[0; 40]);
    assert!(binary.status == 2 && binary.error.contains("is no readable file"), "{}", binary.error);
}

/// In each table the right edge of a column of numbers is the same in every line, and nothing hangs over.
#[test]
fn tables_align() {
    let sizes = "5,4,4,3,3,5,4,3,3,1,1,2";
    for (words, rows) in [
        (&["flow", HOUSE][..], 12),
        (&["choose", HOUSE, TABLE], 12),
        (&["losses", HOUSE, TABLE, sizes], 12),
        (&["heads", HOUSE, LOSSES], 12),
        (&["meter", HOUSE, METERS], 8),
    ] {
        let text = office(words).text();
        let (_, chart) = text.split_once("\n\n").expect("figures, then the chart");
        let legend =
            |line: &&str| ["left:", "loss:", "A meter", "The least"].iter().any(|start| line.starts_with(start));
        let lines: Vec<&str> = chart.lines().filter(|line| !legend(line)).collect();
        let header = lines[0];
        let section = ["section", "size", "bore", "length", "fixtures", "flow", "velocity", "loss", "left", "free"];
        for name in section.into_iter().chain(["meter", "resistance", "service flow", "limit"]) {
            let Some(start) = header.find(name) else { continue };
            let edge = start + name.len();
            for line in &lines[2..] {
                let cell = &line[..edge];
                assert!(cell.ends_with(|c: char| c.is_ascii_digit()), "{name}: {line}");
                assert!(line[edge..].is_empty() || line[edge..].starts_with(' '), "{name}: {line}");
            }
        }
        assert_eq!(lines.len(), 2 + rows);
        assert!(text.lines().all(|line| !line.ends_with(' ')));
    }
}

#[test]
fn made_up_orders() {
    let soaked = office(&["soak", "300", "--seed", "5"]);
    assert_eq!(soaked.status, 0, "{}{}", soaked.text(), soaked.error);
    assert!(soaked.text().starts_with("library and model agree on 300 orders, seed 5\n"));
    let order = office::generate::case(3, 4).text();
    let replayed = office_with(&["replay", "-"], order.as_bytes());
    assert_eq!(replayed.status, 0, "{}", replayed.error);
    assert!(replayed.text().contains("library and model agree"));
    assert_eq!(office(&["replay", HOUSE]).status, 2);
}

#[test]
fn a_drawing_is_drawn_for_the_cheapest_and_for_a_given_list() {
    let drawn = office(&["draw", HOUSE, TABLE]);
    assert_eq!(drawn.status, 0);
    let kept = scratch("house.svg");
    assert_eq!(office(&["draw", HOUSE, TABLE, "6,6,6,6,6,6,6,6,6,6,6,6", "-o", &kept]).status, 0);
    let wide = std::fs::read_to_string(&kept).expect("written");
    assert!(drawn.text().starts_with("<?xml") && wide.starts_with("<?xml") && wide != drawn.text());
}

#[test]
fn where_no_list_suits_there_is_a_drawing_all_the_same() {
    for (from, to, title) in [
        ("velocity limit  1500 mm/s", "velocity limit 400 mm/s", ": NO SIZE SERVES</title>"),
        ("delivered head  1800 cm", "delivered head 1500 cm", ": TOO LITTLE HEAD</title>"),
    ] {
        let text = read(HOUSE).replacen(from, to, 1);
        let drawn = office_with(&["draw", "-", TABLE], text.as_bytes());
        assert_eq!(drawn.status, 1);
        assert!(drawn.text().starts_with("<?xml") && drawn.text().contains(title), "{}", drawn.text());
        assert!(drawn.error.contains("refused 16: "), "{}", drawn.error);
        let chosen = office_with(&["choose", "-", TABLE], text.as_bytes());
        assert!(chosen.status == 1 && chosen.text().starts_with("refused 16: "), "{}", chosen.text());
        let kept = scratch("unsuitable.svg");
        assert_eq!(office_with(&["draw", "-", TABLE, "-o", &kept], text.as_bytes()).status, 1);
        assert_eq!(std::fs::read(&kept).expect("written"), drawn.output);
    }
}
