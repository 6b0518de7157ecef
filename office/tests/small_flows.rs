//! Flows under the first row of a size: document 02's request L6, and its basin on a wide main. Expected figures are by hand.

#[path = "tools/json.rs"]
mod json;
#[path = "tools/lists.rs"]
mod lists;
#[path = "tools/run.rs"]
mod run;

use json::Value;
use lists::put;
use office::catalogue::Catalogue;
use office::model::catalogue::Catalogue as Model;
use office::places::reading;
use office::{Choice, Rated, Refusal, calls, house, table};
use run::{office, office_with, read};

const BASIN: &str = "examples/basin.txt";
const OWN: &str = "examples/own-case.txt";
const OWN_TABLE: &str = "examples/own-case.csv";
const HOUSE: &str = "examples/house.txt";
const MIXED: &str = "examples/mixed.txt";
const TABLE: &str = "examples/table.csv";
/// The widest size of the example's table for each section of the house, and of the mixed house.
const WIDE: &str = "6,6,6,6,6,6,6,6,6,6,6,6";
const WIDE_MIXED: &str = "6,6,6,6,6,6,6";
const LEGEND: &str = "under the first row: the rows of the size begin at a greater flow; velocity is flow x first velocity / first flow, \
    rounded up, slope likewise\n";

fn answered(words: &[&str]) -> String {
    let ran = office(words);
    assert_eq!((ran.status, ran.error.as_str()), (0, ""), "{words:?}");
    ran.text()
}

/// The basin with another of its numbers.
fn basin(from: &str, to: &str) -> String {
    put(&read(BASIN), from, to)
}

fn with_head(head: u16) -> Vec<u8> {
    house::pack(&basin("delivered head  1200 cm", &format!("delivered head {head} cm"))).expect("a house")
}

fn own_table() -> Vec<u8> {
    table::pack(&read(OWN_TABLE)).expect("document 01's own table")
}

/// The line of a section in a table.
fn line(text: &str, section: usize) -> String {
    let (_, table) = text.split_once("\n\n").expect("figures, then a table");
    let own = |line: &&str| line.split_whitespace().next() == Some(&section.to_string());
    table.lines().find(own).unwrap_or_else(|| panic!("no section {section} in {text}")).to_string()
}

/// Of each section whether it is under the first row, as a program reads it.
fn marks(text: &str) -> Vec<bool> {
    let mark = |section: &Value| match section.get("under_first_row") {
        Value::Truth(mark) => *mark,
        other => panic!("{other:?}"),
    };
    json::parse(text).list("sections").iter().map(mark).collect()
}

/// A worker's share is 25,000 × 40 / (9 × 14), 7,937, where α is 0.2: 14 × 200,000 / 20,000 are 140 ml/s. In the hour it is 100,000 ×
/// 40 / 80 with α 0.273: 80 × 273,000 / 200,000, 109.2 l/h. Size 1 has 800 mm/s and 40 mm/m at 1,000 ml/s: at 140 it has 112 mm/s and
/// 5.6 mm/m, up to 6. 6 × 800 × 13 / 1,000 are 62.4, up to 63 cm, and 50 + 600 + 200 + 63 are 913; left are 1,200 - 50 - 63 - 600. It
/// costs 900 × 800 tenths.
#[test]
fn the_basin_by_hand() {
    let wanted = "\
pump set: 140 ml/s at 413 cm
design flow            140 ml/s for the pump set to deliver
greatest hour          110 l/h
greatest day            16 l
mean hour                1 l/h
cost               72000.0 price units
required head          913 cm
pump head              413 cm over the guaranteed 500 cm
delivered head        1200 cm
to spare               287 cm
dictating section        1
sizes  1

section  from  kind     size  bore  length  flow  velocity  loss  left  free
                                mm       m  ml/s      mm/s    cm    cm    cm
      1  pump  offices     1    40    80.0   140       112    63   487   200  *  flow: under the first row, 1000 ml/s
left: head left at the end when the delivered head is delivered; * lies on the dictating path
";
    assert_eq!(answered(&["choose", BASIN, OWN_TABLE, "--strict"]), format!("{wanted}{LEGEND}"));
    assert_eq!(answered(&["rate", BASIN, OWN_TABLE, "1", "--strict"]), format!("{wanted}{LEGEND}"));
    let wanted = "\
sizes  1

section  from  kind     size  bore  length  flow  velocity  loss
                                mm       m  ml/s      mm/s    cm
      1  pump  offices     1    40    80.0   140       112    63  flow: under the first row, 1000 ml/s
loss: what the section's own pipe loses at its flow, with its local losses; `office heads` gives the heads with such losses
";
    assert_eq!(answered(&["losses", BASIN, OWN_TABLE, "1", "--strict"]), format!("{wanted}{LEGEND}"));
}

/// Size 2 has 500 mm/s and 12 mm/m at 1,000 ml/s: 70 mm/s and 1.68 mm/m, up to 2; 2 × 800 × 13 / 1,000 are 20.8, up to 21 cm. Size 1
/// needs 913 cm and costs 720,000, size 2 needs 871 and costs 1,300 × 800. By their whole first rows they would lose 416 and 125 cm, so
/// that at the basin's 1,200 cm size 2 would be the cheapest, and under 975 cm none would suit.
#[test]
fn the_cheapest_list_goes_by_the_line_from_zero() {
    let cat = own_table();
    let job = with_head(1_200);
    for (size, velocity, loss) in [(1, 112, 63), (2, 70, 21)] {
        let rating = calls::rate(&job, &cat, &[size]).expect("rated");
        assert_eq!((rating.required, rating.sections), (850 + loss as i32, vec![Rated { velocity, loss }]));
    }
    for (head, wanted) in [
        (1_200, Ok((720_000, 1))),
        (975, Ok((720_000, 1))),
        (974, Ok((720_000, 1))),
        (913, Ok((720_000, 1))),
        (912, Ok((1_040_000, 2))),
        (871, Ok((1_040_000, 2))),
        (870, Err(Refusal::NoSuitableList)),
    ] {
        let wanted = wanted.map(|(cost, size)| Choice { cost, sizes: vec![size] });
        assert_eq!(calls::choose(&with_head(head), &cat), wanted, "{head} cm");
    }
}

/// Size 1 of document 01, (1,000 800 40) (3,000 2,400 300): under 1,000 ml/s 0.8 mm/s and 0.04 mm/m for each ml/s, over it 0.8 and 0.13.
/// The command's reading and the model's, which the library is compared to.
#[test]
fn readings_around_the_first_row() {
    let cat = own_table();
    let (own, model) = (Catalogue::read(&cat).expect("a catalogue"), Model::of(&cat));
    assert_eq!((own.sizes[0].first_flow(), own.sizes[0].last_flow()), (1_000, 3_000));
    assert_eq!(reading(&own.sizes[0], 0), None, "no section of an accepted job has it");
    for (flow, wanted) in [
        (1, Some((1, 1))),
        (2, Some((2, 1))),
        (25, Some((20, 1))),
        (26, Some((21, 2))),
        (140, Some((112, 6))),
        (998, Some((799, 40))),
        (999, Some((800, 40))),
        (1_000, Some((800, 40))),
        (1_001, Some((801, 41))),
        (3_000, Some((2_400, 300))),
        (3_001, None),
    ] {
        let read = reading(&own.sizes[0], flow).map(|reading| (reading.velocity, reading.slope));
        assert_eq!(read, wanted, "{flow} ml/s");
        let modelled = model.sizes[0].read(flow.into()).map(|reading| (reading.velocity, reading.slope));
        assert_eq!(modelled, wanted.map(|(velocity, slope)| (velocity.into(), slope.into())), "{flow} ml/s");
    }
}

/// The greatest first row that there may be: 65,535 / 999,999 for each ml/s, 0.983 at 15, 1.049 at 16, 9,034.009 at 137,850.
#[test]
fn the_greatest_first_row() {
    let text =
        "size,bore mm,price,flow ml/s,velocity mm/s,slope mm/m\n1,9,9,999999,65535,65535\n1,9,9,1000000,65535,65535\n";
    let cat = table::pack(text).expect("a table");
    let size = &Catalogue::read(&cat).expect("a catalogue").sizes[0];
    for (flow, wanted) in [(1, 1), (15, 1), (16, 2), (137_850, 9_035), (999_998, 65_535), (999_999, 65_535)] {
        let read = reading(size, flow).expect("served");
        assert_eq!((read.velocity, read.slope), (wanted, wanted), "{flow} ml/s");
        let modelled = Model::of(&cat).sizes[0].read(flow.into()).expect("served");
        assert_eq!((modelled.velocity, modelled.slope), (wanted.into(), wanted.into()), "{flow} ml/s");
    }
}

/// In each size of the example's table velocity and slope rise from a first ml/s on without a step down, through the first row too,
/// and each row is read as it stands.
#[test]
fn no_reading_falls_with_the_flow() {
    let catalogue = Catalogue::read(&table::pack(&read(TABLE)).expect("a table")).expect("a catalogue");
    for size in &catalogue.sizes {
        let last = size.rows.last().expect("rows").flow;
        let all: Vec<_> = (1..=last).map(|flow| reading(size, flow).expect("served")).collect();
        assert!(all.windows(2).all(|two| two[0].velocity <= two[1].velocity && two[0].slope <= two[1].slope));
        for row in &size.rows {
            let read = all[row.flow as usize - 1];
            assert_eq!((read.velocity, read.slope), (row.velocity.into(), row.slope.into()), "{row:?}");
        }
        assert_eq!(reading(size, last + 1), None);
    }
}

/// Size 6 begins at 800 ml/s with 224 mm/s and 2 mm/m. In the wing 339, 237 and 275 ml/s are 94.92, 66.36 and 77 mm/s and under 1
/// mm/m, and 1 × 220, 55 and 90 × 13 / 1,000 are 2.86, 0.715 and 1.17 cm. Section 5 has 874 ml/s.
#[test]
fn only_the_lines_under_it_are_marked() {
    let rated = answered(&["rate", HOUSE, TABLE, WIDE]);
    let lost = answered(&["losses", HOUSE, TABLE, WIDE]);
    for text in [&rated, &lost] {
        for (section, figures) in
            [(10, "   339        95     3"), (11, "   237        67     1"), (12, "   275        77     2")]
        {
            let line = line(text, section);
            assert!(line.contains(figures) && line.ends_with("  flow: under the first row, 800 ml/s"), "{line}");
        }
        assert_eq!(text.matches("under the first row, ").count(), 3, "{text}");
        assert!(text.ends_with(LEGEND) && text.matches("under the first row: ").count() == 1, "{text}");
        assert!(text.lines().all(|line| !line.ends_with(' ')), "{text}");
    }
    let wanted: Vec<bool> = (1..=12).map(|section| section >= 10).collect();
    for command in ["rate", "losses"] {
        assert_eq!(marks(&answered(&[command, HOUSE, TABLE, WIDE, "--json"])), wanted, "{command}");
    }
}

/// At the first row and over it there is no mark; its flow is the table's.
#[test]
fn no_mark_at_the_first_row() {
    for (first, marked) in [(141, true), (140, false), (139, false)] {
        let cat = put(&read(OWN_TABLE), "1,40,900,1000,", &format!("1,40,900,{first},"));
        for command in ["rate", "losses"] {
            let words = [command, BASIN, "-", "1"];
            let text = office_with(&words, cat.as_bytes()).text();
            let mark = format!("  flow: under the first row, {first} ml/s");
            assert_eq!((line(&text, 1).ends_with(&mark), text.ends_with(LEGEND)), (marked, marked), "{text}");
            assert!(marked || !text.contains("first row"), "{text}");
            let printed = office_with(&[&words[..], &["--json"]].concat(), cat.as_bytes()).text();
            assert_eq!(marks(&printed), [marked], "{first}");
        }
    }
    for words in [&["choose", OWN, OWN_TABLE][..], &["rate", OWN, OWN_TABLE, "2"], &["losses", OWN, OWN_TABLE, "2"]] {
        assert!(!answered(words).contains("first row"), "{words:?}");
        assert_eq!(marks(&answered(&[words, &["--json"]].concat())), [false], "{words:?}");
    }
}

/// Beside the mark of the dictating path, of too little head and of one tap. 900 - 50 - 63 - 600 are 187 cm, under the free 200.
#[test]
fn the_words_stand_beside_the_others() {
    let low = basin("delivered head  1200 cm", "delivered head 900 cm");
    let text = office_with(&["rate", "-", OWN_TABLE, "1"], low.as_bytes()).text();
    assert!(line(&text, 1).ends_with("   187   200  * SHORT  flow: under the first row, 1000 ml/s"), "{text}");
    for command in ["rate", "losses"] {
        let text = answered(&[command, MIXED, TABLE, WIDE_MIXED]);
        let both = "  flow: under the first row, 800 ml/s; one tap of hotel-100";
        assert!(
            line(&text, 5).ends_with(both) && line(&text, 6).ends_with("  flow: under the first row, 800 ml/s"),
            "{text}"
        );
        assert!(text.contains("the flow is what it draws\nunder the first row: ") && text.ends_with(LEGEND), "{text}");
        // The words begin in one column.
        assert_eq!(line(&text, 5).find("flow: under"), line(&text, 6).find("flow: under"), "{text}");
    }
}

/// What is said of an answer that does not have the key in every section.
const WHOLE_ROWS: &str = "warning: standard input, list of losses: the answer does not say of each section whether its flow is under the \
    first row of its size; such an answer goes by a reading in which a flow under the first row takes the whole first row, so that \
    losses may be too great: make it anew with `office losses`\n";
const TAKING: [&[&str]; 4] =
    [&["heads", BASIN, "-"], &["heads", BASIN, "-", "--walk", "1"], &["show", "-"], &["pack", "-"]];

/// `heads`, `show` and `pack` take an answer with the key without a word. One from before there was the key has the whole first row,
/// 800 mm/s and 40 × 800 × 13 / 1,000 cm, and is taken with a warning, and with `--strict` not at all.
#[test]
fn an_answer_is_taken_with_and_without_the_key() {
    for words in
        [&["losses", BASIN, OWN_TABLE, "1"][..], &["rate", BASIN, OWN_TABLE, "1"], &["choose", BASIN, OWN_TABLE]]
    {
        let answer = answered(&[words, &["--json"]].concat());
        let figures = "\"under_first_row\":true,\"velocity_mm_per_s\":112,\"loss_cm\":63";
        let older = put(&answer, figures, "\"velocity_mm_per_s\":800,\"loss_cm\":416");
        for taking in TAKING {
            let strict = [taking, &["--strict"]].concat();
            let ran = office_with(&strict, answer.as_bytes());
            assert_eq!((ran.status, ran.error.as_str()), (0, ""), "{taking:?}");
            let ran = office_with(taking, older.as_bytes());
            assert_eq!((ran.status, ran.error.as_str()), (0, WHOLE_ROWS), "{taking:?}");
            let ran = office_with(&strict, older.as_bytes());
            assert!(ran.status == 2 && ran.output.is_empty() && ran.error.starts_with(WHOLE_ROWS), "{taking:?}");
        }
        for (text, lost, required) in [(&answer, 63, 913), (&older, 416, 1_266)] {
            let headed = office_with(&["heads", BASIN, "-"], text.as_bytes()).text();
            let sum = format!("meter loss 50 + elevation 600 + free head 200 + losses {lost} = {required} cm\n");
            assert!(headed.contains(&sum), "{headed}");
            assert!(!headed.contains("first row"), "no size is read for given losses: {headed}");
            assert_eq!(office_with(&["pack", "-"], text.as_bytes()).output, u32::to_be_bytes(lost));
        }
    }
}

/// One warning for all sections, also where some have the key. It goes on with the answer of `heads`, which itself has no such key, nor
/// has a list. What is neither true nor false is refused.
#[test]
fn an_answer_that_lacks_the_key_in_some_sections_lacks_it() {
    let answer = answered(&["losses", HOUSE, TABLE, WIDE, "--json"]);
    let key = "\"under_first_row\":true,";
    let [some, none] = [put(&answer, key, ""), answer.replace(key, "").replace("\"under_first_row\":false,", "")];
    for older in [&some, &none] {
        let ran = office_with(&["heads", HOUSE, "-", "--json"], older.as_bytes());
        assert_eq!((ran.status, ran.error.as_str()), (0, WHOLE_ROWS));
        assert_eq!(json::parse(&ran.text()).list("warnings").len(), 1);
        let again = office_with(&["heads", HOUSE, "-"], &ran.output);
        let repeated = WHOLE_ROWS.replacen("warning: ", "warning: standard input comes with this warning: ", 1);
        assert_eq!((again.status, again.error), (0, repeated));
    }
    let own = office_with(&["heads", HOUSE, "-", "--json"], answer.as_bytes());
    let list = office_with(&["show", "-"], answer.as_bytes());
    for taken in [&own.output, &list.output] {
        let ran = office_with(&["heads", HOUSE, "-"], taken);
        assert!(ran.status == 0 && !ran.error.contains("first row"), "{}", ran.error);
    }
    let odd = office_with(&["heads", HOUSE, "-"], put(&answer, key, "\"under_first_row\":1,").as_bytes());
    assert!(odd.status == 2 && odd.error.contains("`under_first_row` is neither true nor false"), "{}", odd.error);
}

/// 13 goes by the line from zero: 112 mm/s in size 1, where the first row has 800.
#[test]
fn a_size_that_is_too_fast_by_the_line_from_zero() {
    let limited = |limit: u16| basin("velocity limit  1500 mm/s", &format!("velocity limit {limit} mm/s"));
    for command in ["rate", "losses"] {
        let refused = office_with(&[command, "-", OWN_TABLE, "1"], limited(111).as_bytes());
        let place = "line 13, section 1: velocity 112 mm/s at 140 ml/s in size 1 (under the first row, 1000 ml/s) passes the limit of \
            111 mm/s\n";
        assert!(refused.status == 1 && refused.text().starts_with("refused 13: "), "{}", refused.text());
        assert!(refused.text().ends_with(place), "{}", refused.text());
        for limit in [112, 799] {
            assert_eq!(office_with(&[command, "-", OWN_TABLE, "1"], limited(limit).as_bytes()).status, 0, "{limit}");
        }
    }
    // Of both sizes the second has the least velocity, 70 mm/s: 140,000 cubic mm a second at 69 mm/s take 2,029 square mm, a bore of
    // 50.8 mm.
    let refused = office_with(&["choose", "-", OWN_TABLE], limited(69).as_bytes()).text();
    let place = "section 1: no size serves it: at 140 ml/s the least velocity is 70 mm/s, in size 2 (50 mm; under the first row, 1000 \
        ml/s), and the limit is 69 mm/s; a bore of about 51 mm would do\n";
    assert!(refused.starts_with("refused 16: ") && refused.ends_with(place), "{refused}");
    let chosen = office_with(&["choose", "-", OWN_TABLE], limited(70).as_bytes());
    assert!(chosen.status == 0 && chosen.text().contains("\nsizes  2\n"), "{}", chosen.text());
}

/// 16 names the head that the least losses need by the line from zero: 850 + 21 cm, with size 2.
#[test]
fn the_missing_head_goes_by_the_line_from_zero() {
    let low = basin("delivered head  1200 cm", "delivered head 870 cm");
    let refused = office_with(&["choose", "-", OWN_TABLE], low.as_bytes()).text();
    assert!(
        refused.contains("delivered head: it is 870 cm; no list of sizes needs less than 871 cm, 1 cm more\n"),
        "{refused}"
    );
    assert!(
        refused.contains("section 1: its end asks for that head even with the least losses, sizes 2\n"),
        "{refused}"
    );
    let drawn = office_with(&["draw", "-", OWN_TABLE], low.as_bytes());
    assert!(drawn.status == 1 && drawn.text().contains(">140 ml/s  70 mm/s<"), "{}", drawn.text());
    assert!(
        drawn.text().contains(">loss 21 cm<")
            && drawn.text().contains("TOO LITTLE HEAD: 870 cm are delivered, 1 cm are")
    );
}

/// What the help says where the words stand, and on the page the key of each answer that reads a size.
#[test]
fn the_help_and_the_page_explain_the_words() {
    let unfolded = |topic: &str| answered(&["help", topic]).split_whitespace().collect::<Vec<_>>().join(" ");
    let rate = unfolded("rate");
    assert!(rate.contains("`under the first row` stands where the rows of a size begin at a greater flow"), "{rate}");
    assert!(
        rate.contains("velocity is then flow x first velocity / first flow, rounded up, and slope likewise."),
        "{rate}"
    );
    for topic in ["losses", "choose"] {
        let text = unfolded(topic);
        assert!(text.contains("`under the first row`") && text.contains("`office help rate`"), "{text}");
    }
    for topic in ["13", "16"] {
        let text = unfolded(topic);
        assert!(text.contains("the message has `under the first row` (`office help rate`)"), "{text}");
    }
    assert!(unfolded("losses").contains("under_first_row, velocity_mm_per_s"));
    assert!(unfolded("files").contains("under the first row by the line from zero"));
    assert!(unfolded("draw").contains("under the first row of its size (`office help rate`)"));
    let page = read("docs/COMMAND.md");
    for start in ["|`rate`, `choose`|", "|`losses`|"] {
        let row = page.lines().find(|line| line.starts_with(start)).expect(start);
        assert!(row.contains("`under_first_row`"), "{row}");
    }
    assert!(page.contains(&format!("\n    {LEGEND}")), "the page shows what the words mean");
}
