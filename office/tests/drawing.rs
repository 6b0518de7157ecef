//! Drawings: well formed, every section named, nothing that runs, no text over another.

#[path = "tools/mixed.rs"]
mod mixed;
#[path = "tools/xml.rs"]
mod xml;

use mixed::{branch, flat};
use office::draw::{Totals, draw};
use office::pipes::{pipes, sketch};
use office::record::{Record, Section};
use office::taps::Taps;
use office::{Flow, calls, draw, house, table};
use xml::{Element, elements};

const CAT: &str = "size,bore mm,price,flow ml/s,velocity mm/s,slope mm/m\n1,40,900,1,1,1\n1,40,900,3000,1000,40\n\
    2,100,5000,1,1,1\n2,100,5000,1000000,3000,90\n";
/// The same with the rows of the wide pipe above every flow, as far up as they may begin.
const HIGH: &str = "size,bore mm,price,flow ml/s,velocity mm/s,slope mm/m\n1,40,900,1,1,1\n1,40,900,3000,1000,40\n\
    2,100,5000,999999,3000,90\n2,100,5000,1000000,3000,90\n";

/// The drawing of a house with wide pipes, and how many sections it has.
fn drawn(job: &[u8]) -> (String, usize) {
    drawn_with(job, CAT, &asked(job).2.house)
}

/// The same with this table, and with one tap of these kinds for the house.
fn drawn_with(job: &[u8], cat: &str, house: &[u8]) -> (String, usize) {
    let cat = table::pack(cat).expect("a table");
    let record = Record::read(job).expect("a record");
    let sizes = vec![2; record.sections.len()];
    let (flow, duty, taps) = asked(job);
    let rating = calls::rate(job, &cat, &sizes).unwrap_or_else(|refusal| panic!("{refusal}"));
    let pipes = pipes(job, &cat, &sizes, (&flow, &taps), &rating).expect("the answers are this house's");
    let totals = Totals { duty, taps: house, flow: &flow, cost: u64::from(u32::MAX) };
    (draw(&record, &pipes, &rating, &totals), pipes.len())
}

/// The flows of a house, its design flow, and which of them one tap sets.
fn asked(job: &[u8]) -> (Flow, u32, Taps) {
    let flow = calls::flow(job).unwrap_or_else(|refusal| panic!("{refusal}"));
    let duty = calls::duty(job).expect("accepted");
    let taps = Taps::of(job, &flow, duty).expect("the model's flows are the library's");
    (flow, duty, taps)
}

/// Tables in which some section, or every one, has no size.
const NARROW: &str = "size,bore mm,price,flow ml/s,velocity mm/s,slope mm/m\n1,20,900,1,1,1\n1,20,900,400,1000,40\n";
const NONE: &str = "size,bore mm,price,flow ml/s,velocity mm/s,slope mm/m\n1,20,900,1,1,1\n1,20,900,2,1,1\n";

/// The drawing of a house without heads.
fn sketch_of(job: &[u8], cat: &str) -> String {
    let (flow, duty, taps) = asked(job);
    let pipes = sketch(job, &table::pack(cat).expect("a table"), (&flow, &taps)).expect("of this house");
    draw::sketch(&Record::read(job).expect("a record"), &pipes, duty, &taps.house)
}

#[test]
fn a_house_that_no_size_serves_is_drawn_all_the_same() {
    let hotel = &houses()[0];
    let svg = sketch_of(hotel, NARROW);
    assert!(svg.contains("<title>House network of 12 sections: NO SIZE SERVES</title>"));
    assert!(svg.contains(">NO SIZE SERVES section 1, 2, 3, 4, 5, 6, 7, 8, 9<"), "{svg}");
    assert!(svg.contains("20 mm (size 1)") && svg.contains(">2289 ml/s<") && !svg.contains("head left"));
    assert!(sketch_of(hotel, NONE).contains("4, 5, 6, 7, 8, 9 and 3 more<"));
    assert!(sketch_of(&great(|_| 0), NONE).contains("8, 9 and 54 more<"));
    let well_formed = elements(&svg);
    assert!((1..=12).all(|number| {
        let id = format!("section-{number}");
        well_formed.iter().any(|element| element.attributes.get("id") == Some(&id))
    }));
}

/// A house of 63 sections, each with fixtures, hung as `parent` says.
fn great(parent: impl Fn(u8) -> u8) -> Vec<u8> {
    let section = |number: u8| Section {
        parent: parent(number),
        kind: 8,
        fixtures: 40,
        length: 5_000,
        elevation: -999,
        free: 1_000,
    };
    let mut record = Record { version: 1, tenths: 3, hours: 24, delivered: 6_000, limit: 3_000, ..Record::default() };
    record.residents[7] = 30;
    record.sections = (1..=63).map(section).collect();
    record.stated = record.len() as u32;
    record.bytes()
}

/// A house as the job of a service.
fn served(job: &[u8], service: u8) -> Vec<u8> {
    let mut record = Record::read(job).expect("a record");
    (record.version, record.service) = (2, service);
    record.stated = record.len() as u32;
    record.bytes()
}

fn houses() -> Vec<Vec<u8>> {
    let example = concat!(env!("CARGO_MANIFEST_DIR"), "/../examples/house.txt");
    let hotel = house::pack(&std::fs::read_to_string(example).expect("the example is there")).expect("a house");
    let mut one = great(|_| 0);
    one.truncate(50);
    (one[2], one[3], one[6]) = (0, 50, 1);
    let halves = great(|number| number / 2);
    let low = short(&hotel);
    let plain =
        [hotel, low, one, great(|_| 0), great(|number| number - 1), halves, great(|number| number.saturating_sub(3))];
    let plain: Vec<Vec<u8>> = plain.into_iter().chain(marked()).collect();
    let lines: Vec<Vec<u8>> = plain.iter().flat_map(|job| [0, 1, 2].map(|service| served(job, service))).collect();
    [plain, lines].concat()
}

/// The kinds of each Z, most of them at once.
const THIRTY: [&str; 5] = ["dwelling", "hotel-shared", "hotel-25", "hotel-75", "hotel-100"];
const TWENTY: [&str; 5] = ["hostel-showers", "hostel-kitchens", "hotel-showers", "hospital", "polyclinic"];

fn packed(text: &str) -> Vec<u8> {
    house::pack(text).unwrap_or_else(|_| panic!("a house: {text}"))
}

/// Houses in which one tap sets a flow: of a section or of the house, of one kind or of several, also at the dictating end.
fn marked() -> Vec<Vec<u8>> {
    let kinds: [&[&str]; 6] = [
        &["hotel-100"],
        &["hostel-showers", "hospital"],
        &["hostel-kitchens"],
        &["hotel-shared", "hotel-100"],
        &THIRTY,
        &TWENTY,
    ];
    let mut texts: Vec<String> = kinds.iter().map(|kinds| branch(kinds)).collect();
    texts.extend([flat(), high()]);
    let jobs = texts.iter().map(|text| packed(text));
    jobs.flat_map(|job| [short(&job), job]).collect()
}

/// Section 1 has basins of its own and leads to a bath, whose tap sets its flow; right below it is drawn section 3.
fn basins_on_the_way() -> String {
    let sections = [("pump", "offices", 8), ("1", "hotel-100", 1), ("pump", "hotel-100", 10)];
    mixed::house(&[("hotel-100", 1), ("offices", 1)], &sections)
}

/// The same with the end of section 1 so high that it dictates.
fn high() -> String {
    basins_on_the_way().replacen("elevation 310 cm", "elevation 2000 cm", 1)
}

/// The house with a delivered head of 0.
fn short(job: &[u8]) -> Vec<u8> {
    let mut low = job.to_vec();
    (low[12], low[13]) = (0, 0);
    low
}

#[test]
fn too_little_head_is_said_in_the_title_and_above_the_drawing() {
    let hotel = &houses()[0];
    let (enough, _) = drawn(hotel);
    assert!(!enough.contains("TOO LITTLE HEAD"));
    assert!(enough.contains(&format!(">pump set: {} ml/s at ", calls::duty(hotel).expect("accepted"))));
    let (low, sections) = drawn(&short(hotel));
    assert!(low.contains(&format!("<title>House network of {sections} sections: TOO LITTLE HEAD</title>")));
    let texts = elements(&low).into_iter().filter(|element| element.name == "text");
    let printed: Vec<String> = texts.map(|text| text.text).filter(|text| text.contains("TOO LITTLE HEAD")).collect();
    let cat = table::pack(CAT).expect("a table");
    let required = calls::rate(hotel, &cat, &vec![2; sections]).expect("rated").required;
    assert_eq!(printed, [format!("TOO LITTLE HEAD: 0 cm are delivered, {required} cm are missing")]);
}

/// Title and heading name the line; nothing else of a drawing of all water is another than without a service.
#[test]
fn a_line_is_named_in_the_title_and_above_the_drawing() {
    let hotel = &houses()[0];
    for (service, line) in [(0, "all water"), (1, "the cold line"), (2, "the hot line")] {
        let job = served(hotel, service);
        let (svg, sections) = drawn(&job);
        assert!(svg.contains(&format!("<title>House network of {sections} sections, {line}</title>")), "{svg}");
        let duty = calls::duty(&job).expect("accepted");
        assert!(svg.contains(&format!(">pump set for {line}: {duty} ml/s at ")), "{svg}");
        let (low, _) = drawn(&short(&job));
        assert!(low.contains(&format!("sections, {line}: TOO LITTLE HEAD</title>")), "{low}");
        let sketched = sketch_of(&job, NONE);
        assert!(sketched.contains(&format!("sections, {line}: NO SIZE SERVES</title>")), "{sketched}");
        assert!(sketched.contains(&format!(">pump set for {line}: {duty} ml/s; without a size")), "{sketched}");
    }
    let (plain, total) = (drawn(hotel).0, drawn(&served(hotel, 0)).0);
    assert!(plain.contains("<title>House network of 12 sections</title>") && plain.contains(">pump set: "), "{plain}");
    assert_eq!(total.replace(" sections, all water<", " sections<").replace(" for all water: ", ": "), plain);
}

#[test]
fn well_formed_and_every_section_is_named() {
    for job in houses() {
        let (svg, sections) = drawn(&job);
        let all = elements(&svg);
        assert_eq!(all[0].name, "svg");
        let allowed = ["svg", "title", "rect", "g", "line", "circle", "path", "text"];
        assert!(all.iter().all(|element| allowed.contains(&element.name.as_str())));
        for number in 1..=sections {
            let id = format!("section-{number}");
            assert_eq!(all.iter().filter(|element| element.attributes.get("id") == Some(&id)).count(), 1, "{id}");
            assert!(all.iter().any(|element| element.name == "text" && element.text == number.to_string()), "{id}");
        }
        assert_eq!(svg.matches(">dictating end<").count(), 1);
    }
}

/// How wide a letter of DejaVu Sans is, which a drawing names first and which is wider than Arial, in twentieths of its size,
/// rounded up.
fn twentieths(letter: char) -> i64 {
    let widths = [
        (6, "Iijl"),
        (7, " ,./:;"),
        (8, "()-ft"),
        (9, "r"),
        (11, "csz"),
        (12, "FLkvxy"),
        (13, "0123456789EPSTYabdeghnopqu"),
        (14, "ABCKRVXZ"),
        (15, "NU"),
        (16, "DGHOQ"),
        (17, "w"),
    ];
    widths.iter().find(|(_, letters)| letters.contains(letter)).map_or(20, |(width, _)| *width)
}

/// The width of a text. A bold letter is at most a tenth of its size wider.
fn width(text: &Element) -> i64 {
    let bold = if text.attributes["font-weight"] == "bold" { 2 } else { 0 };
    text.text.chars().map(|letter| twentieths(letter) + bold).sum::<i64>() * text.number("font-size") / 20
}

/// The box around a text.
fn around(text: &Element) -> (i64, i64, i64, i64) {
    let (size, width) = (text.number("font-size"), width(text));
    let (x, y) = (text.number("x"), text.number("y"));
    let left = if text.attributes["text-anchor"] == "middle" { x - width / 2 } else { x };
    (left, y - size, left + width, y + size / 4)
}

fn meet(a: (i64, i64, i64, i64), b: (i64, i64, i64, i64)) -> bool {
    a.0 < b.2 && b.0 < a.2 && a.1 < b.3 && b.1 < a.3
}

#[test]
fn no_text_meets_another_or_a_pipe() {
    let jobs = houses();
    let sketched = jobs.iter().flat_map(|job| [NARROW, NONE].map(|cat| sketch_of(job, cat)));
    // The kinds of a house's tap, the longest names that are written out and the most numbers.
    let named = [&[2, 9][..], &[2, 3, 5, 9, 10]].map(|taps| drawn_with(&short(&packed(&flat())), CAT, taps).0);
    let high = jobs.iter().map(|job| drawn_with(job, HIGH, &asked(job).2.house).0);
    for svg in jobs.iter().map(|job| drawn(job).0).chain(high).chain(sketched).chain(named) {
        let all = elements(&svg);
        let texts: Vec<&Element> = all.iter().filter(|element| element.name == "text").collect();
        let (width, height) = (all[0].number("width"), all[0].number("height"));
        for (place, text) in texts.iter().enumerate() {
            let own = around(text);
            assert!(own.0 >= 0 && own.1 >= 0 && own.2 <= width && own.3 <= height, "{text:?} leaves the sheet");
            for other in &texts[place + 1..] {
                assert!(!meet(own, around(other)), "{text:?} meets {other:?}");
            }
            for line in all.iter().filter(|element| element.name == "line") {
                let half = line.number("stroke-width") / 2;
                let pipe = (
                    line.number("x1") - half,
                    line.number("y1").min(line.number("y2")) - half,
                    line.number("x2") + half,
                    line.number("y1").max(line.number("y2")) + half,
                );
                assert!(!meet(own, pipe), "{text:?} meets {line:?}");
            }
        }
    }
}

/// The texts of a section, and what the pointer shows.
fn texts_of(svg: &str, section: usize) -> (Vec<String>, String) {
    let (_, group) = svg.split_once(&format!("<g id=\"section-{section}\">")).expect("it is drawn");
    let (group, _) = group.split_once("</g>").expect("a group ends");
    let all = elements(&format!("<?xml version=\"1.0\" encoding=\"UTF-8\"?>\n<g>{group}</g>"));
    let texts = all.iter().filter(|element| element.name == "text").map(|text| text.text.clone()).collect();
    (texts, all.into_iter().find(|element| element.name == "title").expect("a title").text)
}

const LEGEND: &str = ">one tap of a kind: one fixture of this kind draws more than the formula gives for all that is served; \
    the flow is what it draws<";

/// The mark stands below the flow and the velocity. Names of up to 37 letters stand in it, else the kinds' numbers, and below
/// the drawing what these are; the pointer shows the names. One tap draws 10 × Z: 300 or 200 ml/s.
#[test]
fn a_flow_that_one_tap_sets_is_marked() {
    let cases: [(&[&str], u32, &str, &str, &str); 5] = [
        (&["hotel-100"], 300, "one tap of hotel-100", "one tap of hotel-100", ""),
        (&["hotel-75", "hotel-100"], 300, "one tap of hotel-75 or hotel-100", "one tap of hotel-75 or hotel-100", ""),
        // 37 letters, and 38.
        (
            &["hostel-showers", "hospital"],
            200,
            "one tap of hostel-showers or hospital",
            "one tap of hostel-showers or hospital",
            "",
        ),
        (
            &["hospital", "hostel-kitchens"],
            200,
            "one tap of kinds 3 or 9",
            "one tap of hostel-kitchens or hospital",
            "3 hostel-kitchens, 9 hospital",
        ),
        (
            &THIRTY,
            300,
            "one tap of kinds 1, 4, 6, 7 or 8",
            "one tap of dwelling, hotel-shared, hotel-25, hotel-75 or hotel-100",
            "1 dwelling, 4 hotel-shared, 6 hotel-25, 7 hotel-75, 8 hotel-100",
        ),
    ];
    for (kinds, flow, mark, whole, numbered) in cases {
        let job = packed(&branch(kinds));
        let (svg, sections) = drawn(&job);
        let (texts, title) = texts_of(&svg, 1);
        assert!(texts[2].starts_with(&format!("{flow} ml/s  ")) && texts[3] == mark, "{texts:?}");
        let why = "which draws more than the formula gives for all that is served";
        assert!(title.ends_with(&format!(", flow that of {whole}, {why}")), "{title}");
        assert!((2..=sections).all(|section| {
            let (texts, title) = texts_of(&svg, section);
            texts.iter().chain([&title]).all(|text| !text.contains("tap"))
        }));
        let sketched = sketch_of(&job, NONE);
        for svg in [&svg, &sketched] {
            assert_eq!(svg.matches(LEGEND).count(), 1, "{svg}");
            assert_eq!(svg.contains("kinds by number"), !numbered.is_empty(), "{svg}");
            assert!(numbered.is_empty() || svg.contains(&format!(">kinds by number: {numbered}<")), "{svg}");
        }
        let (texts, title) = texts_of(&sketched, 1);
        assert_eq!(texts[2..], [format!("{flow} ml/s"), mark.to_string()]);
        assert!(title.contains(whole) && !title.contains("head left"), "{title}");
    }
}

/// Of every choice of kinds of one Z the mark ends before the end of its pipe, 240 from where it begins and 14 before the text.
#[test]
fn every_mark_fits_into_its_column() {
    for (kinds, chosen) in [THIRTY, TWENTY].iter().flat_map(|kinds| (1..32_u8).map(move |chosen| (kinds, chosen))) {
        let own = (0..5).filter(|place| chosen & (1 << place) != 0).map(|place| kinds[place]);
        let own: Vec<&str> = own.collect();
        let all = elements(&drawn(&packed(&branch(&own))).0);
        let marks: Vec<&Element> = all
            .iter()
            .filter(|element| element.name == "text" && element.number("font-size") == 11)
            .filter(|text| text.text.starts_with("one tap of "))
            .collect();
        assert_eq!(marks.len(), 1, "{own:?}");
        assert!(width(marks[0]) <= 240 - 14, "{:?}", marks[0]);
    }
}

#[test]
fn a_tap_that_sets_the_flow_of_the_house_stands_above_the_drawing() {
    let job = packed(&flat());
    let (svg, _) = drawn(&job);
    assert!(svg.contains("<title>House network of 2 sections; design flow: one tap of dwelling</title>"), "{svg}");
    assert!(svg.contains(">pump set: 300 ml/s (one tap of dwelling) at "), "{svg}");
    assert!(svg.contains(LEGEND), "{svg}");
    assert!([1, 2].iter().all(|section| !texts_of(&svg, *section).1.contains("tap")));
    assert!(sketch_of(&job, NONE).contains(">pump set: 300 ml/s (one tap of dwelling); without a size"));
    let (numbered, _) = drawn_with(&job, CAT, &[1, 4, 6, 7, 8]);
    assert!(numbered.contains(">pump set: 300 ml/s (one tap of kinds 1, 4, 6, 7 or 8) at "), "{numbered}");
    assert!(numbered.contains(">kinds by number: 1 dwelling, 4 hotel-shared, 6 hotel-25, "), "{numbered}");
    assert!(
        numbered.contains("design flow: one tap of dwelling, hotel-shared, hotel-25, hotel-75 or hotel-100</title>")
    );
    let plain = drawn(&houses()[0]).0 + &sketch_of(&houses()[0], NARROW);
    assert!(!plain.contains("tap"), "{plain}");
}

/// Rows are higher only where an end has one more line: the tap, and that it dictates.
#[test]
fn a_marked_end_that_dictates_has_its_line() {
    let (svg, _) = drawn(&packed(&high()));
    let (texts, _) = texts_of(&svg, 1);
    assert_eq!(texts.len(), 7);
    assert_eq!((texts[3].as_str(), texts[6].as_str()), ("one tap of hotel-100", "dictating end"));
    let height = |svg: &str| elements(svg)[0].number("height");
    // Two ends in rows of their own between the heading's 130 and the legend's 18.
    assert_eq!(height(&svg), 130 + 2 * 104 + 18);
    let low = drawn(&packed(&basins_on_the_way())).0;
    assert!(texts_of(&low, 1).0.contains(&"one tap of hotel-100".to_string()), "{low}");
    assert_eq!(height(&low), 130 + 2 * 90 + 18);
}

const ROW_LEGEND: &str = ">under the first row: the rows of the size begin at a greater flow; velocity is flow x first velocity / first \
    flow, rounded up, slope likewise<";

/// The mark stands below flow and velocity, behind that of one tap, and ends before its pipe does. 300 ml/s of 999,999 at 3,000 mm/s are
/// 0.9 mm/s, up to 1.
#[test]
fn a_flow_under_the_first_row_is_marked() {
    let job = packed(&branch(&["hotel-100"]));
    let (svg, sections) = drawn_with(&job, HIGH, &[]);
    let mark = "under the first row, 999999 ml/s";
    let (texts, _) = texts_of(&svg, 1);
    assert_eq!(texts[2..5], ["300 ml/s  1 mm/s", "one tap of hotel-100", mark]);
    assert!((2..=sections).all(|section| texts_of(&svg, section).0[3] == mark), "{svg}");
    assert_eq!((svg.matches(ROW_LEGEND).count(), svg.matches(LEGEND).count()), (1, 1), "{svg}");
    let all = elements(&svg);
    assert!(all.iter().filter(|text| text.text == mark).all(|text| width(text) <= 240 - 14), "{svg}");
    let plain = drawn(&job).0 + &drawn(&houses()[0]).0;
    assert!(!plain.contains("first row"), "{plain}");
}

/// Also where some section has no size. The wing of the hotel has 339, 237 and 275 ml/s, and the others more than 400.
#[test]
fn a_house_that_no_size_serves_has_the_mark_too() {
    let svg = sketch_of(&houses()[0], &NARROW.replacen("1,20,900,1,1,1", "1,20,900,350,1,1", 1));
    assert_eq!(svg.matches(">under the first row, 350 ml/s<").count(), 3, "{svg}");
    assert!(texts_of(&svg, 10).0[2..] == ["339 ml/s  1 mm/s", "under the first row, 350 ml/s"], "{svg}");
    assert!(svg.contains("NO SIZE SERVES section 1, 2, 3, 4, 5, 6, 7, 8, 9<") && svg.contains(ROW_LEGEND), "{svg}");
}
