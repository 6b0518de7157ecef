//! Houses and tables that the library takes and that are nearly always slips: warned of, with their line, and refused where asked.

#[path = "tools/json.rs"]
mod json;
#[path = "tools/run.rs"]
mod run;

use json::Value;
use office::at::{At, Field};
use office::catalogue::Catalogue;
use office::meter::{self, Meter};
use office::record::Record;
use office::warnings::{off_losses, off_service, off_velocity, warnings};
use office::{calls, house, meters, table};
use run::{office, office_with, read, scratch, top};

const HOUSE: &str = "examples/house.txt";
const TABLE: &str = "examples/table.csv";

/// The hotel with one text put for another, and where it is warned of.
fn found(from: &str, to: &str) -> Vec<At> {
    let text = read(HOUSE);
    assert!(text.contains(from), "{from}");
    let record = Record::read(&house::pack(&text.replacen(from, to, 1)).expect(to)).expect("a record");
    warnings(&record).into_iter().map(|warning| warning.at).collect()
}

#[test]
fn slips_are_warned_of() {
    // Elevations of the wrong sign or unit also leave the sections behind them at an impossible height.
    assert_eq!(found("elevation 1040 cm", "elevation -10.4 m"), [At::Section(5)]);
    assert_eq!(found("elevation 1040 cm", "elevation 10 cm"), [At::Section(5)]);
    assert_eq!(found("elevation  710 cm", "elevation  71 cm"), [At::Section(5)]);
    assert_eq!(found("elevation   60 cm", "elevation 60 m"), [1, 2, 6].map(At::Section));
    assert_eq!(found("guaranteed head 900 cm", "guaranteed head 9000 cm"), [At::Field(Field::Guaranteed)]);
    assert_eq!(found("velocity limit  1500 mm/s", "velocity limit 150 mm/s"), [At::Field(Field::Limit)]);
    assert_eq!(found("length 22.0 m", "length 220 m"), [At::Section(10)]);
    assert_eq!(found("length  3.3 m", "length  3 dm"), [At::Section(4)]);
}

#[test]
fn what_lies_at_the_edge_is_no_slip() {
    assert_eq!(found("length  3.3 m elevation  710 cm", "length  3.2 m elevation  709 cm"), []);
    assert_eq!(found("length  3.3 m elevation  710 cm", "length  3.2 m elevation  710 cm"), [At::Section(4)]);
    assert_eq!(found("velocity limit  1500 mm/s", "velocity limit 300 mm/s"), []);
    assert_eq!(found("velocity limit  1500 mm/s", "velocity limit 299 mm/s"), [At::Field(Field::Limit)]);
    assert_eq!(found("guaranteed head 900 cm", "guaranteed head 1800 cm"), []);
    assert_eq!(found("guaranteed head 900 cm", "guaranteed head 1801 cm"), [At::Field(Field::Guaranteed)]);
    assert_eq!(found("length 22.0 m", "length 104 m"), []);
    assert_eq!(found("length 22.0 m", "length 104.1 m"), [At::Section(10)]);
}

/// A service that is commented out is none, and the house is taken for all water.
#[test]
fn a_service_behind_a_hash_is_warned_of() {
    let text = read(HOUSE);
    let whole = office_with(&["flow", "-", "--strict"], text.as_bytes());
    assert_eq!((whole.status, whole.error.as_str()), (0, ""));
    for (front, line, service) in [
        ("# service hot\n", 1, "hot"),
        ("\n#service cold\n", 2, "cold"),
        ("##  Service: HOT ;\n", 1, "hot"),
        ("# all water # service cold\n", 1, "cold"),
        ("# service cold\n# service hot\n", 1, "cold"),
        ("# service hot\n# service cold\n", 1, "hot"),
    ] {
        let own = format!("{front}{text}");
        let why = format!("warning: standard input line {line}, comment `service {service}`: it stands behind #, ");
        let ran = office_with(&["flow", "-"], own.as_bytes());
        assert!(ran.status == 0 && ran.error.starts_with(&why), "{front}{}", ran.error);
        assert_eq!(ran.output, whole.output);
        let strict = office_with(&["choose", "-", TABLE, "--strict"], own.as_bytes());
        assert!(strict.status == 2 && strict.output.is_empty() && strict.error.starts_with(&why), "{}", strict.error);
        // Any service that is given says what is meant.
        for given in ["total", "cold", "hot"] {
            let own = format!("service {given}\n{own}");
            assert_eq!(office_with(&["flow", "-", "--strict"], own.as_bytes()).status, 0);
        }
    }
    let behind = text.replacen("hours           24", "hours 24 # service hot", 1);
    let line = 1 + behind.lines().position(|line| line.contains("# service hot")).expect("hours");
    let ran = office_with(&["flow", "-"], behind.as_bytes());
    assert!(
        ran.error.starts_with(&format!("warning: standard input line {line}, comment `service hot`: ")),
        "{}",
        ran.error
    );
    for comment in
        ["service total", "service", "service warm", "the service hot", "service hot line", "service cold and hot"]
    {
        let ran = office_with(&["flow", "-", "--strict"], format!("# {comment}\n{text}").as_bytes());
        assert_eq!((ran.status, ran.error.as_str()), (0, ""), "{comment}");
    }
}

/// Each command answers with a warning, and with `--strict` gives nothing.
fn every_command_warns(text: &str) {
    let kept = scratch("strict.out");
    let _ = std::fs::remove_file(&kept);
    for command in [&["flow", "-"][..], &["rate", "-", TABLE, "6,6"], &["draw", "-", TABLE], &["pack", "-"]] {
        let ran = office_with(command, text.as_bytes());
        assert!(ran.status == 0 && ran.error.starts_with("warning: ") && !ran.output.is_empty(), "{command:?}");
        let strict = office_with(&[command, &["--strict", "-o", &kept]].concat(), text.as_bytes());
        assert_eq!((strict.status, strict.output.len()), (2, 0), "{command:?}");
        assert!(strict.error.contains("line 9, section 2") && strict.error.contains("--strict"), "{}", strict.error);
        assert!(!std::path::Path::new(&kept).exists(), "{command:?}");
    }
}

/// An end at 15.2 m that is written as -5.2 m or 15 cm sizes another pump without a word.
#[test]
fn the_command_warns_with_the_line_and_answers_all_the_same() {
    let riser = "local losses 0.3\nhours 24\nmeter loss 50 cm\nguaranteed head 500 cm\ndelivered head 2600 cm\n\
        velocity limit 1500 mm/s\nresidents dwelling 8\n\
        section 1 from pump length 12.5 m elevation 12.2 m kind dwelling fixtures 8 free 300 cm\n\
        section 2 from 1 length 3.3 m elevation 15.2 m kind dwelling fixtures 8 free 300 cm\n";
    let sound = office_with(&["choose", "-", TABLE], riser.as_bytes());
    assert_eq!((sound.status, sound.error.as_str()), (0, ""));
    for slip in ["-5.2 m", "15 cm"] {
        let text = riser.replace("15.2 m", slip);
        let warned = office_with(&["choose", "-", TABLE], text.as_bytes());
        assert_eq!(warned.status, 0);
        assert!(warned.text().contains("pump head") && warned.text() != sound.text());
        assert!(
            warned.error.starts_with("warning: standard input line 9, section 2: its end lies at "),
            "{}",
            warned.error
        );
        let printed = json::parse(&office_with(&["choose", "-", TABLE, "--json"], text.as_bytes()).text());
        let warning = &printed.list("warnings")[0];
        assert_eq!((warning.number("line"), printed.get("refusal")), (9, &Value::Null));
        assert_eq!(warning.get("file"), &Value::Text("standard input".to_string()));
        assert!(printed.number("pump_head_cm") > 0);
        every_command_warns(&text);
        let strict = office_with(&["choose", "-", TABLE, "--json", "--strict"], text.as_bytes());
        let printed = json::parse(&strict.text());
        assert_eq!((strict.status, printed.list("warnings").len()), (2, 1));
    }
    assert_eq!(office(&["choose", HOUSE, TABLE, "--strict"]).status, 0);
}

#[test]
fn the_pump_has_no_end() {
    let why = |from: &str, to: &str| {
        let text = read(HOUSE);
        assert!(text.contains(from), "{from}");
        office_with(&["flow", "-"], text.replacen(from, to, 1).as_bytes()).error
    };
    let first = why("elevation   60 cm", "elevation 60 m");
    assert!(first.contains("section 1: its end lies at 6000 cm and the pump at 0 cm, 6000 cm apart"), "{first}");
    assert!(first.contains(" and the end of section 1 at 6000 cm, "), "{first}");
}

#[test]
fn the_examples_are_sound() {
    let mut houses = vec![HOUSE.to_string(), "examples/attic.txt".to_string(), "examples/mixed.txt".to_string()];
    for file in std::fs::read_dir(top().join("examples/mistakes")).expect("the examples are there") {
        houses.push(format!("examples/mistakes/{}", file.expect("a file").file_name().to_string_lossy()));
    }
    let mut seen = 0;
    for file in houses.iter().filter(|file| file.ends_with(".txt") && !file.contains("elevation-too-low")) {
        let Ok(packed) = house::pack(&read(file)) else { continue };
        let record = Record::read(&packed).expect("a record");
        assert_eq!(warnings(&record), [], "{file}");
        seen += 1;
    }
    assert!(seen >= 6, "{seen}");
}

/// Houses as they are built: risers of storeys on cellar mains, pumps in the cellar, on the ground, in the attic.
#[test]
fn a_hundred_sound_houses_have_no_warning() {
    for seed in 0..100_u64 {
        let pick = |salt: u64, of: u64| (seed * 7_919 + salt * 104_729) % of;
        let (storeys, risers) = (1 + pick(1, 17), 1 + pick(2, 3));
        let storey = 270 + 10 * pick(3, 6);
        let down = seed % 4 == 3 && storeys * storey < 900;
        let mut text = format!(
            "local losses 0.{}\nhours {}\nmeter loss {} cm\nguaranteed head {} cm\ndelivered head {} cm\n\
             velocity limit {} mm/s\nresidents dwelling {}\n",
            2 + pick(4, 2),
            1 + pick(5, 24),
            pick(6, 300),
            pick(7, 1_500),
            1_500 + pick(8, 4_500),
            600 + 300 * pick(9, 6),
            risers * storeys
        );
        let mut number = 0;
        for riser in 0..risers {
            let mut before = "pump".to_string();
            for floor in 0..=storeys {
                number += 1;
                let height = (60 + floor * storey) as i64 * if down { -1 } else { 1 };
                let length = if floor == 0 { 50 + 80 * riser + pick(number, 200) } else { (storey + 9) / 10 };
                let taps = if floor == 0 { "kind none" } else { "kind dwelling fixtures 6 free 300 cm" };
                text.push_str(&format!(
                    "section {number} from {before} length {length} dm elevation {height} cm {taps}\n"
                ));
                before = number.to_string();
            }
        }
        let packed = house::pack(&text).expect(&text);
        assert!(calls::flow(&packed).is_ok(), "{text}");
        assert_eq!(warnings(&Record::read(&packed).expect("a record")), [], "{text}");
    }
}

/// The example's table with the figures of each row put through a change, under the same header.
fn changed(change: fn([u32; 6]) -> [u32; 6]) -> String {
    let text = read(TABLE);
    let lines = text.lines().map(|line| {
        let cells: Vec<u32> = line.split(',').filter_map(|cell| cell.parse().ok()).collect();
        let Ok(cells) = <[u32; 6]>::try_from(cells) else { return format!("{line}\n") };
        change(cells).map(|cell| cell.to_string()).join(",") + "\n"
    });
    lines.collect()
}

fn off(text: &str) -> Option<At> {
    let catalogue = Catalogue::read(&table::pack(text).expect(text)).expect("a catalogue");
    off_velocity(&catalogue).map(|warning| warning.at)
}

/// The slips that a table's own rules let through.
#[test]
fn a_table_whose_velocities_are_not_those_of_its_flows_is_warned_of() {
    let swapped_headers = read(TABLE).replace("flow ml/s,velocity mm/s", "velocity mm/s,flow ml/s");
    let slips = [
        ("flow and velocity swapped", swapped_headers),
        (
            "l/h for ml/s",
            changed(|[size, bore, price, flow, velocity, slope]| [size, bore, price, flow * 18 / 5, velocity, slope]),
        ),
        (
            "cm/s for mm/s",
            changed(|[size, bore, price, flow, velocity, slope]| [size, bore, price, flow, velocity / 10, slope]),
        ),
        (
            "bore and price swapped",
            changed(|[size, bore, price, flow, velocity, slope]| [size, price, bore, flow, velocity, slope]),
        ),
    ];
    for (what, text) in slips {
        assert_eq!(off(&text), Some(At::Row(1, 1)), "{what}");
        let warned = office_with(&["choose", HOUSE, "-"], text.as_bytes());
        assert!(warned.status < 2 && !warned.output.is_empty(), "{what}");
        let line = "warning: standard input line 4, size 1 row 1: the velocity is ";
        assert!(warned.error.starts_with(line) && warned.error.lines().count() == 1, "{what}: {}", warned.error);
        let packed = office_with(&["pack", "-"], text.as_bytes());
        assert_eq!(packed.status, 0, "{what}: the library takes it");
        let shown = office_with(&["show", "-"], &packed.output);
        assert!(shown.error.starts_with("warning: standard input, size 1 row 1: the velocity is "), "{}", shown.error);
        for words in [&["pack", "-", "--strict"][..], &["rate", HOUSE, "-", "6,6,6,6,6,6,6,6,6,6,6,6", "--strict"]] {
            let strict = office_with(words, text.as_bytes());
            assert!(strict.status == 2 || strict.text().starts_with("refused 13: "), "{what}: {}", strict.text());
        }
    }
    // A warning never takes the place of an answer, and says both velocities.
    let slip = read(TABLE).replacen("1,21,310,200,567,58", "1,21,310,200,867,58", 1).replacen(",850,", ",870,", 1);
    let warned = office_with(&["choose", HOUSE, "-", "--json"], slip.as_bytes());
    let printed = json::parse(&warned.text());
    let warning = &printed.list("warnings")[0];
    assert_eq!((warned.status, printed.list("warnings").len(), warning.number("line")), (0, 1, 6));
    let Value::Text(why) = warning.get("why") else { panic!("{}", warned.text()) };
    assert!(
        why.starts_with("the velocity is 867 mm/s, but 200 ml/s through a bore of 21 mm flow at 577 mm/s; "),
        "{why}"
    );
}

#[test]
fn velocities_within_a_half_are_no_slip() {
    let with = |velocity: u32| read(TABLE).replacen("1,21,310,100,283", &format!("1,21,310,100,{velocity}"), 1);
    // 100 ml/s through a bore of 21 mm flow at 288 mm/s.
    for (velocity, found) in [(192, None), (191, Some(At::Row(1, 1))), (425, None)] {
        assert_eq!(off(&with(velocity)), found, "{velocity}");
    }
    assert_eq!(off(&with(433).replacen("150,425", "150,433", 1)), Some(At::Row(1, 1)));
    // Whole velocities of a trickle, and a bore that the library refuses.
    let trickle = "size,bore mm,price,flow ml/s,velocity mm/s,slope mm/m\n1,100,1,1,1,1\n1,100,1,10000,1273,9\n";
    assert_eq!(off(trickle), None);
    assert_eq!(off(&trickle.replace(",100,", ",0,")), None);
}

#[test]
fn the_example_tables_are_sound() {
    let page = read("docs/FILES.md");
    let (_, block) = page.split_once("\n    size,").expect("the page has a table");
    let block: String = block.lines().take(5).map(|line| line.trim_start().to_string() + "\n").collect();
    let mut tables = vec![format!("size,{block}"), office(&["new", "table"]).text()];
    tables.extend(["examples/table.csv", "examples/own-case.csv", "examples/mistakes/rows-differ.csv"].map(read));
    let mut seen = 0;
    for text in tables {
        let Ok(packed) = table::pack(&text) else { continue };
        assert_eq!(off_velocity(&Catalogue::read(&packed).expect("a catalogue")), None, "{text}");
        seen += 1;
    }
    assert!(seen >= 4, "{seen}");
}

/// A list of one meter, and whether it is warned of.
fn warned(design: u8, resistance: u16, service: u16) -> bool {
    let found = off_service(&[Meter { design, resistance, service }]);
    assert!(found.iter().all(|place| place.at == At::Meter(1)));
    !found.is_empty()
}

/// The loss at the service flow is resistance × service flow squared / 1,296,000,000: 5,000 and 6,400 give 158 cm.
#[test]
fn a_meter_whose_figures_do_not_go_together_is_warned_of() {
    for (design, resistance, service) in [(1, 5_000, 6_400), (2, 1_430, 12_000), (2, 81, 17_000), (2, 8, 65_000)] {
        assert!(!warned(design, resistance, service));
        // The service flow in m3/h, or with a digit too few or too many.
        assert!(warned(design, resistance, service / 1_000) && warned(design, resistance, service / 10));
        assert!(service > 6_553 || warned(design, resistance, service * 10));
    }
    assert!(warned(1, 50_000, 6_400), "a resistance with a digit too many");
    assert!(warned(1, 500, 6_400), "a resistance with a digit too few");
    // At 36,000 l/h the loss in cm is the resistance: the edges themselves are no slip.
    for (design, least) in [(1, 40), (2, 4)] {
        assert!(!warned(design, least, 36_000) && warned(design, least - 1, 36_000));
        assert!(!warned(design, 500, 36_000) && warned(design, 501, 36_000));
    }
    // Source document 001's maximum flows, next to its service flows: 51,800 × 5,000² / 1,296,000,000 is 999, and so on.
    for (design, resistance, most) in
        [(1, 51_800, 5_000), (1, 26_400, 7_000), (1, 13_000, 10_000), (1, 5_000, 16_000), (2, 1_430, 30_000)]
    {
        assert!(warned(design, resistance, most), "{resistance}");
    }
    // What the library refuses has its own place.
    assert!(!warned(1, 0, 6_400) && !warned(1, 5_000, 0) && !warned(3, 5_000, 64));
    let slip = read("examples/meters.csv").replace("0.5,6400", "0.5,64");
    let ran = office_with(&["meter", HOUSE, "-"], slip.as_bytes());
    let why = "warning: standard input line 12, meter 4: at its own service flow of 64 l/h it would lose 0 cm, and vane meters";
    assert!(ran.status == 0 && ran.error.starts_with(why) && ran.error.lines().count() == 1, "{}", ran.error);
    let strict = office_with(&["meter", HOUSE, "-", "--strict"], slip.as_bytes());
    assert_eq!((strict.status, strict.output.len()), (2, 0));
    let printed = json::parse(&office_with(&["meter", HOUSE, "-", "--json"], slip.as_bytes()).text());
    assert_eq!(printed.list("warnings")[0].number("line"), 12);
    assert!(office_with(&["pack", "-"], slip.as_bytes()).error.starts_with("warning: "));
}

#[test]
fn the_example_lists_are_sound() {
    for text in [read("examples/meters.csv"), office(&["new", "meters"]).text()] {
        let list = meter::read(&meters::pack(&text).expect("a list")).expect("whole meters");
        assert_eq!(off_service(&list), [], "{text}");
    }
}

/// The own case's pipe is 1,000 cm long. A loss that is as long is none too many, nor one of 100 cm in a shorter pipe.
#[test]
fn losses_that_no_pipe_has_are_warned_of() {
    let own = read("examples/own-case.txt");
    let warned = |length: &str, loss: u32| {
        let record = house::pack(&own.replace("length 10.0 m", length)).expect("a house");
        let found = off_losses(&Record::read(&record).expect("a record"), &[loss]);
        assert!(found.iter().all(|place| place.at == At::Loss(1)));
        found.len()
    };
    assert_eq!([1, 71, 999, 1_000].map(|loss| warned("length 10.0 m", loss)), [0; 4]);
    assert_eq!([0, 1_001, 7_100].map(|loss| warned("length 10.0 m", loss)), [1; 3]);
    assert_eq!([99, 100, 101].map(|loss| warned("length 0.3 m", loss)), [0, 0, 1]);
    let record = Record::read(&house::pack(&own).expect("a house")).expect("a record");
    assert_eq!(off_losses(&record, &[0, 0]), [], "a list of another length is refused");
    let run = |list: &str, words: &[&str]| {
        office_with(&[&["heads", "examples/own-case.txt", "-"], words].concat(), list.as_bytes())
    };
    let ran = run("section,loss m\n1,71\n", &[]);
    let why =
        "warning: standard input line 2, loss of section 1: 7100 cm in a pipe that is 1000 cm long; is the unit right";
    assert!(ran.status == 0 && ran.error.starts_with(why) && ran.error.lines().count() == 1, "{}", ran.error);
    let strict = run("section,loss m\n1,71\n", &["--strict"]);
    assert_eq!((strict.status, strict.output.len()), (2, 0));
    let none = run("section,loss cm\n1,0\n", &["--json"]);
    assert_eq!(none.status, 0, "the library takes it");
    let printed = json::parse(&none.text());
    assert_eq!((printed.number("required_head_cm"), printed.list("warnings")[0].number("line")), (850, 2));
    assert!(none.error.contains("0 cm, but water loses some head in every pipe"), "{}", none.error);
}

/// One such meter must not hide another, least of all the one that is picked: 0.005 and 64 for a vane meter that has 0.5 and 6400.
#[test]
fn every_meter_that_is_off_is_warned_of() {
    let list = "type,resistance m/(l/s)2,service flow l/h\nvane,0.5,64\nvane,0.5,6400\nvane,0.005,6400\n";
    let ran = office_with(&["meter", HOUSE, "-"], list.as_bytes());
    let lines: Vec<&str> = ran.error.lines().collect();
    assert!(ran.text().contains("\n    3  vane      0.0050          6400     3    500  * qualifies"), "{}", ran.text());
    assert_eq!((ran.status, lines.len()), (0, 2), "{}", ran.error);
    assert!(
        lines[0].starts_with("warning: standard input line 2, meter 1: at its own service flow of 64 l/h"),
        "{}",
        lines[0]
    );
    assert!(lines[1].starts_with("warning: standard input line 4, meter 3: at its own service flow of 6400 l/h"));
    // Thirty sections that are too steep: more warnings than are listed.
    let steep = |number: u8| {
        let from = if number == 1 { "pump".to_string() } else { (number - 1).to_string() };
        let height = if number % 2 == 0 { 500 } else { 0 };
        format!("section {number} from {from} length 1 m elevation {height} cm kind dwelling fixtures 8 free 300 cm\n")
    };
    let mut house = "local losses 0.3\nhours 24\nmeter loss 50 cm\nguaranteed head 500 cm\ndelivered head 2600 cm\n\
        velocity limit 1500 mm/s\nresidents dwelling 84\n"
        .to_string();
    house.extend((1..=30).map(steep));
    let (file, meters) = (scratch("steep.txt"), scratch("off.csv"));
    std::fs::write(&file, house).expect("written");
    std::fs::write(&meters, list).expect("written");
    let ran = office(&["meter", &file, &meters]);
    assert!(
        ran.status == 0 && ran.error.contains("line 4, meter 3: ") && ran.error.contains(" more warnings"),
        "{}",
        ran.error
    );
}

/// A house as they are built, and the sections' losses with its cheapest sizes; none where the library finds no sizes for it.
struct Sized {
    record: Record,
    own: Vec<u32>,
}

impl Sized {
    fn of(text: &str, cat: &[u8]) -> Option<Sized> {
        let job = house::pack(text).expect(text);
        let chosen = calls::choose(&job, cat).ok()?;
        let own =
            calls::losses(&job, cat, &chosen.sizes).expect("the library chose them").iter().map(|s| s.loss).collect();
        Some(Sized { record: Record::read(&job).expect("a record"), own })
    }

    fn parent(&self, place: usize) -> Option<usize> {
        usize::from(self.record.sections[place].parent).checked_sub(1)
    }

    fn rise(&self, place: usize) -> i64 {
        let end = |place: usize| i64::from(self.record.sections[place].elevation);
        end(place) - self.parent(place).map_or(0, end)
    }

    /// What somebody writes who adds up the way from the pump.
    fn sums(&self) -> Vec<u32> {
        (0..self.own.len())
            .map(|end| std::iter::successors(Some(end), |place| self.parent(*place)).map(|place| self.own[place]).sum())
            .collect()
    }

    /// What somebody writes who reads a gauge at both ends.
    fn readings(&self) -> Vec<u32> {
        (0..self.own.len()).map(|place| (i64::from(self.own[place]) + self.rise(place)).max(0) as u32).collect()
    }

    /// Sections no longer than the one they hang from, which is no longer than its own.
    fn in_a_row(&self) -> usize {
        let short = |place: usize| {
            let length = |place: usize| self.record.sections[place].length;
            self.parent(place).filter(|parent| length(place) <= length(*parent))
        };
        (0..self.own.len()).filter(|place| short(*place).and_then(short).is_some()).count()
    }

    /// Sections that rise by 50 cm or more and by half of their length.
    fn risers(&self) -> usize {
        let half = |place: &usize| 5 * i64::from(self.record.sections[*place].length);
        (0..self.own.len()).filter(|place| self.rise(*place) >= half(place).max(50)).count()
    }

    /// Whether a list is taken for sums, and for gauge readings.
    fn taken(&self, list: &[u32]) -> [bool; 2] {
        let found = off_losses(&self.record, list);
        ["no section loses less than the one it hangs from: ", "every section that rises loses at least its rise: "]
            .map(|why| {
                let count = found.iter().filter(|place| place.at == At::Losses && place.why.starts_with(why)).count();
                assert!(count < 2);
                count == 1
            })
    }
}

/// Risers on a cellar main, a main with branches, a row on one floor, any tree; lengths, storeys, taps and limits by the dice.
fn any_house(turn: u64, dice: &mut impl FnMut(u64) -> u64) -> String {
    // Parent, length in dm, elevation in cm.
    let mut sections: Vec<(u64, u64, u64)> = vec![(0, 10 + dice(200), 60)];
    let (storey, branches, levels) = (270 + 10 * dice(6), 1 + dice(6), 1 + dice(8));
    for number in 2..=(1 + branches * levels).min(60) {
        let first = (number - 2) % levels == 0;
        let before = match turn % 4 {
            0 | 1 if first => 1,
            3 => 1 + dice(number - 1),
            _ => number - 1,
        };
        let from = sections[before as usize - 1].2;
        sections.push(match turn % 4 {
            0 => (before, storey.div_ceil(10), from + storey),
            1 => (before, 40 + dice(200), from + 100 * dice(4)),
            2 => (before, 20 + dice(150), from + 10),
            _ => (before, 34 + dice(150), from + dice(2) * 30 * dice(11)),
        });
    }
    let (fixtures, high) = (1 + dice(10), sections.iter().map(|section| section.2).max().unwrap_or(0));
    let mut text = format!(
        "local losses 0.{}\nhours 24\nmeter loss 100 cm\nguaranteed head 500 cm\ndelivered head {} cm\n\
         velocity limit {} mm/s\nresidents dwelling {}\n",
        2 + dice(2),
        (high + 600 + 300 * dice(10)).min(6_000),
        600 + 300 * dice(6),
        sections.len() as u64 * (1 + dice(3))
    );
    for ((from, length, height), number) in sections.iter().zip(1..) {
        let from = if *from == 0 { "pump".to_string() } else { from.to_string() };
        text.push_str(&format!(
            "section {number} from {from} length {length} dm elevation {height} cm kind dwelling fixtures {fixtures} free 300 cm\n"
        ));
    }
    text
}

/// Neither warning stands with own losses; each stands wherever the house has enough sections to tell.
#[test]
fn sums_and_gauge_readings_are_told_from_own_losses() {
    let cat = table::pack(&read(TABLE)).expect("a table");
    let mut state: u64 = 0x9e37_79b9_7f4a_7c15;
    let mut dice = |of: u64| {
        state ^= state << 13;
        state ^= state >> 7;
        state ^= state << 17;
        (state >> 11) % of
    };
    let mut texts: Vec<String> = [HOUSE, "examples/attic.txt", "examples/mixed.txt"].map(read).to_vec();
    texts.extend((0..800).map(|turn| any_house(turn, &mut dice)));
    let (mut seen, mut summed, mut read_off) = (0, 0, 0);
    for text in texts {
        let Some(house) = Sized::of(&text, &cat) else { continue };
        assert_eq!(house.taken(&house.own), [false; 2], "{:?}\n{text}", house.own);
        let (sums, readings) = (house.in_a_row() >= 4, house.risers() >= 3);
        assert!(house.taken(&house.sums())[0] == sums, "{text}");
        assert!(house.taken(&house.readings())[1] == readings, "{text}");
        (seen, summed, read_off) = (seen + 1, summed + usize::from(sums), read_off + usize::from(readings));
    }
    assert!(seen > 400 && summed > 150 && read_off > 150, "{seen} {summed} {read_off}");
}

/// The example's own list, as sums, as readings, and in cm under a header of m: one line for each fault.
#[test]
fn a_whole_list_that_is_off_has_few_lines() {
    let run = |unit: &str, list: &[u32]| {
        let rows: String = list.iter().zip(1..).map(|(loss, section)| format!("{section},{loss}\n")).collect();
        office_with(&["heads", HOUSE, "-"], format!("section,loss {unit}\n{rows}").as_bytes())
    };
    let own = [133, 73, 51, 52, 28, 56, 64, 55, 31, 447, 59, 38];
    assert_eq!(run("cm", &own).error, "");
    let metres = run("m", &own).error;
    let why = "warning: standard input line 2, loss of section 1: 13300 cm in a pipe that is 1850 cm long; is the unit right, is it \
               the section's own loss and not that of the way from the pump, and is the height between its ends left out? The first \
               of 12 sections with such a loss\n";
    assert_eq!(metres, why);
    assert_eq!(run("cm", &[0; 12]).error.lines().count(), 1);
    assert!(
        run("cm", &[0; 12]).error.contains("loss of section 1: 0 cm, but ")
            && run("cm", &[0; 12]).error.contains("The first of 12 ")
    );
    // Three have a line each, four have one.
    let three = [0, 0, 0, 52, 28, 56, 64, 55, 31, 447, 59, 38];
    assert_eq!(run("cm", &three).error.lines().count(), 3);
    assert_eq!(run("cm", &[0, 0, 0, 0, 28, 56, 64, 55, 31, 447, 59, 38]).error.lines().count(), 1);
    let text = read(HOUSE);
    let house =
        Sized { record: Record::read(&house::pack(&text).expect("a house")).expect("a record"), own: own.to_vec() };
    let sums = run("cm", &house.sums());
    let why = "warning: standard input, list of losses: no section loses less than the one it hangs from: are these the losses of the \
               way from the pump? each section's own is expected\n";
    assert!(sums.status == 0 && sums.error.starts_with(why), "{}", sums.error);
    let readings = run("cm", &house.readings()).error;
    let why = "warning: standard input, list of losses: every section that rises loses at least its rise: were they read off two \
               gauges? the height between them is no loss and comes off\n";
    assert!(readings.contains(why), "{readings}");
}
