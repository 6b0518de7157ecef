//! What is said of the header and of the numbers of a list of losses: each message names the word or sign at fault, and what may
//! be written instead is something that the command takes.

#[path = "tools/lists.rs"]
mod lists;
#[path = "tools/run.rs"]
mod run;

use lists::line;
use office::at::At;
use office::mistake::Mistake;
use office::places::{Asked, places};
use office::{calls, house, losses, table};
use run::{office_with, read};

const OWN: &str = "examples/own-case.txt";

/// The only mistake of a loss in m, parted by semicolons so that a comma stays in its cell.
fn of_metres(loss: &str) -> Mistake {
    lists::only(losses::pack, "section;loss m", &format!("1;{loss}"))
}

const METRES: &str = "0.00 to 42597.75 m, with at most two decimals, as 0.04";

#[test]
fn a_loss_in_metres_is_never_asked_for_in_cm() {
    let too_fine = |loss: &str| format!("`{loss}` for `loss m` is finer than the record keeps");
    let no_number = |loss: &str, why: &str| format!("`{loss}` is no number for `loss m`{why}");
    let alone = format!("the number alone; its unit stands in the header; {METRES}");
    for (loss, wrong, expected) in [
        ("", "`loss m` is empty".to_string(), METRES.to_string()),
        (".71", no_number(".71", ": no digit stands before its point"), METRES.to_string()),
        ("1.", no_number("1.", ": no digit stands behind its point"), METRES.to_string()),
        ("1/2", no_number("1/2", ": a fraction stands in it"), METRES.to_string()),
        ("-", no_number("-", ""), METRES.to_string()),
        (
            "4.259.775",
            no_number("4.259.775", ": it has more than one point, and nothing stands between thousands"),
            METRES.to_string(),
        ),
        ("0.71 m", no_number("0.71 m", ": more than the number stands in it"), alone.clone()),
        ("0.71m", no_number("0.71m", ": more than the number stands in it"), alone),
        (
            "1 000",
            no_number("1 000", ": a blank stands in it"),
            format!("nothing between digits; write 1000 if that is meant; {METRES}"),
        ),
        (
            "1e2",
            no_number("1e2", ": it has a power of ten"),
            format!("the number written out, as 0.04 for 4E-2; {METRES}"),
        ),
        ("0.035", too_fine("0.035"), format!("{METRES}; 0.04 is the next that states no less loss")),
        ("0.001", too_fine("0.001"), format!("{METRES}; 0.01 is the next that states no less loss")),
        ("0.7101", too_fine("0.7101"), format!("{METRES}; 0.72 is the next that states no less loss")),
        (
            "1.995",
            "`1.995` for `loss m` may be 1.995 or 1995".to_string(),
            "fewer decimals, and nothing between thousands; 2.00 is the next that states no less loss than 1.995"
                .to_string(),
        ),
        (
            "1.230",
            "`1.230` for `loss m` may be 1.23 or 1230".to_string(),
            "fewer decimals, and nothing between thousands".to_string(),
        ),
        ("42949672.96", "`loss m` 42949672.96 is 0.01 more than its bytes can hold".to_string(), METRES.to_string()),
    ] {
        let mistake = of_metres(loss);
        assert_eq!((mistake.wrong, mistake.expected), (wrong, expected), "{loss}");
    }
    for (loss, expected) in [
        ("-0.71", "the number alone, 0.00 to 42597.75 m"),
        (
            "0,71",
            "a point before decimals and nothing between thousands, for example 0.04; cells are parted by semicolons",
        ),
        ("0.710", "0.00 to 42597.75 m; write 0.71 if that is meant"),
        ("9999999999999", "0.00 to 42597.75 m"),
    ] {
        let mistake = of_metres(loss);
        assert!(mistake.expected.starts_with(expected), "{mistake}");
    }
}

/// In whole cm the unit stands behind the next greater, and a power of ten is written out in cm too.
#[test]
fn a_loss_in_centimetres_is_rounded_up_in_words_alone() {
    let of_cm = |loss: &str| lists::only(losses::pack, "section,loss cm", &format!("1,{loss}")).expected;
    assert_eq!(of_cm("133.5"), "a whole number of cm, 0 to 4259775; 134 cm is the next that states no less loss");
    assert_eq!(of_cm("133.0"), "a whole number of cm, 0 to 4259775; write 133 if that is meant");
    assert_eq!(of_cm("7e1"), "the number written out, as 71 for 7.1E1; a whole number of cm, 0 to 4259775");
    assert_eq!(losses::pack("section,loss m\n1,0.04\n2,2.00\n"), Ok([4_u32, 200].map(u32::to_be_bytes).concat()));
}

/// What a nearly right header is told, and by which words of the command.
fn of_header(header: &str) -> Vec<String> {
    let text = format!("{header}\n1,71\n");
    let found = losses::pack(&text).expect_err(header);
    assert!(found.list.iter().all(|mistake| line(mistake) == Some(1)), "{found}");
    let told = found.to_string().replace("line 1: ", "office: standard input line 1: ");
    for words in [&["pack", "-"][..], &["heads", OWN, "-"]] {
        let ran = office_with(words, text.as_bytes());
        assert_eq!((ran.status, ran.error), (2, told.clone()), "{words:?} {header}");
    }
    found.list.into_iter().map(|mistake| mistake.wrong).collect()
}

#[test]
fn a_nearly_right_header_is_told_its_word_or_its_sign() {
    let no = |cell: &str, rest: &str| format!("`{cell}` is no column of a list of losses{rest}");
    let parts = |sign: &str| vec![format!("{sign} not part the columns; commas, semicolons or tabs do")];
    for (header, wrong) in [
        ("sections,losses cm", vec![no("sections", "; `section` is"), no("losses cm", "; `loss cm` is")]),
        ("sections,losses cm,notes", vec![no("sections", "; `section` is"), no("losses cm", "; `loss cm` is")]),
        ("section,losses m", vec![no("losses m", "; `loss m` is")]),
        ("section,losses", vec![no("losses", "; `loss cm` is")]),
        ("section,head loss (m)", vec![no("head loss (m)", "; `loss m` is")]),
        ("section,headloss cm", vec![no("headloss cm", "; `loss cm` is")]),
        ("no,loss cm", vec![no("no", ""), "the header has no column `section`".to_string()]),
        ("loss cm,notes", vec!["the header has no column `section`".to_string()]),
        ("section|loss cm", parts("`|` does")),
        ("section | loss cm", parts("`|` does")),
        ("section: loss cm", parts("`:` does")),
        ("section/loss cm", parts("`/` does")),
        ("section loss cm", parts("blanks do")),
        ("section  length  loss", parts("blanks do")),
        (
            "section,loss cm,loss m",
            vec!["the column `loss cm` is there twice: both units are there, cm and m".to_string()],
        ),
        ("section,loss cm,loss (cm)", vec!["the column `loss cm` is there twice".to_string()]),
    ] {
        assert_eq!(of_header(header), wrong, "{header}");
    }
}

/// 100,000 Pa over 1000 kg/m3 and 9.81 m/s2 are 10.1937 m, 1019.4 cm, and 1 kPa is a hundredth of it.
#[test]
fn a_pressure_is_told_as_a_head() {
    let cm = |pascal: f64| pascal / (1000.0 * 9.81) * 100.0;
    assert!(cm(100_000.0) <= 1020.0 && cm(100_000.0) > 1019.0 && cm(1000.0) <= 10.2 && cm(1000.0) > 10.1);
    let heads = "the loss is in cm or m; 1 bar = 1020 cm, 1 kPa = 10.2 cm, 1 m of water = 1 m";
    for unit in ["kPa", "bar", "(mbar)", "mWC", "m WC", "m w.c", "[MPa]", "м вод. ст."] {
        let [wrong] = &of_header(&format!("section,loss {unit}"))[..] else { panic!("{unit}: one mistake") };
        assert!(wrong.contains(heads), "{wrong}");
    }
    let [wrong] = &of_header("section,loss mm")[..] else { panic!("one mistake") };
    assert!(wrong.ends_with(": the loss is in cm or m"), "{wrong}");
    // In a table they say nothing: its slopes are no heads.
    let of_table =
        lists::first(table::pack, "size,bore mm,price,flow ml/s,velocity mm/s,slope kPa\n1,40,900,1000,800,40\n");
    assert!(of_table.wrong.ends_with("the slope is in mm/m"), "{of_table}");
}

/// A text that is a house to its author is not told of a list's columns, nor is a table.
#[test]
fn a_word_on_losses_makes_no_list() {
    let house = read(OWN);
    for (text, wrong) in [
        (format!("Losses, as of May\n{house}"), "begins no line of a house"),
        ("meter loss, cm\n".to_string(), "`meter` begins no line of a house"),
        ("local losses;\n".to_string(), "`local losses"),
        ("loss 71\n".to_string(), "begins no line of a house"),
        ("size,bore mm,loss mm/m\n1,2,3\n".to_string(), "is no column of a table"),
        ("type,loss m,service flow l/h\nvane,1,2\n".to_string(), "is no column of a list of meters"),
    ] {
        let ran = office_with(&["pack", "-"], text.as_bytes());
        assert!(ran.status == 2 && ran.error.contains(wrong), "{text}{}", ran.error);
        assert!(!ran.error.contains("of a list of losses"), "{text}{}", ran.error);
    }
}

/// The record of losses in another file's place is named as what it is.
#[test]
fn a_record_of_losses_in_another_place_is_named() {
    let job = house::pack(&read(OWN)).expect("a house");
    for count in [1_u32, 2, 5, 12, 63] {
        let list: Vec<u8> = (1..=count).flat_map(|loss| (loss * 71).to_be_bytes()).collect();
        let of_table = calls::rate(&job, &list, &[1]).expect_err("no catalogue");
        let found = places(&of_table, &Asked { job: &job, cat: &list, sizes: &[1], ..Asked::default() });
        assert_eq!((found.len(), found[0].at), (1, At::Catalogue), "{found:?}");
        assert_eq!(found[0].why, "these bytes are a list of losses; a catalogue is expected");
        let of_meters = calls::meter(&job, &list).expect_err("no meters");
        let found = places(&of_meters, &Asked { job: &job, meters: &list, ..Asked::default() });
        assert_eq!((found.len(), found[0].at), (1, At::Meters), "{found:?}");
        assert_eq!(found[0].why, "these bytes are a list of losses; a list of meters is expected");
    }
    // What states its own length is no list of losses.
    let cat = table::pack(&read("examples/own-case.csv")).expect("a table");
    let found = places(
        &calls::meter(&job, &cat).expect_err("no meters"),
        &Asked { job: &job, meters: &cat, ..Asked::default() },
    );
    assert!(found[0].why.starts_with("these bytes have the length of a catalogue"), "{found:?}");
}
