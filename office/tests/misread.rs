//! Texts that could mean something else to the command than to their author: refused, or read as the one thing they can be.

#[path = "tools/run.rs"]
mod run;

use office::mistake::{Mistake, Mistakes};
use office::{house, table};
use run::{office, office_with, read, scratch};

const HOUSE: &str = "examples/house.txt";
const TABLE: &str = "examples/table.csv";

const OWN: &str = "local losses 0.3\nhours 24\nmeter loss 50 cm\nguaranteed head 500 cm\ndelivered head 1200 cm\n\
    velocity limit 1500 mm/s\nresidents dwelling 84\n\
    section 1 from pump length 10 m elevation 600 cm kind dwelling fixtures 80 free 200 cm\n";
const SIZES: &str = "size,bore mm,price,flow ml/s,velocity mm/s,slope mm/m\n1,40,900,1000,800,40\n1,40,900,3000,2400,300\n\
    2,50,1300,1000,500,12\n2,50,1300,3000,1500,90\n";

fn put(text: &str, from: &str, to: &str) -> String {
    assert!(text.contains(from), "{from}");
    text.replacen(from, to, 1)
}

fn only(mistakes: Mistakes) -> Mistake {
    assert_eq!((mistakes.list.len(), mistakes.more), (1, 0), "{mistakes}");
    mistakes.list.into_iter().next().expect("one")
}

/// What is put for what, and what the message has.
type Slip = (&'static str, &'static str, &'static str);

#[test]
fn a_point_in_a_whole_number_is_refused_in_a_house() {
    let cases: [Slip; 24] = [
        ("dwelling 84", "dwelling 1.000", "`1.000` for `residents dwelling` has a point: it may be 1 or 1000"),
        ("fixtures 80", "fixtures 2.000", "may be 2 or 2000"),
        ("delivered head 1200 cm", "delivered head 3.000 cm", "may be 3 or 3000"),
        ("velocity limit 1500 mm/s", "velocity limit 2.000 mm/s", "may be 2 or 2000"),
        ("elevation 600 cm", "elevation 1.000 cm", "may be 1 or 1000"),
        ("elevation 600 cm", "elevation -1.000 cm", "may be -1 or -1000"),
        ("free 200 cm", "free 2.000cm", "may be 2 or 2000"),
        ("length 10 m", "length 1.000 dm", "may be 1 or 1000"),
        ("length 10 m", "length 1.000 m", "`1.000` for `length` may be 1 or 1000"),
        ("length 10 m", "length 12.500 m", "may be 12.5 or 12500"),
        ("elevation 600 cm", "elevation 6.000 m", "may be 6 or 6000"),
        // No thousand begins with 0.
        (
            "local losses 0.3",
            "local losses 0.300",
            "`0.300` for `local losses` has more decimals than the record keeps",
        ),
        ("meter loss 50 cm", "meter loss 0.505 m", "`0.505` for `meter loss` is finer than the record keeps"),
        ("elevation 600 cm", "elevation -0.500 m", "has more decimals than the record keeps"),
        ("meter loss 50 cm", "meter loss 0.505 cm", "`0.505` for `meter loss` is finer than the record keeps"),
        ("hours 24", "hours 0.000", "`0.000` for `hours` has a point"),
        ("hours 24", "hours 24#x", "`#` stands within a word"),
        ("dwelling 84", "dwelling 84.0", "`84.0` for `residents dwelling` has a point"),
        ("hours 24", "hours 24.0", "has a point"),
        ("dwelling 84", "dwelling +84", "`+84` for `residents dwelling` has a sign"),
        ("free 200 cm", "free -200 cm", "has a sign"),
        ("length 10 m", "length .5 m", "`.5` is no number for `length`"),
        ("length 10 m", "length 5. m", "`5.` is no number for `length`"),
        ("dwelling 84", "dwelling 8#4", "`#` stands within a word"),
    ];
    for (from, to, wrong) in cases {
        let mistake = only(house::pack(&put(OWN, from, to)).expect_err(to));
        assert!(mistake.wrong.contains(wrong), "{to}: {mistake}");
        let ran = office_with(&["flow", "-"], put(OWN, from, to).as_bytes());
        assert_eq!((ran.status, ran.output.len()), (2, 0), "{to}");
    }
    for (from, to) in [
        ("length 10 m", "length 10.00 m"),
        ("length 10 m", "length 100 dm"),
        ("elevation 600 cm", "elevation +6.00 m"),
        ("1500 mm/s", "1.500 m/s"),
        ("local losses 0.3", "local losses 0.30"),
    ] {
        assert_eq!(house::pack(&put(OWN, from, to)), house::pack(OWN), "{to}");
    }
}

#[test]
fn a_table_has_the_same_rule() {
    let cases: [Slip; 9] = [
        ("1,40,900,1000", "1,40,1.000,1000", "`1.000` for `price` has a point: it may be 1 or 1000"),
        ("1,40,900,1000", "1,40,900.00,1000", "`900.00` for `price` has a point"),
        ("1,40,900,1000", "1,84.0,900,1000", "`84.0` for `bore mm` has a point"),
        ("1,40,900,1000", "1,+84,900,1000", "`+84` for `bore mm` has a sign"),
        ("1,40,900,1000", "1,40,900,-5", "has a sign"),
        ("1,40,900,1000", "1.0,40,900,1000", "`1.0` for `size` has a point"),
        ("1,40,900,1000", "1,40,900,1.5", "finer than the record keeps"),
        ("1,40,900,1000", "1,40,900,1 000", "`1 000` is no number for `flow ml/s`"),
        ("1,40,900,1000", "1,40,900,10#0", "`#` stands within a word"),
    ];
    for (from, to, wrong) in cases {
        let mistakes = table::pack(&put(SIZES, from, to)).expect_err(to);
        assert!(mistakes.list[0].wrong.contains(wrong), "{to}: {mistakes}");
    }
    let advice = table::pack(&put(SIZES, "900,1000", "310.00,1000")).expect_err("a price");
    assert!(advice.list[0].expected.contains("write 310 if that is meant"), "{advice}");
}

#[test]
fn what_can_mean_one_thing_is_taken_in_a_house() {
    let plain = house::pack(OWN).expect("a house");
    for (from, to) in [
        ("hours 24", "hours: 24"),
        ("hours 24", "hours : 24"),
        ("hours 24", "hours:24"),
        ("hours 24", "hours 24;"),
        ("hours 24", "hours\t24"),
        ("meter loss 50 cm", "meter loss: 50 cm;"),
        ("residents dwelling 84", "residents dwelling: 84"),
        ("section 1 from pump length", "section 1: from: pump; length:"),
        ("meter loss 50 cm", "meter loss 50 см"),
        ("delivered head 1200 cm", "delivered head 12 м"),
        ("length 10 m", "length 100дм"),
        ("1500 mm/s", "1500 мм/с"),
        ("1500 mm/s", "1.5 М/С"),
    ] {
        assert_eq!(house::pack(&put(OWN, from, to)).as_ref(), Ok(&plain), "{to}");
    }
    let refused: [Slip; 19] = [
        ("hours 24", ";hours 24", "`;hours` begins no line of a house"),
        ("hours 24", "hours 24 ; all day", "`;` is one word too many"),
        ("hours 24", "hours 24:", "`hours` has no unit, but `:` is given"),
        ("hours 24", "hours: : 24", "`:` is no number for `hours`"),
        ("hours 24", "hours 24:00", "`hours` has no unit, but `:00` is given"),
        ("hours 24", "hours = 24", "`=` is no number for `hours`"),
        ("dwelling 84", "dwelling 1 000", "a blank stands within the number of `residents dwelling`, `1 000`"),
        ("dwelling 84", "dwelling 1\u{a0}000", "a blank stands within the number of `residents dwelling`, `1 000`"),
        (
            "delivered head 1200 cm",
            "delivered head 1 000 cm",
            "a blank stands within the number of `delivered head`, `1 000`",
        ),
        ("elevation 600 cm", "elevation - 50 cm", "a blank stands within the number of `elevation`, `- 50`"),
        ("elevation 600 cm", "elevation + 50cm", "a blank stands within the number of `elevation`, `+ 50`"),
        ("fixtures 80", "fixtures 1 000", "a blank stands within the number of `fixtures`, `1 000`"),
        ("hours 24", "hours 24 h", "`hours` has no unit, but `h` is given"),
        ("hours 24", "hours 24h", "`hours` has no unit, but `h` is given"),
        ("fixtures 80", "fixtures 80 taps", "`fixtures` has no unit, but `taps` is given"),
        ("fixtures 80 free", "fixtures 80 fre", "`fre` is no field of a section"),
        ("hours 24", "hours 24 all day", "`all` is one word too many"),
        ("length 10 m", "length 1;5 m", "`;5` is no unit of `length`"),
        ("from pump", "from pump,", "`from pump,` names no section"),
    ];
    for (from, to, wrong) in refused {
        let mistakes = house::pack(&put(OWN, from, to)).expect_err(to);
        assert!(mistakes.list[0].wrong.contains(wrong), "{to}: {mistakes}");
    }
}

#[test]
fn what_can_mean_one_thing_is_taken_in_a_table() {
    let plain = table::pack(SIZES).expect("a table");
    let rows = SIZES.split_once('\n').expect("a header").1;
    let notes: String = SIZES
        .lines()
        .enumerate()
        .map(|(at, line)| format!("{line},{}\n", if at == 0 { "Notes" } else { "steel, no" }))
        .collect();
    let notes = notes.replace("steel, no", "\"steel, 1.000 kg\"");
    let texts = [
        SIZES.replace(',', "\t"),
        format!("sep=;\n{}", SIZES.replace(',', ";")),
        format!("sep=,\n{SIZES}"),
        format!("sep=\t\r\n{}", SIZES.replace(',', "\t")),
        format!("size,bore (mm),price,flow [ml/s],velocity (mm/s),slope (mm/m)\n{rows}"),
        format!("size;\"bore, mm\";price;flow, ml/s;velocity mm/s;slope mm/m\n{}", rows.replace(',', ";")),
        format!("size,bore мм,price,flow мл/с,velocity мм/с,slope мм/м\n{rows}"),
        put(SIZES, "1,40,900,3000", ",,,3000"),
        put(&put(SIZES, "1,40,900,3000", ",40,900,3000"), "2,50,1300,3000", ",,,3000"),
        notes,
        SIZES.replace('\n', "\r"),
    ];
    for text in texts {
        assert!(table::is_table(&text), "{text}");
        let ran = office_with(&["pack", "-"], text.as_bytes());
        assert_eq!((ran.status, ran.output), (0, plain.clone()), "{text}{}", ran.error);
    }
}

#[test]
fn what_can_mean_two_things_is_named_in_a_table() {
    let refused: [Slip; 12] = [
        ("size,bore mm", "sep=|\nsize,bore mm", "`sep=` names no separator of a table"),
        ("bore mm", "bore", "`bore` is no column of a table: its unit, mm, is missing"),
        ("flow ml/s", "flow l/s", "`flow l/s` is no column of a table: the flow is in ml/s"),
        ("flow ml/s", "flow (l/s)", "the flow is in ml/s"),
        ("slope mm/m", "slope mm/m,maker", "`maker` is no column of a table"),
        ("1,40,900,1000,800,40", "1,40,900,1000,800,40,steel", "`steel` stands under no column"),
        ("1,40,900,1000", ",40,900,1000", "`size` is empty"),
        ("1,40,900,3000", ",41,900,3000", "size 1 has another bore mm here than on line 2"),
        ("1,40,900,3000", ",40,901,3000", "size 1 has another price here than on line 2"),
        ("size,bore mm", "version,1\nversion,1\nsize,bore mm", "`version` is given twice"),
        ("1,40,900,1000", "1,40 mm,900,1000", "`40 mm` is no number for `bore mm`"),
        ("1,40,900,1000", "1,40,900 ₽,1000", "`900 ₽` is no number for `price`"),
    ];
    for (from, to, wrong) in refused {
        let mistakes = table::pack(&put(SIZES, from, to)).expect_err(to);
        assert!(mistakes.list.iter().any(|mistake| mistake.wrong.contains(wrong)), "{to}: {mistakes}");
    }
    // The header is parted by one of the three, and a line that is parted otherwise does not fit it.
    let mixed = table::pack(&put(&SIZES.replace(',', "\t"), "1\t40\t900", "1,40,900")).expect_err("commas");
    assert!(mixed.list[0].expected.contains("cells are parted by tabs"), "{mixed}");
    let tabs = put(&SIZES.replace(',', "\t"), "bore mm", "bore");
    assert!(office_with(&["pack", "-"], tabs.as_bytes()).error.contains("its unit, mm, is missing"));
    for house in ["version\t1\n", "stated length\t48\tbytes\n", "Hours\t24\t\t\n"] {
        assert!(!table::is_table(&format!("{house}{OWN}")), "{house}");
    }
    // A house that begins with commas is no table.
    let house = "section 1 from pump, length 10 m, elevation 0 cm, kind none\n";
    assert!(!table::is_table(house) && !table::is_table("residents offices, 4, 5, 6\n"));
    assert!(office_with(&["flow", "-"], house.as_bytes()).error.contains("`from pump,` names no section"));
}

#[test]
fn letters_of_another_alphabet_are_named() {
    let refused: [Slip; 4] = [
        ("free 200 cm", "free 200 \u{441}m", "U+0441, a Cyrillic letter that looks like c"),
        ("hours 24", "h\u{43e}urs 24", "U+043E, a Cyrillic letter that looks like o"),
        ("hours 24", "часы 24", "it has Cyrillic letters; the words of the format are English"),
        ("dwelling 84", "dwelling 8\u{200b}4", "U+200B in it can't be seen"),
    ];
    for (from, to, wrong) in refused {
        let mistakes = house::pack(&put(OWN, from, to)).expect_err(to);
        assert!(mistakes.list[0].wrong.contains(wrong), "{to}: {mistakes}");
    }
}

/// What a terminal would obey is written out, in lines, words and names.
#[test]
fn what_is_repeated_is_escaped() {
    for bad in ["\u{9b}31m", "\u{202e}42", "\u{2066}x"] {
        let house = put(OWN, "hours 24", &format!("hours {bad}"));
        let ran = office_with(&["flow", "-"], house.as_bytes());
        assert_eq!(ran.status, 2);
        assert!(!ran.error.contains(bad) && ran.error.contains("\\u{"), "{}", ran.error);
        let json = office_with(&["flow", "-", "--json"], house.as_bytes());
        assert!(!json.text().contains(bad), "{}", json.text());
    }
    let controls = office_with(&["flow", "-"], put(OWN, "hours 24", "hours \u{1b}[31m24").as_bytes());
    assert!(
        controls.error.contains("byte 7 of the line, 1B") && !controls.error.contains('\u{1b}'),
        "{}",
        controls.error
    );
    for words in [&["\u{1b}]0;x\u{7}"][..], &["--\u{202e}"], &["flow", "no\u{1b}[2J\nsuch"], &["soak", "\u{9b}1"]] {
        let ran = office(words);
        assert_eq!(ran.status, 2);
        assert!(!ran.error.trim_end_matches('\n').chars().any(|c| c.is_control() && c != '\n'), "{words:?}");
        assert!(!ran.error.contains('\u{202e}') && !ran.error.contains("\nsuch"), "{words:?}: {}", ran.error);
    }
}

#[test]
fn all_mistakes_come_at_once_in_the_order_of_lines() {
    let commas = read(HOUSE).replace('.', ",");
    let mistakes = house::pack(&commas).expect_err("decimal commas");
    let lines: Vec<usize> = mistakes.list.iter().filter_map(|mistake| mistake.line.as_ref()).map(|(n, _)| *n).collect();
    assert_eq!((lines.len(), mistakes.more), (13, 0), "the losses and twelve lengths: {mistakes}");
    assert!(lines.is_sorted());
    // Two mistakes of one line are both there, and one line's mistake hides no other line's.
    let two = put(&put(OWN, "length 10 m elevation 600 cm", "length 10,5 m elevation 6,5 m"), "hours 24", "hours");
    let wrong: Vec<String> = house::pack(&two).expect_err("three").list.into_iter().map(|m| m.wrong).collect();
    assert_eq!(
        wrong,
        ["`hours` has no number", "`10,5` for `length` has a comma", "`6,5` for `elevation` has a comma"]
    );
    let many: String = OWN.to_string() + &"hours 24\n".repeat(30);
    let mistakes = house::pack(&many).expect_err("thirty");
    assert_eq!((mistakes.list.len(), mistakes.more), (20, 10));
    let ran = office_with(&["flow", "-"], many.as_bytes());
    assert!(ran.error.ends_with("office: standard input has 10 more mistakes\n"), "{}", ran.error);
    let table = SIZES.replace("900", "9,00").replace(',', ";").replace("9;00", "9,00").replace("1500", "15x");
    let mistakes = table::pack(&table).expect_err("three cells");
    assert_eq!(mistakes.list.len(), 3, "{mistakes}");
    // A header whose columns can be told hides no row's mistake, one that lacks a column does.
    let both = put(&put(SIZES, "bore mm", "bore"), "1,40,900,3000", "1,40,900,3.0");
    let wrong: Vec<String> = table::pack(&both).expect_err("two").list.into_iter().map(|m| m.wrong).collect();
    assert!(wrong.len() == 2 && wrong[0].contains("its unit, mm") && wrong[1].contains("`3.0`"), "{wrong:?}");
    let alone = put(&put(SIZES, "bore mm,", ""), "1,40,900,3000", "1,40,900,3.0");
    assert_eq!(table::pack(&alone).expect_err("one").list.len(), 1);
    let missing = house::pack("residents dwelling 1\n").expect_err("six lines");
    assert_eq!(missing.list.len(), 6, "{missing}");
}

/// What follows from a mistake is no mistake of its own.
#[test]
fn a_mistake_is_named_once() {
    // Without a bore on the first line there is nothing that the next could differ from.
    for (from, to, wrong) in [
        ("1,40,900,1000", "1,,900,1000", "`bore mm` is empty"),
        ("1,40,900,1000", "1,40,,1000", "`price` is empty"),
        ("1,40,900,1000", "1,4O,900,1000", "`4o` is no number for `bore mm`"),
    ] {
        let mistake = only(table::pack(&put(SIZES, from, to)).expect_err(to));
        assert_eq!((mistake.wrong.as_str(), mistake.line.map(|(line, _)| line)), (wrong, Some(2)), "{to}");
    }
    let both = put(&put(SIZES, "1,40,900,1000", "1,,900,1000"), "1,40,900,3000", "1,4.0,901,3000");
    assert_eq!(table::pack(&both).expect_err("three").list.len(), 3);
    // A line with a doubtful # is there all the same.
    let second = "section 2 from 1 length 3 m elevation 900 cm kind dwelling fixtures 8 free 200 cm\n";
    for (from, to) in [("free 200 cm", "free 200 cm#x"), ("section 1 from", "section 1#x from"), ("50 cm", "50 cm#x")] {
        let mistake = only(house::pack(&(put(OWN, from, to) + second)).expect_err(to));
        assert!(mistake.wrong.contains("`#` stands within a word"), "{to}: {mistake}");
    }
    for text in ["\n", "# hours 24\n\n"] {
        let mistake = only(house::pack(text).expect_err(text));
        assert!(mistake.expected.contains("`office new house` gives one to start from"), "{mistake}");
    }
}

/// A message promises nothing that the library refuses.
#[test]
fn what_is_expected_is_what_the_library_takes() {
    for (from, to, expected) in [
        ("hours 24", "hours 300", "1 to 24"),
        ("meter loss 50 cm", "meter loss 70000 cm", "0 to 1000 cm"),
        ("delivered head 1200 cm", "delivered head 70000 cm", "0 to 6000 cm"),
        ("free 200 cm", "free 70000 cm", "0 to 1000 cm"),
        ("velocity limit 1500 mm/s", "velocity limit 70 m/s", "1 to 3000 mm/s"),
        ("length 10 m", "length 7000 m", "0.1 to 500.0 m"),
        ("section 1 ", "section 0 ", "a number from 1 to 63"),
    ] {
        let mistakes = house::pack(&put(OWN, from, to)).expect_err(to);
        assert_eq!(mistakes.list[0].expected, expected, "{to}: {mistakes}");
    }
}

/// A text in UTF-16.
fn wide(text: &str, big: bool, mark: bool) -> Vec<u8> {
    let units = mark.then_some(0xfeff).into_iter().chain(text.encode_utf16());
    units.flat_map(|unit| if big { unit.to_be_bytes() } else { unit.to_le_bytes() }).collect()
}

#[test]
fn texts_as_other_programs_save_them_are_read() {
    let house = read(HOUSE);
    let packed = house::pack(&house).expect("a house");
    let taken = [
        house.replace('\n', "\r").into_bytes(),
        house.replace('\n', "\r\n").into_bytes(),
        [house.as_bytes(), b"\x1a"].concat(),
        wide(&house, true, true),
        wide(&house, false, true),
        [b"# \x8d\xe3\xea\xf3\xf5\xed\xff\x00\x1b\xff\n", house.as_bytes()].concat(),
    ];
    for bytes in taken {
        let ran = office_with(&["pack", "-"], &bytes);
        assert_eq!((ran.status, &ran.output), (0, &packed), "{}", ran.error);
    }
}

#[test]
fn what_is_no_text_is_refused_by_line_and_byte() {
    let house = read(HOUSE);
    let put_bytes = |bytes: &[u8]| {
        let (front, rest) = OWN.split_once("50 cm").expect("a head");
        [front.as_bytes(), b"50 ", bytes, rest.as_bytes()].concat()
    };
    let lone = house.replacen("\nhours", "\rhours", 1);
    // The first two are the unit in cp1251 and in cp866.
    let refused: [(Vec<u8>, &str, &str); 7] = [
        (put_bytes(b"\xf1\xec"), "line 3: meter loss 50", "byte 15 of the line, F1, is no UTF-8"),
        (put_bytes(b"\xe1\xac"), "line 3: meter loss 50", "byte 15 of the line, E1, is no UTF-8"),
        (put_bytes(b"cm\0"), "line 3: meter loss 50 cm", "byte 17 of the line, 00, is no letter"),
        (put_bytes(b"cm\x1a"), "line 3: meter loss 50 cm", "byte 17 of the line, 1A, is no letter"),
        (wide(&house, true, false), "line 1: ", "UTF-16 without its mark"),
        (wide(&house, false, false), "line 1: ", "UTF-16 without its mark"),
        (lone.into_bytes(), "line 4: local losses", "a carriage return alone"),
    ];
    for (bytes, line, wrong) in refused {
        for command in ["pack", "flow"] {
            let ran = office_with(&[command, "-"], &bytes);
            assert_eq!((ran.status, ran.output.len()), (2, 0), "{wrong}");
            assert!(ran.error.contains(line) && ran.error.contains(wrong), "{}", ran.error);
        }
    }
}

#[test]
fn a_text_is_never_a_record() {
    // 50 bytes whose byte 6 is 1 have a job record's length; as text they are text.
    let mut text = vec![b' '; 50];
    text[6] = 1;
    for command in ["flow", "pack"] {
        assert!(office_with(&[command, "-"], &text).error.contains("byte 7 of the line, 01"), "{command}");
    }
    let shown = office_with(&["show", "-"], &text);
    assert!(shown.status == 2 && shown.error.contains("readable already"), "{}", shown.error);
    assert_eq!(office_with(&["show", "--record", "-"], &text).status, 1);
    let wide: Vec<u8> = OWN.encode_utf16().flat_map(u16::to_be_bytes).collect();
    let shown = office_with(&["show", "-"], &wide);
    assert!(shown.status == 2 && shown.error.contains("saved as UTF-8, `office pack` packs it"), "{}", shown.error);
    let record = office(&["pack", HOUSE]).output;
    let packed = office_with(&["pack", "-"], &record);
    assert!(packed.status == 2 && packed.error.contains("`office show` shows a record"), "{}", packed.error);
    let forced = office_with(&["flow", "--text", "-"], &record);
    assert!(forced.status == 2 && forced.error.contains("byte 1 of the line, 00"), "{}", forced.error);
    for (words, why) in [
        (&["pack", "-", "--record"][..], "`pack` has no option --record"),
        (&["show", "-", "--text"], "`show` has no option --text"),
        (&["flow", "--record", "--text", "-"], "stand before a file each"),
        (&["help", "--text"], "`help` has no option --text"),
        (&["choose", HOUSE, TABLE, "--text"], "stands before the file"),
    ] {
        let ran = office_with(words, &record);
        assert!(ran.status == 2 && ran.error.contains(why), "{words:?}: {}", ran.error);
    }
}

#[test]
fn a_file_of_one_newline_is_not_size_10() {
    let file = scratch("newline.sizes");
    let word = format!("@{file}");
    for blank in [&b"\n"[..], b"\r\n", b"\t", b"\n\n\x0c", b" "] {
        std::fs::write(&file, blank).expect("written");
        let ran = office(&["rate", HOUSE, TABLE, &word]);
        assert!(ran.status == 2 && ran.error.contains("has no size number; `--record` takes"), "{}", ran.error);
    }
    std::fs::write(&file, b"\n").expect("written");
    let forced = office(&["rate", HOUSE, TABLE, "--record", &word]);
    assert!(forced.text().starts_with("refused 12: ") && forced.text().contains("given: 1;"), "{}", forced.text());
    std::fs::write(&file, b"6,6 # wide\n6 6 6 6\t6,6,6,6,6,6\n").expect("written");
    assert_eq!(office(&["rate", HOUSE, TABLE, &word]).status, 0);
    std::fs::write(&file, [6; 12]).expect("written");
    assert_eq!(office(&["rate", HOUSE, TABLE, &word]).status, 0);
    for (text, why) in
        [("6,+6", "`+6` is no size number"), ("6,6.0", "`6.0`"), ("6;6", "`6;6`"), ("6#6", "within a word")]
    {
        std::fs::write(&file, text).expect("written");
        let ran = office(&["rate", HOUSE, TABLE, &word]);
        assert!(ran.status == 2 && ran.error.contains(why), "{text}: {}", ran.error);
    }
    assert_eq!(office(&["rate", HOUSE, TABLE, "6,6#6"]).status, 2);
}

#[test]
fn a_size_left_out_is_not_the_next_one() {
    let twelve = "6,6,6,6,6,6,6,6,6,6,6,6";
    for (sizes, comma) in [
        (format!(",{twelve}"), 1),
        (put(twelve, "6,6,", "6,,6,"), 2),
        (put(twelve, "6,6,", "6, ,6,"), 2),
        (put(twelve, "6,6,", "6,6,,"), 3),
        (format!("{twelve},,"), 13),
        (",".to_string(), 1),
    ] {
        let file = scratch("left-out.sizes");
        std::fs::write(&file, &sizes).expect("written");
        for word in [sizes, format!("@{file}")] {
            let ran = office(&["rate", HOUSE, TABLE, &word]);
            assert_eq!((ran.status, ran.output.len()), (2, 0), "{word}");
            assert!(ran.error.contains(&format!("before comma {comma} of ")), "{}", ran.error);
        }
    }
    for sizes in [format!("{twelve},"), put(twelve, "6,6,", "6 , 6 ,"), twelve.replace(',', " ")] {
        assert_eq!(office(&["rate", HOUSE, TABLE, &sizes]).status, 0, "{sizes}");
    }
}

#[test]
fn what_some_programs_show_as_a_line_is_no_comment() {
    let last = OWN.lines().last().expect("a section");
    for sign in ["\u{b}", "\u{c}", "\u{1c}", "\u{1d}", "\u{1e}", "\u{85}", "\u{2028}", "\u{2029}"] {
        let text = put(OWN, last, &format!("{last} # roof{sign}section 2 from 1 length 4 m elevation 0 cm kind none"));
        let ran = office_with(&["flow", "-"], text.as_bytes());
        assert_eq!((ran.status, ran.output.len()), (2, 0), "{sign:?}");
        assert!(ran.error.contains("show as a line of its own, `section 2 from 1"), "{sign:?}: {}", ran.error);
        let table = put(SIZES, "\n2,50", &format!(" # wide{sign} 2,50"));
        assert!(table::pack(&office::readable::text(table.as_bytes()).unwrap_or_default()).is_err(), "{sign:?}");
        let part = put(OWN, last, &format!("{last} # roof{sign}and attic"));
        assert_eq!(office_with(&["flow", "-"], part.as_bytes()).status, 0, "{sign:?}");
    }
}

#[test]
fn a_note_with_a_number_sign_hides_no_row() {
    let first = |header: &str, row: &str| {
        let line = |(at, line): (usize, &str)| match at {
            0 => format!("{header}{line}\n"),
            2 => format!("{row}{line}\n"),
            _ => format!("{}{line}\n", ",".repeat(header.matches(',').count())),
        };
        SIZES.lines().enumerate().map(line).collect::<String>()
    };
    let row = "it may be a row";
    for (header, row, wrong) in [
        ("notes,", "#4 steel,", row),
        ("notes,", " # steel,", row),
        ("Remarks,", "\"#4\",", "`#` begins a comment between quotation marks too"),
        (",note,", ",#4,", row),
    ] {
        let mistakes = table::pack(&first(header, row)).expect_err(row);
        let mistake = &mistakes.list[0];
        assert_eq!(mistake.line.as_ref().map(|(number, _)| *number), Some(3), "{row}: {mistakes}");
        assert!(mistake.wrong.contains(wrong), "{row}: {mistakes}");
    }
    let plain = table::pack(SIZES).expect("a table");
    let steel = first("notes,", "steel 4,");
    for text in
        [steel.clone(), put(&steel, "steel 4,", "# all of steel\nsteel 4,"), put(SIZES, "2,50", "#3,1,1,1\n2,50")]
    {
        assert_eq!(table::pack(&text).expect("a table"), plain, "{text}");
    }
}
