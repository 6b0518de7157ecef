//! Readable files: packing and showing are inverse, and each mistake is named with its line.

use office::catalogue::{self, Catalogue};
use office::mistake::{Mistake, Mistakes};
use office::record::{HEAD, Record, SECTION, length, sections_from};
use office::{calls, house, table};

/// A small generator of numbers: the tests need many values, the same in each run.
struct Dice(u64);

impl Dice {
    fn next(&mut self) -> u64 {
        self.0 ^= self.0 << 13;
        self.0 ^= self.0 >> 7;
        self.0 ^= self.0 << 17;
        self.0
    }

    fn below(&mut self, bound: u64) -> usize {
        (self.next() % bound) as usize
    }

    fn bytes(&mut self, count: usize) -> Vec<u8> {
        (0..count).map(|_| self.next() as u8).collect()
    }
}

/// Any bytes of a version and of the length that it asks for.
fn of_version(dice: &mut Dice, version: u8, sections: u8) -> Vec<u8> {
    let mut bytes = dice.bytes(length(version, sections));
    (bytes[4], bytes[6]) = (version, sections);
    bytes
}

/// Any bytes of a job record's length, of version 1, 2 or any other; now and then with the length, the services and the zeros that
/// accepted records have.
fn record(dice: &mut Dice) -> Vec<u8> {
    let sections = if dice.below(4) == 0 { dice.below(256) } else { dice.below(8) };
    let any = dice.next() as u8;
    let version = [1, 2, any][dice.below(3)];
    let mut bytes = of_version(dice, version, sections as u8);
    if dice.below(2) == 0 {
        let length = bytes.len() as u32;
        bytes[..4].copy_from_slice(&length.to_be_bytes());
    }
    if version == 2 && dice.below(2) == 0 {
        bytes[HEAD] = dice.below(4) as u8;
    }
    if dice.below(2) == 0 {
        for _ in 0..bytes.len() / 2 {
            let at = 7 + dice.below(bytes.len() as u64 - 7);
            bytes[at] = 0;
        }
    }
    bytes
}

#[test]
fn every_record_of_its_length_comes_back() {
    let mut dice = Dice(0x2545_f491_4f6c_dd1d);
    for _ in 0..5_000 {
        let bytes = record(&mut dice);
        let text = house::show(&bytes).expect("the length is right");
        assert_eq!(house::pack(&text).as_ref(), Ok(&bytes), "{text}");
        let again = house::show(&house::pack(&text).expect("packed before")).expect("shown before");
        assert_eq!(again, text, "the shown text is canonical");
    }
}

#[test]
fn section_counts_from_none_to_all_that_the_byte_holds() {
    let mut dice = Dice(77);
    for sections in 0..=255 {
        for version in [1, 2, 3] {
            let bytes = of_version(&mut dice, version, sections);
            let text = house::show(&bytes).expect("the length is right");
            assert_eq!(house::pack(&text), Ok(bytes));
        }
    }
}

/// All versions and all services that their bytes hold: the same record comes back, and no line says what it would say without.
#[test]
fn every_version_and_every_service_comes_back() {
    let mut dice = Dice(4_040);
    for byte in 0..=255_u8 {
        let bytes = of_version(&mut dice, byte, 2);
        assert_eq!(bytes.len(), if byte == 2 { 61 } else { 60 });
        let text = house::show(&bytes).expect("the length is right");
        assert_eq!(text.contains("version "), ![1, 2].contains(&byte), "{text}");
        assert_eq!(text.contains("service "), byte == 2, "{text}");
        assert_eq!(house::pack(&text), Ok(bytes));
        let mut bytes = of_version(&mut dice, 2, 2);
        bytes[40] = byte;
        let text = house::show(&bytes).expect("the length is right");
        let service = ["total", "cold", "hot"].get(usize::from(byte)).map_or(byte.to_string(), |name| name.to_string());
        assert!(text.contains(&format!("service {service}\n")) && !text.contains("version "), "{text}");
        assert_eq!(house::pack(&text), Ok(bytes));
    }
}

/// Version 1 is 40 + 10 × S bytes and version 2 is 41 + 10 × S, and neither is shown in the other's length.
#[test]
fn a_version_has_its_own_length() {
    let mut dice = Dice(41);
    for (version, other) in [(1, 2), (2, 1), (3, 2), (0, 2)] {
        for sections in [0, 1, 63, 255] {
            let mut bytes = of_version(&mut dice, other, sections);
            bytes[4] = version;
            let asked = if version == 2 { 41 } else { 40 } + 10 * usize::from(sections);
            let said = house::show(&bytes).expect_err("of another version's length").to_string();
            let words = format!("{} bytes, but a job record with section count {sections} has {asked}", bytes.len());
            assert_eq!(said, words + if version == 2 { " in version 2" } else { "" });
        }
    }
    assert_eq!((sections_from(1), sections_from(2), SECTION), (40, 41, 10));
}

#[test]
fn every_catalogue_of_its_length_comes_back() {
    let mut dice = Dice(0x9e37_79b9_7f4a_7c15);
    for _ in 0..2_000 {
        let (sizes, rows) = (dice.below(14) as u8, dice.below(12) as u8);
        let mut bytes = dice.bytes(catalogue::length(sizes, rows));
        (bytes[5], bytes[6]) = (sizes, rows);
        if dice.below(2) == 0 {
            let length = bytes.len() as u32;
            bytes[..4].copy_from_slice(&length.to_be_bytes());
            bytes[4] = 1;
        }
        let text = table::show(&bytes).expect("the length is right");
        assert_eq!(table::pack(&text).as_ref(), Ok(&bytes), "{text}");
    }
}

#[test]
fn a_job_and_a_catalogue_never_have_the_same_length() {
    for (second, third) in (0..=255_u8).flat_map(|second| (0..=255_u8).map(move |third| (second, third))) {
        assert_ne!(length(1, third), catalogue::length(second, third));
        assert_ne!(length(2, third), catalogue::length(second, third));
    }
}

#[test]
fn other_bytes_are_no_record() {
    let mut dice = Dice(5);
    for length in [0, 6, 7, 39, 40, 41, 49, 60] {
        let mut bytes = dice.bytes(length);
        if let Some(count) = bytes.get_mut(6) {
            *count = 1;
        }
        let shown = house::show(&bytes).expect_err("no record of one section has this length").to_string();
        assert!(shown.starts_with(&format!("{length} bytes, but ")), "{shown}");
    }
    assert!(table::show(&[0; 6]).is_err());
    assert!(table::show(&[0, 0, 0, 8, 1, 0, 0, 9]).is_err());
    assert!(Record::read(&[]).is_err() && Catalogue::read(&[]).is_err());
}

const OWN: &str = "\
# document 01's own case
local losses 0.3
hours 24
meter loss 50 cm
guaranteed head 500 cm
delivered head 1200 cm
velocity limit 1500 mm/s
residents hotel-75 71
section 1 from pump kind hotel-75 fixtures 80 length 10 m elevation 600 cm free 200 cm
";

#[test]
fn the_own_case_is_document_01s() {
    let hex = "0000003201030118003201f404b005dc000000000000000000000000004700000000000000000000000700500064025800c8";
    let bytes = house::pack(OWN).expect("a house");
    assert_eq!(bytes.iter().map(|byte| format!("{byte:02x}")).collect::<String>(), hex);
    assert_eq!(calls::flow(&bytes).expect("accepted").flows, [2_052]);
}

/// The own case as a cold line, a hot one, and all water in version 2: the record of document 02, byte by byte.
#[test]
fn a_service_is_a_byte_before_the_sections() {
    let head = "03011800 3201f404b005dc0000000000000000000000000047 00000000000000000000".replace(' ', "");
    let section = "000700500064025800c8";
    for (service, byte) in [("total", "00"), ("cold", "01"), ("hot", "02"), ("3", "03"), ("255", "ff")] {
        let hex = format!("0000003302{head}{byte}{section}");
        let bytes = house::pack(&format!("service {service}\n{OWN}")).expect("a house");
        assert_eq!(bytes.iter().map(|byte| format!("{byte:02x}")).collect::<String>(), hex, "{service}");
        let shown = house::show(&bytes).expect("a record");
        assert!(shown.starts_with(&format!("service {service}\nlocal losses 0.3\n")), "{shown}");
        assert_eq!(house::pack(&shown), Ok(bytes));
    }
    let plain = house::show(&house::pack(OWN).expect("a house")).expect("a record");
    assert!(plain.starts_with("local losses 0.3\n"), "version 1 shows neither: {plain}");
}

/// The flows of the own case's lines, by hand from document 02. Hot: m is 25,000 × 150 × 71 / (9 × 20), 1,479,167 up, and α of it lies
/// between those of 1.4 and 1.5; the day is 150 × 71, the mean hour 10,650 / 24 up. Cold: the day is 100 × 71.
#[test]
fn a_line_has_its_own_norms() {
    let flow = |service: &str| {
        let job = house::pack(&format!("service {service}\n{OWN}")).expect("a house");
        calls::flow(&job).expect("accepted")
    };
    let own = calls::flow(&house::pack(OWN).expect("a house")).expect("accepted");
    assert_eq!(flow("total"), own);
    assert_eq!((own.day, own.mean_hour), (17_750, 740));
    assert_eq!((flow("hot").day, flow("hot").mean_hour), (10_650, 444));
    assert_eq!((flow("cold").day, flow("cold").mean_hour), (7_100, 296));
}

#[test]
fn what_is_forgiven() {
    let plain = house::pack(OWN).expect("a house");
    let mut lines: Vec<&str> = OWN.lines().collect();
    lines.reverse();
    assert_eq!(house::pack(&lines.join("\r\n")).as_ref(), Ok(&plain), "any order, other line ends");
    for (from, to) in [
        ("10 m", "10.0m"),
        ("10 m", "100 dm"),
        ("600 cm", "6 m"),
        ("600 cm", "+6.00 m"),
        ("1500 mm/s", "1.5 m/s"),
        ("from pump", "from 0"),
        ("kind hotel-75", "kind 7"),
        ("residents hotel-75", "Residents  HOTEL-75"),
        ("hours 24", "  hours 24   # all day"),
        ("hours 24", "version 1\nhours 24\nstated length 50 bytes"),
        ("hours 24", "service total\nversion 1\nhours 24"),
    ] {
        assert_eq!(house::pack(&OWN.replacen(from, to, 1)).as_ref(), Ok(&plain), "{to}");
    }
    let hot = house::pack(&format!("service hot\n{OWN}")).expect("a house");
    for line in ["Service: HOT", "  service\thot;  # the heater's", "version 2\nservice hot", "service hot\nversion 2"]
    {
        assert_eq!(
            house::pack(&OWN.replacen("hours 24", &format!("hours 24\n{line}"), 1)).as_ref(),
            Ok(&hot),
            "{line}"
        );
    }
}

/// The first mistake of all.
fn first(mistakes: Mistakes) -> Mistake {
    mistakes.list.into_iter().next().expect("a mistake")
}

/// The mistake that the own case gives with one text put for another.
fn mistake(from: &str, to: &str) -> Mistake {
    assert!(OWN.contains(from), "{from}");
    first(house::pack(&OWN.replacen(from, to, 1)).expect_err(to))
}

/// What is put for what, the line of the mistake, what is wrong and what is expected.
type Slip = (&'static str, &'static str, usize, &'static str, &'static str);

const SLIPS_OF_THE_HOUSE: &[Slip] = &[
    ("hours 24", "hors 24", 3, "`hors` begins no line", "hours"),
    ("hours 24", "hours", 3, "`hours` has no number", "`hours 24`"),
    ("hours 24", "hours many", 3, "`many` is no number", "`hours 24`"),
    ("hours 24", "hours 256", 3, "`hours 256` is not what", "1 to 24"),
    ("hours 24", "hours 24 all day", 3, "`all` is one word too many", "comments begin with #"),
    ("hours 24", "hours 24 h", 3, "`hours` has no unit, but `h` is given", "a number alone, for example `hours 24`"),
    ("hours 24", "hours 24h", 3, "`hours` has no unit", "`hours 24`"),
    ("hours 24", "hours 2.5", 3, "finer than", "a whole number, 1 to 24"),
    ("hours 24", "hours 24\nhours 24", 4, "`hours` is given twice", "the first is line 3"),
    ("local losses 0.3", "local losses 0.35", 2, "finer than", "whole number of tenths"),
    ("hours 24", "hours 1440min", 3, "`hours` has no unit, but `min` is given", "for example `hours 24`"),
    ("local losses 0.3", "local losses 20%", 2, "no unit, but `%` is given", "0.2 or 0.3"),
    ("local losses 0.3", "local losses 20 %", 2, "no unit, but `%` is given", "0.2 or 0.3"),
    ("local losses 0.3", "local losses 30", 2, "is not what", "0.2 or 0.3"),
    ("meter loss 50 cm", "meter loss 7", 4, "the unit of `meter loss 7` is missing", "example 50 cm or 0.5 m"),
    ("delivered head 1200 cm", "delivered head 12", 6, "is missing", "write a unit, for example 1200 cm or 12 m"),
    ("velocity limit 1500 mm/s", "velocity limit 1.5", 7, "is missing", "for example 1500 mm/s or 1.5 m/s"),
    ("meter loss 50 cm", "meter loss 50 bar", 4, "`bar` is no unit", "cm or m"),
    ("1200 cm", "1,200 cm", 6, "has a comma", "nothing between thousands"),
    ("hours 24", "hours 24\nservice", 4, "`service` names nothing", "`service total` (cold and hot together)"),
    ("hours 24", "hours 24\nservice warm", 4, "`warm` is no service", "`service cold` or `service hot`"),
    ("hours 24", "hours 24\nservice dhw", 4, "`dhw` is no service", "`service cold` or `service hot`"),
    ("hours 24", "hours 24\nservice both", 4, "`both` is no service", "(cold and hot together)"),
    (
        "hours 24",
        "hours 24\nservice cold and hot",
        4,
        "`and` is one word too many",
        "one service on its line: `service total`",
    ),
    ("hours 24", "hours 24\nservice cold hot", 4, "`hot` is one word too many", "(cold and hot together)"),
    ("hours 24", "hours 24\nservice hot water", 4, "`water` is one word too many", "`service hot`"),
    ("hours 24", "hours 24\nservice cold,hot", 4, "`cold,hot` is no service", "`service total`"),
    ("hours 24", "hours 24\nservice cold/hot", 4, "`cold/hot` is no service", "`service total`"),
    ("hours 24", "hours 24\nservice hotel-75", 4, "`hotel-75` is no service", "`service hot`"),
    ("hours 24", "hours 24\nservice 0", 4, "`0` is no service; it is given by its name", "`service total`"),
    ("hours 24", "hours 24\nservice 1", 4, "`1` is no service; it is given by its name", "`service cold`"),
    ("hours 24", "hours 24\nservice 02", 4, "`02` is no service; it is given by its name", "`service hot`"),
    (
        "hours 24",
        "hours 24\nservice 256",
        4,
        "`256` is no service; the record has a byte for it, which holds up to 255",
        "`service hot`",
    ),
    ("hours 24", "hours 24\nservice 0002", 4, "`0002` is no service; it is given by its name", "`service hot`"),
    ("hours 24", "hours 24\nservice -1", 4, "`-1` is no service", "`service hot`"),
    ("hours 24", "hours 24\nservice h\u{43e}t", 4, "a Cyrillic letter that looks like o", "`service hot`"),
    ("hours 24", "hours 24\nservice hot\nservice hot", 5, "`service` is given twice", "the first is line 4"),
    ("hours 24", "hours 24\nservice hot\nservice cold", 5, "`service` is given twice", "the first is line 4"),
    ("hours 24", "hours 24\nhot", 4, "`hot` begins no line", "velocity limit, service, residents"),
    ("hours 24", "hours 24\nservices hot", 4, "`services` begins no line", "service"),
    (
        "hours 24",
        "version 1\nhours 24\nservice hot",
        5,
        "`service hot` is not for `version 1`: version 1 is always total",
        "no line `version`",
    ),
    (
        "hours 24",
        "service cold\nversion 1\nhours 24",
        3,
        "`service cold` is not for `version 1`",
        "packed as version 2",
    ),
    (
        "hours 24",
        "service total\nversion 3\nhours 24",
        3,
        "`service total` is not for `version 3`: only version 2",
        "no line `version`",
    ),
    ("hours 24", "service 7\nversion 1\nhours 24", 3, "`service 7` is not for `version 1`", "no line `version`"),
    (
        "hours 24",
        "hours 24\nversion 2",
        4,
        "`version 2` has a service, and no line gives it",
        "`service cold` or `service hot`; then",
    ),
    ("residents hotel-75 71", "residents hotel 71", 8, "`hotel` is no kind", "hotel-75"),
    ("residents hotel-75 71", "residents none 71", 8, "`none` is no kind that has residents", "dwelling"),
    ("residents hotel-75 71", "residents hotel-75 70000", 8, "`residents hotel-75 70000`", "1 to 65535"),
];

const SLIPS_OF_A_SECTION: &[Slip] = &[
    ("section 1 from", "section one from", 9, "`one` is no section's number", "1 to 63"),
    ("section 1 from", "section 256 from", 9, "`256` is no section's number", "1 to 63"),
    ("section 1 from", "section 3 from", 9, "sections 1 to 2 are missing", "from 1 to 3 without a gap"),
    ("section 1", "section 1 from pump kind none length 1 m elevation 0 cm\nsection 1", 10, "twice", "line 9"),
    ("from pump", "from cellar", 9, "`from cellar`", "`from pump`"),
    ("from pump", "", 9, "the section has no `from`", "section 2 from 1"),
    ("kind hotel-75 f", "kind motel f", 9, "`motel` is no kind of consumer", "hospital"),
    ("length 10 m", "length 10", 9, "the unit of `length 10` is missing", "12.5 m or 125 dm"),
    ("length 10 m", "length 10.25 m", 9, "finer than", "whole number of dm"),
    ("length 10 m", "length 6553.6 m", 9, "`length 6553.6 m`", "0.1 to 500.0 m"),
    ("length 10 m", "length -1 m", 9, "`-1` for `length` has a sign", "0.1 to 500.0 m"),
    ("length 10 m", "length 10 m length 10 m", 9, "`length` is given twice", "one `length`"),
    ("elevation 600 cm", "elevation 65286 cm", 9, "`elevation 65286 cm`", "write `elevation -250 cm`"),
    ("elevation 600 cm", "elevation 70000 cm", 9, "`elevation 70000 cm`", "-1000 to 6000 cm"),
    ("free 200 cm", "", 9, "the section has no `free`", "needs no fixtures and free"),
    ("free 200 cm", "free 200 cm pipe steel", 9, "`pipe` is no field of a section", "fixtures"),
];

#[test]
fn mistakes_name_their_line_and_what_is_wrong() {
    for (from, to, line, wrong, expected) in SLIPS_OF_THE_HOUSE.iter().chain(SLIPS_OF_A_SECTION) {
        let mistake = mistake(from, to);
        assert_eq!(mistake.line.as_ref().map(|(number, _)| *number), Some(*line), "{to}: {mistake}");
        assert!(mistake.wrong.contains(wrong), "{to}: {mistake}");
        assert!(mistake.expected.contains(expected), "{to}: {mistake}");
    }
    let bare = mistake(OWN.lines().last().expect("a section"), "section");
    assert_eq!((bare.line.expect("a line").0, bare.wrong.as_str()), (9, "`section` has no number"));
}

/// Advice that the library would refuse, or that changes the size of what was meant, is worse than none.
#[test]
fn an_elevation_is_read_as_signed_only_where_that_is_likely() {
    for (given, advised) in [
        ("64536 cm", true),
        ("65535 cm", true),
        ("64535 cm", false),
        ("40000 cm", false),
        ("400 m", false),
        ("652.86 m", false),
        ("65536 cm", false),
        ("-40000 cm", false),
    ] {
        let mistake = mistake("elevation 600 cm", &format!("elevation {given}"));
        assert!(mistake.expected.starts_with("-1000 to 6000 cm"), "{mistake}");
        assert_eq!(mistake.expected.contains("read as signed"), advised, "{mistake}");
    }
}

#[test]
fn a_missing_line_is_named() {
    for line in OWN.lines().skip(1).take(6) {
        let mistake = mistake(line, "");
        assert_eq!(mistake.line, None);
        let words: Vec<&str> = line.split(' ').take_while(|word| !word.starts_with(char::is_numeric)).collect();
        assert_eq!(mistake.wrong, format!("the file has no line `{}`", words.join(" ")));
        assert_eq!(mistake.expected, format!("for example `{line}`"));
    }
}

/// Whatever is typed, packing gives bytes or a mistake whose line is in the file; and what it packs it shows again.
#[test]
fn any_text_is_taken() {
    let mut dice = Dice(99);
    let pieces = [
        "section",
        "service ",
        "hot\n",
        "version 2\n",
        " ",
        "\n",
        "#",
        "-",
        "9",
        ".",
        ",",
        "cm",
        "m",
        "pump",
        "kind",
        "hotel-75",
        "é",
        "\u{2212}",
        "1e9",
    ];
    for turn in 0..20_000 {
        let start = if turn % 2 == 0 { OWN } else { SIZES };
        let mut text = start.to_string();
        for _ in 0..1 + dice.below(4) {
            let at = (0..=dice.below(text.len() as u64 + 1)).rev().find(|at| text.is_char_boundary(*at)).unwrap_or(0);
            let end = (at + dice.below(6)).min(text.len());
            let end = if text.is_char_boundary(end) { end } else { at };
            text.replace_range(at..end, pieces[dice.below(pieces.len() as u64)]);
        }
        let line_in_file = |mistakes: Mistakes| {
            for (number, shown) in mistakes.list.into_iter().filter_map(|mistake| mistake.line) {
                assert_eq!(text.lines().nth(number - 1).map(str::trim), Some(shown.as_str()), "{text}");
            }
        };
        match house::pack(&text) {
            Ok(bytes) => assert_eq!(house::pack(&house::show(&bytes).expect("a record")), Ok(bytes)),
            Err(mistakes) => line_in_file(mistakes),
        }
        match table::pack(&text) {
            Ok(bytes) => assert_eq!(table::pack(&table::show(&bytes).expect("a catalogue")), Ok(bytes)),
            Err(mistakes) => line_in_file(mistakes),
        }
    }
}

const SIZES: &str = "\
# document 01's own catalogue
size,bore mm,price,flow ml/s,velocity mm/s,slope mm/m
1,40,900,1000,800,40
1,40,900,3000,2400,300
2,50,1300,1000,500,12
2,50,1300,3000,1500,90
";

#[test]
fn the_own_catalogue_is_document_01s() {
    let hex = "0000002f01020200280384000003e80320002800000bb80960012c00320514000003e801f4000c00000bb805dc005a";
    let bytes = table::pack(SIZES).expect("a table");
    assert_eq!(bytes.iter().map(|byte| format!("{byte:02x}")).collect::<String>(), hex);
    let mut lines: Vec<&str> = SIZES.lines().collect();
    lines.swap(2, 4);
    lines.swap(3, 5);
    for text in [
        lines.join("\r\n"),
        SIZES.replace(',', ";"),
        SIZES.replacen("1,40,900,3000", "1,,,3000", 1),
        SIZES.replace(',', " , ").replacen("size", "\"size\"", 1),
        SIZES.replacen("size,bore mm", "Size,Bore mm", 1) + ",,,,,\n",
    ] {
        assert_eq!(table::pack(&text).as_ref(), Ok(&bytes), "{text}");
    }
    let turned = "slope mm/m,velocity mm/s,flow ml/s,price,bore mm,size\n40,800,1000,900,40,1\n300,2400,3000,900,40,1\n\
                  12,500,1000,1300,50,2\n90,1500,3000,1300,50,2\n";
    assert_eq!(table::pack(turned).as_ref(), Ok(&bytes), "columns in any order");
}

#[test]
fn mistakes_in_a_table_name_their_line() {
    let cases = [
        ("size,bore mm", "size,bore", Some(2), "`bore` is no column", "bore mm"),
        ("size,bore mm,", "size,", Some(2), "no column `bore mm`", "size,bore mm"),
        ("size,bore mm", "size,size,bore mm", Some(2), "`size` is there twice", "size,bore mm"),
        ("1,40,900,1000", "1,forty,900,1000", Some(3), "`forty` is no number for `bore mm`", "for example 40"),
        ("1,40,900,1000", "1,,900,1000", Some(3), "`bore mm` is empty", "1 to 65535"),
        ("1,40,900,3000", "1,40,900,", Some(4), "`flow ml/s` is empty", "1 to 1000000"),
        ("1,40,900,3000", "1,41,900,3000", Some(4), "another bore mm here than on line 3", "40"),
        ("1,40,900,3000", "3,60,900,3000", Some(5), "size 2 has 2 rows, but size 1 has 1 row", "equally many"),
        ("2,50,1300,1000", "0,50,1300,1000", Some(5), "sizes number from 1", "1 to 12"),
        ("2,50,1300,1000", "2,50,65536,1000", Some(5), "`price` 65536", "1 to 10000"),
        ("800,40", "800,40,7", Some(3), "`7` stands under no column", "header"),
        ("800,40", "800,4.5", Some(3), "`4.5` for `slope mm/m` is finer", "1 to 65535"),
    ];
    for (from, to, line, wrong, expected) in cases {
        assert!(SIZES.contains(from), "{from}");
        let mistake = first(table::pack(&SIZES.replacen(from, to, 1)).expect_err(to));
        assert_eq!(mistake.line.as_ref().map(|(number, _)| *number), line, "{to}: {mistake}");
        assert!(mistake.wrong.contains(wrong), "{to}: {mistake}");
        assert!(mistake.expected.contains(expected), "{to}: {mistake}");
    }
    let gap = first(table::pack(&SIZES.replace("\n2,", "\n3,")).expect_err("a gap"));
    assert_eq!((gap.line.expect("a line").0, gap.wrong.as_str()), (5, "size 2 is missing: this line is size 3"));
    assert!(first(table::pack("# nothing\n").expect_err("no header")).wrong.contains("no header line"));
    assert!(first(table::pack(&format!("rows,3\n{SIZES}")).expect_err("rows")).wrong.contains("says 3"));
}

/// The mistake that the own catalogue gives with semicolons and one text put for another.
fn with_semicolons(from: &str, to: &str) -> Mistake {
    let text = SIZES.replace(',', ";");
    assert!(text.contains(from), "{from}");
    first(table::pack(&text.replacen(from, to, 1)).expect_err(to))
}

#[test]
fn a_file_has_one_separator() {
    let decimal = with_semicolons("1;40;900;1000;800;40", "1;20;250;100;318,5;11");
    assert_eq!(decimal.line.as_ref().map(|(number, _)| *number), Some(3));
    assert_eq!(decimal.wrong, "`318,5` for `velocity mm/s` has a comma");
    assert!(
        decimal.expected.starts_with("a whole number of mm/s, 1 to 65535, nothing between thousands; "),
        "{decimal}"
    );
    let short = with_semicolons("1;40;900;1000;800;40", "1;20;300;100;31,8");
    assert_eq!(short.wrong, "`31,8` for `velocity mm/s` has a comma");
    let mixed = with_semicolons("1;40;900;1000;800;40", "1,40,900,1000,800,40");
    assert!(mixed.wrong.contains("`size` has a comma") && mixed.expected.contains("parted by semicolons"), "{mixed}");
    let header = with_semicolons("bore mm;price", "bore mm,price");
    assert!(header.wrong.starts_with("`bore mm,price` is no column of a table"), "{header}");
    let turned =
        first(table::pack(&SIZES.replacen("1,40,900,1000,800,40", "1;40;900;1000;800;40", 1)).expect_err("mixed"));
    assert!(turned.expected.ends_with("cells are parted by commas, as in the file's first line"), "{turned}");
}

#[test]
fn quotation_marks_hold_a_cell_together() {
    let quoted = first(table::pack(&SIZES.replacen("1300", "\"1,300\"", 1)).expect_err("a comma"));
    assert_eq!(quoted.line.as_ref().map(|(number, _)| *number), Some(5));
    assert_eq!(quoted.wrong, "`1,300` for `price` has a comma");
    assert_eq!(quoted.expected, "a whole number of price units, 1 to 10000, nothing between thousands");
    let all: String = SIZES
        .lines()
        .map(|line| {
            if line.starts_with('#') { format!("{line}\n") } else { format!("\"{}\"\n", line.replace(',', "\" , \"")) }
        })
        .collect();
    assert_eq!(table::pack(&all), table::pack(SIZES));
    for odd in ["\"1300", "1300\"", "13\"00"] {
        let mistake = first(table::pack(&SIZES.replacen("1300", odd, 1)).expect_err(odd));
        assert_eq!(mistake.line.as_ref().map(|(number, _)| *number), Some(5), "{mistake}");
    }
}
