//! Lists of meters that could mean something else to the command than to their author: refused, with a way to write what is
//! meant. A row that is lost, made or misread would give another meter, and another set, without a word.

#[path = "tools/lists.rs"]
mod lists;
#[path = "tools/run.rs"]
mod run;

use lists::line;
use office::mistake::{Mistake, Mistakes};
use office::which::Which;
use office::{house, meters, table};
use run::{office_with, read};

const OWN: &str = "examples/own-case.txt";

const HEADER: &str = "type,resistance m/(l/s)2,service flow l/h,name";

fn mistakes(header: &str, rows: &str) -> Mistakes {
    lists::mistakes(meters::pack, header, rows)
}

fn only(header: &str, rows: &str) -> Mistake {
    lists::only(meters::pack, header, rows)
}

/// The names of the list's meters.
fn names(header: &str, rows: &str) -> Vec<String> {
    let text = format!("{header}\n{rows}\n");
    meters::read(&text).unwrap_or_else(|mistakes| panic!("{text}{mistakes}")).names
}

/// With a comma in a number the cells behind it move on by one, and the last of them may fall under a name or a note.
#[test]
fn a_comma_in_a_number_pushes_no_cell_into_a_name() {
    for column in ["name", "notes"] {
        let header = format!("type,resistance m/(l/s)2,service flow l/h,{column}");
        for row in ["vane,1,3,4000", "vane,1,3,4000,", "vane,1.3,4,000", "vane,1.3,4,0.5", "turbine,0,143,12 000"] {
            let mistake = only(&header, row);
            assert!(mistake.wrong.contains("a comma may stand in one of these"), "{row}: {mistake}");
            assert_eq!(line(&mistake), Some(2), "{row}");
        }
        assert_eq!(mistakes(&header, "vane,1,3,4000,DN 32").list[0].wrong, "`dn 32` stands under no column");
    }
}

const RESISTANCE_LAST: &str = "type,service flow l/h,resistance m/(l/s)2,name";

/// A header, a row below it, and the one number that two of its cells may be.
type Joined = (&'static str, &'static str, &'static str);

/// 1.3 would be taken as 1 and 2.64 as 2: a loss that is understated.
#[test]
fn words_behind_a_number_are_not_its_decimals() {
    let cases: [Joined; 12] = [
        (RESISTANCE_LAST, "vane,4000,1,3 DN 32", "1,3"),
        (RESISTANCE_LAST, "vane,2800,2,64 DN 25", "2,64"),
        (RESISTANCE_LAST, "vane,2800,2,64 m/(l/s)2", "2,64"),
        (RESISTANCE_LAST, "vane,4000,1,3;", "1,3"),
        (RESISTANCE_LAST, "vane,4000,1,3DN", "1,3"),
        (RESISTANCE_LAST, "vane,4000,1, ~ 3 m", "1,3"),
        ("type,service flow l/h,resistance m/(l/s)2,notes", "vane,4000,1,(3) new", "1,3"),
        ("type,resistance m/(l/s)2,name,service flow l/h", "vane,1,3 DN 32,4000", "1,3"),
        ("type,service flow l/h,resistance m/(l/s)2,notes,name", "vane,4000,1,3 m,DN 32", "1,3"),
        (HEADER, "vane,1.3,4,000 DN 32", "4,000"),
        (HEADER, "vane,1.3,4,0 m3/h", "4,0"),
        (HEADER, "vane,1.3,4000,1 1/2\"", "4000,1"),
    ];
    for (header, row, one) in cases {
        let mistake = only(header, row);
        let wanted = format!(" stands right behind a number without a point: the two may be one, {one}");
        assert!(mistake.wrong.ends_with(&wanted), "{row}: {mistake}");
        let ran = office_with(&["meter", OWN, "-"], format!("{header}\n{row}\n").as_bytes());
        assert_eq!((ran.status, ran.output.len()), (2, 0), "{row}");
    }
    let mistake = only(RESISTANCE_LAST, "vane,4000,1,3 DN 32");
    for way in ["a point before decimals", "as `no 3 dn 32`", "quotation marks around it", "parted by semicolons"] {
        assert!(mistake.expected.contains(way), "{way}: {mistake}");
    }
    // A number alone may have been pushed there by any comma before it.
    assert!(only(RESISTANCE_LAST, "vane,4000,1,~3").wrong.contains("a comma may stand in one of these"));
}

/// With the name left out 1.3 would be taken as 3 with the name 1, and 5.1 as 1: an understated loss again.
#[test]
fn words_before_a_number_are_not_its_front() {
    let cases: [Joined; 8] = [
        ("type,name,resistance m/(l/s)2,service flow l/h", "vane,1,3,4000", "1,3"),
        ("type,name,resistance m/(l/s)2,service flow l/h", "vane,~5,1,4000", "5,1"),
        ("type,name,resistance m/(l/s)2,service flow l/h", "vane,S=5,1,4000", "5,1"),
        ("type,name,resistance m/(l/s)2,service flow l/h", "vane,DN 20 5,18,2000", "5,18"),
        ("type,name,resistance m/(l/s)2,service flow l/h", "vane,40,1,4000", "40,1"),
        ("type,name,notes,resistance m/(l/s)2,service flow l/h", "vane,DN 32,1,3,4000", "1,3"),
        ("name,type,notes,resistance m/(l/s)2,service flow l/h", "DN 32,vane,1,3,4000", "1,3"),
        ("type,name,service flow l/h,resistance m/(l/s)2", "vane,6,400,0.5", "6,400"),
    ];
    for (header, row, one) in cases {
        let mistakes = mistakes(header, row);
        let wanted = format!(" stands right before a number without a point: the two may be one, {one}");
        assert!(mistakes.list[0].wrong.ends_with(&wanted), "{row}: {mistakes}");
        assert_eq!(line(&mistakes.list[0]), Some(2), "{row}");
    }
    let mistake = only("type,name,resistance m/(l/s)2,service flow l/h", "vane,no 5,1,4000");
    assert!(mistake.expected.contains("a letter behind its digits, as `no 5 a`, or quotation marks"), "{mistake}");
}

/// Resistance in ten-thousandths and service flow in l/h.
#[test]
fn words_that_can_be_no_part_of_a_number_are_taken() {
    let name_first = "type,name,resistance m/(l/s)2,service flow l/h";
    let cases: [(&str, &str, u16, u16); 17] = [
        (HEADER, "vane,1.3,4000,DN 32", 13_000, 4_000),
        (HEADER, "vane,1,4000,DN 32", 10_000, 4_000),
        (HEADER, "vane,1.3,4000,no 3 DN 32", 13_000, 4_000),
        (HEADER, "vane,1.3,4000,\"1 1/2\"\"\"", 13_000, 4_000),
        (RESISTANCE_LAST, "vane,4000,1.3,1 1/2\"", 13_000, 4_000),
        (RESISTANCE_LAST, "vane,4000,1.0,3 DN 32", 10_000, 4_000),
        (RESISTANCE_LAST, "vane,4000,1,\"3 DN 32\"", 10_000, 4_000),
        (name_first, "vane,1 1/2\",1.3,4000", 13_000, 4_000),
        (name_first, "vane,1 1/2\",1,4000", 10_000, 4_000),
        (name_first, "vane,DN 32,1,4000", 10_000, 4_000),
        (name_first, "vane,40,0.5,6400", 5_000, 6_400),
        (name_first, "vane,\"no 5\",1,4000", 10_000, 4_000),
        (name_first, "vane,no 5 a,1,4000", 10_000, 4_000),
        ("type,name,service flow l/h,resistance m/(l/s)2", "vane,DN 32,4000,1.3", 13_000, 4_000),
        ("type;service flow l/h;resistance m/(l/s)2;name", "vane;4000;1;3 DN 32", 10_000, 4_000),
        ("type\tservice flow l/h\tresistance m/(l/s)2\tname", "vane\t4000\t1\t3 DN 32", 10_000, 4_000),
        ("type;name;resistance m/(l/s)2;service flow l/h", "vane;1;3;4000", 30_000, 4_000),
    ];
    for (header, row, resistance, service) in cases {
        let ran = office_with(&["pack", "-"], format!("{header}\n{row}\n").as_bytes());
        let wanted = [&[1][..], &resistance.to_be_bytes(), &service.to_be_bytes()].concat();
        assert_eq!((ran.status, ran.output), (0, wanted), "{row}: {}", ran.error);
    }
}

/// A name that begins with # would be a comment, and its meter would be gone.
#[test]
fn a_number_sign_before_a_name_hides_no_row() {
    let rows = "#4,vane,0.5,6400\nDN 50,turbine,0.143,12000";
    let mistake = only("name,type,resistance m/(l/s)2,service flow l/h", rows);
    assert!(line(&mistake) == Some(2) && mistake.wrong.contains("it may be a row"), "{mistake}");
    let hidden = format!("{HEADER}\nvane,0.5,6400 # old\u{2028}turbine,0.143,12000\n");
    let ran = office_with(&["pack", "-"], hidden.as_bytes());
    assert!(ran.status == 2 && ran.error.contains("show as a line of its own, `turbine,0.143"), "{}", ran.error);
}

/// What a spreadsheet takes for one cell with a line break in it would be two meters.
#[test]
fn a_quotation_mark_is_closed_in_its_line() {
    for (rows, cell) in [
        ("vane,0.5,6400,\"DN 40; formerly\nturbine,0.143,12000,DN 50\"", 4),
        ("vane,0.5,6400,\"DN 40 \"\"old\"\"\nturbine,0.143,12000,DN 50\"", 4),
        ("vane,0.5,6400,\"DN 40, 1 1/2\"\"\nturbine,0.143,12000,DN 50\"", 4),
        ("vane,0.5,6400,\"\nturbine,0.143,12000,DN 50\"", 4),
        ("vane,\"0.5,6400,DN 40\nturbine,0.143,12000,DN 50", 2),
    ] {
        let mistake = only(HEADER, rows);
        let wanted = format!("cell {cell} begins with a quotation mark that is not closed in its line");
        assert_eq!((line(&mistake), mistake.wrong), (Some(2), wanted), "{rows}");
        let ran = office_with(&["meter", OWN, "-"], format!("{HEADER}\n{rows}\n").as_bytes());
        assert!(ran.status == 2 && ran.output.is_empty() && ran.error.contains(" line 2: vane,"), "{}", ran.error);
    }
    let table = read("examples/table.csv").replace("slope mm/m\n", "slope mm/m,notes\n");
    assert!(table::pack(&table).is_ok());
    let broken = table.replacen("1,21,310,200,567,58\n", "1,21,310,200,567,58,\"steel\n1,21,310,250,708,87\"\n", 1);
    assert_ne!(broken, table);
    let mistakes = table::pack(&broken).expect_err("a line break in a note");
    assert!(mistakes.list[0].wrong.starts_with("cell 7 begins with a quotation mark that is not closed"), "{mistakes}");
    assert_eq!((mistakes.list.len(), line(&mistakes.list[0])), (1, Some(6)), "{mistakes}");
}

/// A table's notes are held against its numbers in the same way: with a decimal comma the slope 40.5 would be 40.
#[test]
fn a_note_of_a_table_is_no_part_of_a_number() {
    let columns = "size,bore mm,price,flow ml/s,velocity mm/s,slope mm/m";
    let table = |header: &str, first: &str| format!("{header}\n{first}\n1,40,900,3000,2400,300,steel\n");
    let noted = format!("{columns},notes");
    for (row, wrong) in [
        ("1,40,900,1000,800,40,5", "a comma may stand in one of these"),
        ("1,40,900,1000,800,40,5 mm", "the two may be one, 40,5"),
        ("1,40,900,1000,800,40, ~5", "a comma may stand in one of these"),
    ] {
        let mistakes = table::pack(&table(&noted, row)).expect_err(row);
        assert!(mistakes.list[0].wrong.ends_with(wrong), "{row}: {mistakes}");
        assert_eq!((mistakes.list.len(), line(&mistakes.list[0])), (1, Some(2)), "{row}: {mistakes}");
    }
    for row in ["1,40,900,1000,800,40,steel 5", "1,40,900,1000,800,40,\"5 mm\"", "1,40,900,1000,800,40,"] {
        assert!(table::pack(&table(&noted, row)).is_ok(), "{row}");
    }
    let parted = table(&noted, "1,40,900,1000,800,40,5 mm").replace(',', ";");
    assert!(table::pack(&parted).is_ok(), "semicolons part the cells");
    let before = format!("notes,{columns}\n3,1,40,900,1000,800,40\nsteel,1,40,900,3000,2400,300\n");
    let mistakes = table::pack(&before).expect_err("a number before the sizes");
    assert!(
        mistakes.list[0].wrong.ends_with("right before a number without a point: the two may be one, 3,1"),
        "{mistakes}"
    );
}

#[test]
fn a_quotation_mark_within_a_cell_is_written_twice() {
    let rows = "vane,0.5,6400,\"1 1/2\"\"\"\nvane,1.3,4000, \"a \"\"b, c\"\" d\" \nturbine,0.143,12000,DN 2\"\nvane,0.5,6400,\"\"";
    assert_eq!(names(HEADER, rows), ["1 1/2\"", "a \"b, c\" d", "DN 2\"", ""]);
    let shown = office_with(&["meter", OWN, "-"], format!("{HEADER}\n{rows}\n").as_bytes()).text();
    assert!(shown.contains("\n    1  1 1/2\"      vane "), "{shown}");
}

/// The part of a cell before `#` is not its whole: `"DN #40"` would be `"DN`.
#[test]
fn a_comment_begins_between_quotation_marks_too() {
    let mistake = only(HEADER, "vane,0.5,6400,\"DN #40\"");
    assert!(mistake.wrong.ends_with("not closed in its line: `#` begins a comment between quotation marks too"));
    assert!(mistake.expected.contains("no # in a cell"), "{mistake}");
    let table = read("examples/table.csv").replace("slope mm/m\n", "slope mm/m,notes\n");
    let noted = table.replacen("1,21,310,200,567,58\n", "1,21,310,200,567,58,\"DN #20\"\n", 1);
    assert!(table::pack(&noted).expect_err("a sign").list[0].wrong.contains("`#` begins a comment between quotation"));
}

/// A first column without a name may number the rows; one that begins with # would be gone.
#[test]
fn a_number_sign_under_an_empty_header_hides_no_row() {
    for (header, first, second) in [
        (";type;resistance m/(l/s)2;service flow l/h;name", ";vane;1.3;4000;DN 32", "#2;vane;0.5;6400;DN 40"),
        (";;type;resistance m/(l/s)2;service flow l/h", ";;vane;1.3;4000", ";#2;vane;0.5;6400"),
        ("\"\",type,resistance m/(l/s)2,service flow l/h", ",vane,1.3,4000", " # 2,vane,0.5,6400"),
    ] {
        let mistake = only(header, &format!("{first}\n{second}"));
        assert_eq!(line(&mistake), Some(3), "{mistake}");
        assert!(mistake.wrong.contains("the header's first cell is for words or empty: it may be a row"), "{mistake}");
        assert_eq!(names(header, &format!("{first}\n# two of these")).len(), 1, "a comment stays one");
        assert_eq!(only(header, &format!("2{first}")).wrong, "`2` stands under no column");
    }
    let table =
        read("examples/table.csv").replace("\nsize", "\n,size").replace("\n1,", "\n,1,").replace("\n2,", "\n#2,2,");
    let mistakes = table::pack(&table).expect_err("rows with a sign");
    assert!(mistakes.list[0].wrong.contains("it may be a row"), "{mistakes}");
}

/// What the header has wrong is said once, of the header.
#[test]
fn an_unknown_column_is_no_mistake_of_the_rows() {
    let rows = "vane,1.3,4000,Zenner\nvane,0.5,6400,Itron";
    let mistake = only("type,resistance m/(l/s)2,service flow l/h,maker", rows);
    assert_eq!((line(&mistake), mistake.wrong.as_str()), (Some(1), "`maker` is no column of a list of meters"));
    assert!(
        mistake.expected.ends_with("a column `notes` is skipped; rename it `notes` if it is for people"),
        "{mistake}"
    );
    let twice = only("type,resistance m/(l/s)2,service flow l/h,name,name", "vane,1.3,4000,DN 32,old");
    assert_eq!(twice.wrong, "the column `name` is there twice");
    // A row with more cells than the header, and a cell under an empty one of the header.
    let longer = mistakes("type,resistance m/(l/s)2,service flow l/h,maker", "vane,1,3,4000,Zenner");
    assert!(longer.list.iter().any(|mistake| mistake.wrong == "`zenner` stands under no column"), "{longer}");
    let empty = only("type,resistance m/(l/s)2,service flow l/h,", "vane,1.3,4000,Zenner");
    assert_eq!(empty.expected, "a name over the column, `notes` if it is for people");
}

/// A list may begin with its service flows, and a house with its service; neither is taken for the other.
#[test]
fn a_service_flow_is_no_service() {
    let text = "service flow l/h,type,resistance m/(l/s)2\n6400,vane,0.5\n";
    assert_eq!((Which::of(text), meters::pack(text)), (Which::Meters, Ok(vec![1, 0x13, 0x88, 0x19, 0x00])));
    assert_eq!(Which::of("Service  Flow (l/h);typ\n6400;vane\n"), Which::Meters, "a nearly right header");
    for first in ["service hot", "service: hot", "SERVICE\tcold", "service hot, of the hotel", "service hot,cold,total"]
    {
        assert_eq!(Which::of(&format!("{first}\n{}", read(OWN))), Which::House, "{first}");
    }
    let mistakes = house::pack(&format!("service flow 6400\n{}", read(OWN))).expect_err("no service");
    assert_eq!(mistakes.list[0].wrong, "`flow` is no service");
}

#[test]
fn a_cyrillic_word_is_called_so() {
    let header = HEADER.replace("type", "тип");
    let mistakes = mistakes(&header, "vane,1.3,4000,DN 32");
    let wanted = "`тип` is no column of a list of meters; it has Cyrillic letters; the words of the format are English";
    assert_eq!(mistakes.list[0].wrong, wanted);
    assert!(!mistakes.to_string().contains("rename"), "{mistakes}");
}
