//! Lists of losses that could mean something else to the command than to their author: refused, with a way to write what is meant.
//! A loss that is lost, doubled or misread would give another pump set without a word.

#[path = "tools/lists.rs"]
mod lists;
#[path = "tools/run.rs"]
mod run;

use lists::line;
use office::losses;
use office::mistake::{Mistake, Mistakes};
use run::office_with;

const OWN: &str = "examples/own-case.txt";

fn mistakes(header: &str, rows: &str) -> Mistakes {
    lists::mistakes(losses::pack, header, rows)
}

fn only(header: &str, rows: &str) -> Mistake {
    lists::only(losses::pack, header, rows)
}

/// The losses of a list in cm.
fn taken(header: &str, rows: &str) -> Vec<u8> {
    let text = format!("{header}\n{rows}\n");
    losses::pack(&text).unwrap_or_else(|mistakes| panic!("{text}{mistakes}"))
}

/// 0.71 would be taken as 0 with a note of 71, and 1.25 as 1: a loss that is understated.
#[test]
fn a_decimal_comma_makes_no_note() {
    for (header, row, wrong) in [
        ("section,loss m,notes", "1,0,71", "a comma may stand in one of these"),
        ("section,loss m,notes", "1,0,71,", "a comma may stand in one of these"),
        ("section,loss cm,notes", "1,1,071", "a comma may stand in one of these"),
        ("section,loss m,notes", "1,1,25 riser", "the two may be one, 1,25"),
        ("section,loss m,notes", "1,0, ~ 71 m", "the two may be one, 0,71"),
        ("section,notes,loss m", "1,riser 0,71", "the two may be one, 0,71"),
        ("section,notes,loss m", "1,~0,71", "a comma may stand in one of these"),
        ("notes,section,loss cm", "3,1,71", "the two may be one, 3,1"),
        ("section,loss m", "1,0,71", "`71` stands under no column"),
        ("loss m,section", "0,71,1", "`1` stands under no column"),
    ] {
        let mistakes = mistakes(header, row);
        assert!(mistakes.list[0].wrong.ends_with(wrong), "{header} {row}: {mistakes}");
        assert_eq!(line(&mistakes.list[0]), Some(2), "{row}");
        let ran = office_with(&["heads", OWN, "-"], format!("{header}\n{row}\n").as_bytes());
        assert_eq!((ran.status, ran.output.len()), (2, 0), "{row}");
    }
}

#[test]
fn words_that_can_be_no_part_of_a_number_are_taken() {
    for (header, row, cm) in [
        ("section,loss m,notes", "1,1.25,riser 3", 125),
        ("section,loss m,notes", "1,1.2,25 bends", 120),
        ("section,loss m,notes", "1,1,\"25 bends\"", 100),
        ("section,loss cm,notes", "1,125,no 3", 125),
        ("section;loss m;notes", "1;1;25", 100),
        ("section,notes,loss cm", "1,riser 3,71", 71),
        ("section,notes,loss m", "1,riser A,71", 7_100),
        ("notes,section,loss cm", "riser 3,1,71", 71),
    ] {
        assert_eq!(taken(header, row), u32::to_be_bytes(cm), "{header} {row}");
    }
}

/// A line that its author sees as a row is a row, or is named.
#[test]
fn no_row_is_lost_or_doubled() {
    let notes_first = "notes,section,loss cm";
    let mistake = only(notes_first, "main,1,71\n#2,2,30");
    assert!(line(&mistake) == Some(3) && mistake.wrong.contains("it may be a row"), "{mistake}");
    let open = only("section,loss cm,notes", "1,71,\"old\n2,30,new\"");
    assert!(open.wrong.ends_with("begins with a quotation mark that is not closed in its line"), "{open}");
    let twice = mistakes("section,loss cm", "1,71\n2,30\n2,31");
    assert_eq!((twice.list.len(), line(&twice.list[0])), (1, Some(4)), "{twice}");
    // The same loss twice is no less in doubt.
    assert!(only("section,loss cm", "1,71\n1,71").wrong.contains("is given twice"));
    // A comment takes a row out, and the gap is seen.
    let gap = only("section,loss cm", "1,71\n# 2,30\n3,12");
    assert_eq!((line(&gap), gap.wrong.as_str()), (Some(4), "section 2 is missing: this line is section 3"));
    // Where some program begins a line in a comment its author sees a row.
    let seen = office_with(&["pack", "-"], "section,loss cm\n1,71 # noon\u{2028}2,30\n".as_bytes());
    assert!(seen.status == 2 && seen.error.contains("show as a line of its own, `2,30`"), "{}", seen.error);
    let last = office_with(&["heads", OWN, "-"], b"section,loss cm\n1,71\n2,30\n");
    assert!(last.status == 1 && last.text().contains("losses given: 2; sections of the house: 1"), "{}", last.text());
}

/// One unit for the whole list, which is named.
#[test]
fn a_unit_is_never_guessed() {
    for header in ["section,loss", "section,loss mm", "section,loss m cm", "section,loss cm m", "section,loss kpa"] {
        let mistake = &mistakes(header, "1,71").list[0];
        assert!(line(mistake) == Some(1) && mistake.wrong.contains("cm or m"), "{header}: {mistake}");
    }
    assert!(only("section,loss cm,loss m", "1,71,0.71").wrong.contains("is there twice"));
    assert!(only("section,loss cm", "1,71 cm").wrong.contains("more than the number stands in it"));
    assert!(only("section,loss cm", "1,0.71 m").wrong.contains("more than the number stands in it"));
    let cyrillic = only("section,loss \u{441}m", "1,71");
    assert!(cyrillic.wrong.ends_with("U+0441, a Cyrillic letter that looks like c, is in it"), "{cyrillic}");
    assert_eq!(taken("section,loss \u{441}\u{43c}", "1,71"), u32::to_be_bytes(71));
}

/// A text is an answer or a list, and never both.
#[test]
fn an_answer_is_no_list() {
    for text in ["{\nsection,loss cm\n1,71\n", "{}\nsection,loss cm\n1,71\n", "[71]\n", "71\n"] {
        let ran = office_with(&["heads", OWN, "-"], text.as_bytes());
        assert_eq!((ran.status, ran.output.len()), (2, 0), "{text}");
    }
    // Behind a comment it is no answer.
    let ran = office_with(&["heads", OWN, "-"], b"# losses\n{\"schema\":1}\n");
    assert!(ran.status == 2 && ran.error.contains("JSON: text stands before its `{`; one object is"), "{}", ran.error);
}
