//! The command where things go wrong around it: full disks, odd file names, files as other programs save them.

#[path = "tools/run.rs"]
mod run;

use run::{office, office_with, read, scratch, top};
use std::process::{Command, Stdio};

const HOUSE: &str = "examples/house.txt";
const TABLE: &str = "examples/table.csv";
const METERS: &str = "examples/meters.csv";

#[test]
fn a_lost_answer_is_no_success() {
    // The device on which every write fails; not every system has it.
    if !std::path::Path::new("/dev/full").exists() {
        return;
    }
    let refused = ["flow", "examples/mistakes/circle.txt"];
    let ways: [&[&str]; 7] = [
        &["pack", HOUSE],
        &["flow", HOUSE],
        &["meter", HOUSE, METERS],
        &["choose", HOUSE, TABLE, "--json"],
        &["help"],
        &["soak", "3"],
        &refused,
    ];
    for words in ways {
        let full = std::fs::File::options().write(true).open("/dev/full").expect("it can be opened");
        let ran = Command::new(env!("CARGO_BIN_EXE_office")).args(words).current_dir(top()).stdout(full).output();
        let ran = ran.expect("the command starts");
        let printed = String::from_utf8_lossy(&ran.stderr).into_owned();
        assert_eq!(ran.status.code(), Some(2), "{words:?}: {printed}");
        assert!(printed.contains("office: the answer can't be written to standard output: "), "{words:?}: {printed}");
    }
}

#[test]
fn a_closed_pipe_is_a_lost_answer() {
    let mut child = Command::new(env!("CARGO_BIN_EXE_office"))
        .args(["flow", "-"])
        .current_dir(top())
        .stdin(Stdio::piped())
        .stdout(Stdio::piped())
        .stderr(Stdio::piped())
        .spawn()
        .expect("the command starts");
    // It answers only when its input has ended, and by then nobody listens.
    drop(child.stdout.take());
    let mut input = child.stdin.take().expect("its input is a pipe");
    std::io::Write::write_all(&mut input, read(HOUSE).as_bytes()).expect("it reads");
    drop(input);
    let ran = child.wait_with_output().expect("the command ends");
    let printed = String::from_utf8_lossy(&ran.stderr).into_owned();
    assert_eq!(ran.status.code(), Some(2), "{printed}");
    assert!(printed.starts_with("office: the answer can't be written to standard output: "), "{printed}");
}

/// A folder may hold names in an older code page than UTF-8.
#[cfg(unix)]
#[test]
fn a_files_name_need_not_be_text() {
    use std::ffi::OsStr;
    use std::os::unix::ffi::OsStrExt;
    let named = |name: &[u8]| [scratch("").as_bytes(), name].concat();
    let (house, sizes, out) = (named(b"h\xf4tel.txt"), named(b"s\xefzes"), named(b"\xe9crit.txt"));
    // Some systems take no such names.
    if std::fs::write(OsStr::from_bytes(&house), read(HOUSE)).is_err() {
        return;
    }
    std::fs::write(OsStr::from_bytes(&sizes), "6,6,6,6,6,6,6,6,6,6,6,6").expect("written");
    let list = [b"@", sizes.as_slice()].concat();
    let words = [b"rate", house.as_slice(), TABLE.as_bytes(), &list, b"-o", &out].map(OsStr::from_bytes);
    let ran = Command::new(env!("CARGO_BIN_EXE_office")).args(words).current_dir(top()).output();
    let ran = ran.expect("the command starts");
    assert_eq!(ran.status.code(), Some(0), "{}", String::from_utf8_lossy(&ran.stderr));
    let rated = office(&["rate", HOUSE, TABLE, "6,6,6,6,6,6,6,6,6,6,6,6"]).text();
    assert_eq!(std::fs::read_to_string(OsStr::from_bytes(&out)).expect("written"), rated);
}

#[test]
fn an_empty_file_is_called_empty() {
    for command in ["pack", "show", "replay"] {
        let ran = office_with(&[command, "-"], b"");
        assert_eq!((ran.status, ran.error.as_str()), (2, "office: standard input: the file is empty\n"), "{command}");
    }
    let flow = office_with(&["flow", "-"], b"").text();
    assert!(flow.contains("job record: the file is empty: it has 0 bytes"), "{flow}");
    let choose = office_with(&["choose", HOUSE, "-"], b"").text();
    assert!(choose.contains("catalogue: the file is empty: it has 0 bytes"), "{choose}");
    let meter = office_with(&["meter", HOUSE, "-"], b"").text();
    assert!(meter.contains("list of meters: the file is empty: it has 0 bytes"), "{meter}");
    let heads = office_with(&["heads", HOUSE, "-"], b"").text();
    assert!(heads.contains("list of losses: the file is empty: it has 0 bytes; a section's loss has 4"), "{heads}");
    assert!(heads.starts_with("standard input is empty; `office new losses` gives a list of losses to start from\n"));
}

#[test]
fn the_answer_has_one_file_that_is_not_read() {
    let (house, sizes) = (scratch("kept-house.txt"), scratch("kept-sizes"));
    std::fs::write(&house, read(HOUSE)).expect("written");
    std::fs::write(&sizes, "6,6,6,6,6,6,6,6,6,6,6,6").expect("written");
    let roundabout = scratch("./kept-house.txt");
    let list = format!("@{sizes}");
    let cases: [(&[&str], &str); 5] = [
        (&["pack", &house, "-o", &house], "would overwrite the file that is read"),
        (&["meter", &house, METERS, "-o", &house], "would overwrite the file that is read"),
        (&["flow", "-o", &roundabout, &house], "would overwrite the file that is read"),
        (&["rate", &house, TABLE, &list, "-o", &sizes], "would overwrite the file that is read"),
        (&["flow", &house, "-o", &sizes, "-o", &sizes], "`-o` is given twice"),
    ];
    for (words, why) in cases {
        let ran = office(words);
        assert!(ran.status == 2 && ran.error.contains(why), "{words:?}: {}", ran.error);
    }
    assert_eq!(std::fs::read_to_string(&house).expect("as it was"), read(HOUSE));
    assert_eq!(std::fs::read_to_string(&sizes).expect("as it was"), "6,6,6,6,6,6,6,6,6,6,6,6");
}

#[test]
fn the_mark_in_front_of_utf_8_is_no_letter() {
    let marked = |text: &str| [b"\xef\xbb\xbf", text.as_bytes()].concat();
    for comment in ["", "# sizes of the shop\n", "# sizes, bores; prices\n"] {
        let table = marked(&format!("{comment}{}", read(TABLE)));
        assert_eq!(office_with(&["pack", "-"], &table).output, office(&["pack", TABLE]).output, "{comment}");
        let list = marked(&format!("{comment}{}", read(METERS)));
        assert_eq!(office_with(&["pack", "-"], &list).output, office(&["pack", METERS]).output, "{comment}");
        let house = marked(&format!("{comment}{}", read(HOUSE)));
        assert_eq!(office_with(&["pack", "-"], &house).output, office(&["pack", HOUSE]).output, "{comment}");
    }
    let sizes = scratch("marked.sizes");
    std::fs::write(&sizes, marked("6,6,6,6,6,6,6,6,6,6,6,6")).expect("written");
    let rated = office(&["rate", HOUSE, TABLE, &format!("@{sizes}")]);
    assert_eq!(rated.status, 0, "{}", rated.error);
}

#[test]
fn a_record_that_is_damaged_in_its_first_byte_is_read_where_that_is_said() {
    for file in [HOUSE, TABLE] {
        for first in [0xff, b'h', 1] {
            let mut bytes = office(&["pack", file]).output;
            bytes[0] = first;
            let told = office_with(&["show", "-"], &bytes);
            assert_eq!(told.status, 2, "{}", told.error);
            assert!(told.error.contains("`--record` shows a record that is damaged there"), "{}", told.error);
            let packed = office_with(&["pack", "-"], &bytes);
            assert!(packed.status == 2 && packed.error.contains("read with --record"), "{}", packed.error);
            for words in [&["show", "--record", "-"], &["show", "-", "--record"]] {
                let shown = office_with(words, &bytes);
                assert_eq!(shown.status, 1, "{}", shown.error);
                assert!(shown.text().contains("stated length"), "{}", shown.text());
                assert_eq!(office_with(&["pack", "-"], &shown.output).output, bytes);
            }
        }
    }
    let mut job = office(&["pack", HOUSE]).output;
    job[0] = 0xff;
    assert!(office_with(&["flow", "-", "--record"], &job).text().starts_with("refused 1: "));
    assert!(office_with(&["choose", "--record", "-", TABLE], &job).text().starts_with("refused 1: "));
    let unclear = office_with(&["choose", "-", TABLE, "--record"], &job);
    assert!(unclear.status == 2 && unclear.error.contains("stands before the file"), "{}", unclear.error);
}

/// The sheet program has no status to give; what it wrote tells whether it is whole.
#[test]
fn a_lost_sheet_is_told_from_a_whole_one() {
    let whole = "house 4542 17750 740\nsection 1 2052 1026 71\nsection 2 9 8 7\nhead -21 0 1\n";
    let cut = |lines: usize| whole.split_inclusive('\n').take(lines).collect::<String>();
    let sheets = [
        (whole.to_string(), true),
        ("refused 12\n".to_string(), true),
        (String::new(), false),
        (cut(1), false),
        (cut(3), false),
        (whole.trim_end().to_string(), false),
        (whole.replace("section 2", "section 3"), false),
        (format!("{whole}{whole}"), false),
        ("refused 12".to_string(), false),
        ("refused\n".to_string(), false),
    ];
    let kept = scratch("sheet");
    for (sheet, expected) in sheets {
        std::fs::write(&kept, &sheet).expect("written");
        let ran = Command::new("sh").args(["examples/whole-sheet.sh", &kept]).current_dir(top()).output();
        assert_eq!(ran.expect("the shell starts").status.success(), expected, "{sheet:?}");
    }
}
