//! The file of `-o`: nothing that was there is lost. And inputs without an end, outputs that are closed.
#![cfg(unix)]

#[path = "tools/run.rs"]
mod run;

use run::{office, office_with, read, scratch, top};
use std::os::unix::process::ExitStatusExt;
use std::process::{Command, Output};

const HOUSE: &str = "examples/house.txt";
const TABLE: &str = "examples/table.csv";
const METERS: &str = "examples/meters.csv";

/// A shell's line, run at the top of the repository, with the command's path in `$office`.
fn shell(line: &str) -> Output {
    Command::new("sh")
        .args(["-c", line])
        .env("office", env!("CARGO_BIN_EXE_office"))
        .env_remove("RUST_BACKTRACE")
        .current_dir(top())
        .output()
        .expect("the shell starts")
}

/// A folder of this test's own, empty.
fn folder(name: &str) -> String {
    let folder = scratch(name);
    let _ = std::fs::remove_dir_all(&folder);
    std::fs::create_dir_all(&folder).expect("made");
    folder
}

fn names(folder: &str) -> Vec<String> {
    let mut found: Vec<String> = std::fs::read_dir(folder)
        .expect("the folder is there")
        .map(|file| file.expect("a file").file_name().to_string_lossy().into_owned())
        .collect();
    found.sort();
    found
}

#[test]
fn a_file_that_is_read_is_known_by_every_name() {
    let folder = folder("names");
    let (house, hard, soft) = (format!("{folder}/house"), format!("{folder}/hard"), format!("{folder}/soft"));
    std::fs::write(&house, read(HOUSE)).expect("written");
    std::fs::hard_link(&house, &hard).expect("linked");
    std::os::unix::fs::symlink(&house, &soft).expect("linked");
    for out in [&house, &hard, &soft] {
        let ran = office(&["flow", &house, "-o", out]);
        assert!(ran.status == 2 && ran.error.contains("would overwrite the file that is read"), "{}", ran.error);
        let ran = shell(&format!("\"$office\" flow - -o '{out}' < '{house}'"));
        assert_eq!(ran.status.code(), Some(2), "standard input");
        assert!(String::from_utf8_lossy(&ran.stderr).contains("would overwrite the file that is read"));
        for words in [["meter", &house, METERS], ["meter", HOUSE, &house]] {
            let ran = office(&[&words[..], &["-o", out]].concat());
            assert!(ran.status == 2 && ran.error.contains("would overwrite the file that is read"), "{}", ran.error);
        }
        let sizes = office(&["rate", HOUSE, TABLE, &format!("@{hard}"), "-o", out]);
        assert!(sizes.error.contains("would overwrite"), "{}", sizes.error);
        assert_eq!(std::fs::read_to_string(&house).expect("as it was"), read(HOUSE));
    }
    assert_eq!(names(&folder), ["hard", "house", "soft"]);
}

#[test]
fn an_answer_replaces_the_whole_file_or_nothing() {
    let folder = folder("moved");
    let kept = format!("{folder}/kept.txt");
    let answer = office(&["flow", HOUSE]).output;
    std::fs::write(&kept, "older, and much longer than the answer\n".repeat(200)).expect("written");
    assert_eq!(office(&["flow", HOUSE, "-o", &kept]).status, 0);
    assert_eq!(std::fs::read(&kept).expect("written"), answer);
    // A limit on the length of files is as a full disk, where its signal is ignored, and as a kill, where it is not.
    let full = shell(&format!("trap '' XFSZ; ulimit -f 0; exec \"$office\" choose {HOUSE} {TABLE} -o '{kept}'"));
    assert_eq!(full.status.code(), Some(2), "{}", String::from_utf8_lossy(&full.stderr));
    assert!(String::from_utf8_lossy(&full.stderr).contains("can't be written"));
    assert_eq!((std::fs::read(&kept).expect("whole"), names(&folder)), (answer.clone(), vec!["kept.txt".to_string()]));
    let killed = shell(&format!("ulimit -f 0; exec \"$office\" choose {HOUSE} {TABLE} -o '{kept}'"));
    assert!(killed.status.signal().is_some(), "{killed:?}");
    assert_eq!(std::fs::read(&kept).expect("whole"), answer);
}

/// The house of `meter` is kept as an answer is, and the answer itself goes to standard output.
#[test]
fn the_house_of_meter_replaces_the_whole_file_or_nothing() {
    let folder = folder("metered");
    let (kept, link) = (format!("{folder}/kept.txt"), format!("{folder}/link"));
    let answer = office(&["meter", HOUSE, METERS]).output;
    let house = office(&["meter", HOUSE, METERS, "-o", "-"]).output;
    assert!(house != answer && house.len() + 2 == read(HOUSE).len(), "120 cm are 1 cm");
    std::fs::write(&kept, "older, and much longer than the house\n".repeat(200)).expect("written");
    std::os::unix::fs::symlink(&kept, &link).expect("linked");
    let ran = office(&["meter", HOUSE, METERS, "-o", &link]);
    let told = String::from_utf8(answer).expect("text").replace("; the house has 120 cm\n", "; the house had 120 cm\n");
    let told = format!("{told}The house with this meter loss was written to {link}.\n");
    assert_eq!((ran.status, ran.text(), ran.error.as_str()), (0, told, ""));
    assert_eq!(std::fs::read(&kept).expect("written"), house);
    assert!(std::fs::symlink_metadata(&link).expect("there").is_symlink());
    let full = shell(&format!("trap '' XFSZ; ulimit -f 0; exec \"$office\" meter {HOUSE} {METERS} -o '{kept}'"));
    assert_eq!((full.status.code(), full.stdout.len()), (Some(2), 0), "no answer where the house is lost");
    assert!(String::from_utf8_lossy(&full.stderr).contains("can't be written"));
    assert_eq!((std::fs::read(&kept).expect("whole"), names(&folder)), (house, vec!["kept.txt".into(), "link".into()]));
    let closed = shell(&format!("\"$office\" meter {HOUSE} {METERS} -o '{kept}' >&-"));
    assert_eq!(closed.status.code(), Some(2), "the answer is lost");
}

#[test]
fn links_stay_links_and_folders_folders() {
    let folder = folder("links");
    let (kept, link, lost) = (format!("{folder}/kept"), format!("{folder}/link"), format!("{folder}/lost"));
    std::fs::write(&kept, "older").expect("written");
    std::os::unix::fs::symlink(&kept, &link).expect("linked");
    std::os::unix::fs::symlink(format!("{folder}/nowhere"), &lost).expect("linked");
    assert_eq!(office(&["flow", HOUSE, "-o", &link]).status, 0);
    assert!(std::fs::symlink_metadata(&link).expect("there").is_symlink());
    assert_eq!(std::fs::read(&kept).expect("written"), office(&["flow", HOUSE]).output);
    for (out, why) in [(&lost, "a link that leads nowhere"), (&folder, "it is a folder")] {
        let ran = office(&["flow", HOUSE, "-o", out]);
        assert!(ran.status == 2 && ran.error.contains(why), "{}", ran.error);
    }
    assert_eq!(names(&folder), ["kept", "link", "lost"]);
    assert_eq!(office(&["flow", HOUSE, "-o", "/dev/null"]).status, 0, "no file of the disk");
}

#[test]
fn a_dash_is_standard_output() {
    for words in [&["flow", HOUSE][..], &["pack", HOUSE], &["draw", HOUSE, TABLE]] {
        let plain = office(words);
        let dashed = office(&[words, &["-o", "-"]].concat());
        assert_eq!((dashed.status, dashed.output), (0, plain.output), "{words:?}");
    }
    assert!(!top().join("-").exists());
    let through = office_with(&["flow", "-", "-o", "-"], read(HOUSE).as_bytes());
    assert_eq!(through.text(), office(&["flow", HOUSE]).text());
}

/// What a pipe hands on with `-o -` is an answer or nothing: a refusal in words stands on standard error.
#[test]
fn a_refusal_is_nothing_for_a_pipe() {
    let (circle, small) = ("examples/mistakes/circle.txt", "examples/mistakes/meters-too-small.csv");
    for words in [
        &["flow", circle][..],
        &["meter", circle, METERS],
        &["meter", HOUSE, small],
        &["losses", circle, TABLE, "6,6,6"],
        &["heads", HOUSE, "examples/mistakes/losses-of-the-wing.csv"],
        &["rate", circle, TABLE, "6,6,6"],
        &["choose", circle, TABLE],
        &["draw", circle, TABLE],
    ] {
        let (plain, dashed) = (office(words), office(&[words, &["-o", "-"]].concat()));
        assert!(plain.status == 1 && plain.text().starts_with("refused ") && plain.error.is_empty(), "{words:?}");
        assert_eq!((dashed.status, dashed.output.len(), dashed.error), (1, 0, plain.text()), "{words:?}");
    }
    // The work of `pack` is done all the same, and an object says itself that it is a refusal.
    let packed = office(&["pack", circle, "-o", "-"]);
    assert!(
        packed.status == 1 && packed.output.len() == 70 && packed.error.contains("refused 5: "),
        "{}",
        packed.error
    );
    let object = office(&["flow", circle, "-o", "-", "--json"]);
    assert!(object.status == 1 && object.text().contains("\"number\":5"), "{}", object.text());
    let piped = shell(&format!("\"$office\" meter {HOUSE} {small} -o - | \"$office\" choose - {TABLE}"));
    assert!(String::from_utf8_lossy(&piped.stderr).starts_with("refused 18: "));
    assert!(String::from_utf8_lossy(&piped.stdout).starts_with("standard input is empty; "), "{piped:?}");
}

#[test]
fn a_closed_output_is_a_lost_answer() {
    for line in [&format!("\"$office\" flow {HOUSE} >&-"), "\"$office\" help >&-", "\"$office\" flow /dev/null >&-"] {
        let ran = shell(line);
        let printed = String::from_utf8_lossy(&ran.stderr).into_owned();
        assert_eq!(ran.status.code(), Some(2), "{line}: {printed}");
        assert!(printed.contains("can't be written to standard output: it is closed"), "{printed}");
    }
    let kept = scratch("closed.txt");
    assert_eq!(shell(&format!("\"$office\" flow {HOUSE} -o '{kept}' >&-")).status.code(), Some(0), "none is needed");
    assert_eq!(shell(&format!("\"$office\" flow {HOUSE} > /dev/null")).status.code(), Some(0));
}

/// Under a limit of 12 MB for all memory, with all that the program itself takes.
#[test]
fn inputs_without_an_end_end_at_once() {
    let kept = scratch("endless.sizes");
    let one = "head -c 1048576";
    let lines = [
        ("\"$office\" flow /dev/zero".to_string(), "/dev/zero has over 1048576 bytes"),
        ("\"$office\" choose /dev/zero /dev/zero".to_string(), "has over 1048576 bytes"),
        (format!("\"$office\" rate {HOUSE} {TABLE} @/dev/zero"), "has over 1048576 bytes"),
        ("\"$office\" replay /dev/zero".to_string(), "has over 1048576 bytes"),
        (format!("\"$office\" meter {HOUSE} /dev/zero"), "has over 1048576 bytes"),
        (format!("{{ head -n 9 {METERS}; yes vane,0.5,6.4; }} | {one} | \"$office\" meter {HOUSE} -"), "more mistakes"),
        ("head -c 100000000 /dev/zero | tr '\\0' x | \"$office\" pack -".to_string(), "has over 1048576 bytes"),
        ("head -c 50000000 /dev/zero | tr '\\0' , | \"$office\" pack -".to_string(), "has over 1048576 bytes"),
        (format!("{one} /dev/zero | tr '\\0' , | \"$office\" pack -"), "the line has 1048576 bytes"),
        (format!("{one} /dev/zero | tr '\\0' x | \"$office\" flow - --json"), "the line has 1048576 bytes"),
        (format!("{one} /dev/zero | tr '\\0' '\\n' | \"$office\" flow -"), "the file is empty"),
        (format!("yes 'hours 24' | {one} | \"$office\" flow -"), "has 116493 more mistakes"),
        (format!("yes a | {one} | \"$office\" flow -"), "more mistakes"),
        (format!("yes a,b,c | {one} | \"$office\" pack -"), "`a` is no column"),
        (
            format!("{{ head -n 3 {TABLE}; yes 1,21,310,100,283,17; }} | {one} | \"$office\" pack -"),
            "size 1 has more rows than the count's byte holds",
        ),
        (format!("yes é# | {one} | \"$office\" flow - --json"), "more mistakes"),
        (format!("yes 1 | {one} > '{kept}'; \"$office\" rate {HOUSE} {TABLE} '@{kept}' --json"), "refused"),
        (format!("{one} /dev/zero > '{kept}'; \"$office\" rate {HOUSE} {TABLE} '@{kept}' --json"), "refused"),
        (
            format!(
                "{{ head -n 9 {METERS}; yes vane,0.5,6400; }} | head -n 60000 | \"$office\" meter {HOUSE} - --json"
            ),
            "refused",
        ),
        (format!("yes $(printf '\\001') | {one} | \"$office\" meter {HOUSE} - --json"), "refused"),
    ];
    for (line, why) in &lines {
        let ran = shell(&format!("ulimit -v 12000; {line}"));
        let (output, error) = (String::from_utf8_lossy(&ran.stdout), String::from_utf8_lossy(&ran.stderr));
        if *why == "refused" {
            let number = if line.contains(" meter ") { "\"number\":17" } else { "\"number\":12" };
            assert!(ran.status.code() == Some(1) && output.contains(number), "{line}: {error}");
            assert!(output.len() < 100_000, "{line}");
            continue;
        }
        assert_eq!(ran.status.code(), Some(2), "{line}: {error}");
        assert!(error.contains(why) && error.len() < 20_000, "{line}: {error}");
        assert!(error.lines().all(|printed| printed.chars().count() < 500), "{line}");
    }
}
