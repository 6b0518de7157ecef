//! The sheet program, `target/bin/sheet`, on whole inputs and outputs: what no contract can say. What it prints is held to the
//! model, and on the stored inputs to the Python model's text too.

#[path = "tools/program.rs"]
mod program;
#[path = "tools/sheet.rs"]
mod sheet;
// A sheet's vector has one part.
#[allow(dead_code)]
#[path = "tools/stored.rs"]
mod stored;

use program::{TOP, ended, feed, output};
use std::fs::File;
use std::os::unix::process::ExitStatusExt;
use std::path::Path;
use std::process::{Child, Command, Stdio};

fn file(name: &str) -> Vec<u8> {
    std::fs::read(Path::new(TOP).join(name)).unwrap_or_else(|why| panic!("{name}: {why}"))
}

fn text(name: &str) -> String {
    String::from_utf8(file(name)).expect("the file is text")
}

fn program(output: Stdio) -> Child {
    program::program("sheet", Stdio::piped(), output)
}

fn printed_in_pieces(input: &[u8], piece: usize) -> String {
    let mut child = program(Stdio::piped());
    feed(&mut child, input, piece);
    let text = output(&mut child);
    assert_eq!(ended(child).code(), Some(0));
    text
}

fn printed(input: &[u8]) -> String {
    printed_in_pieces(input, usize::MAX)
}

fn largest() -> Vec<u8> {
    file("crates/sheet/stdin")
}

/// Document 01's own case: the job has 50 bytes, the catalogue 47, and size 2 follows.
fn own() -> Vec<u8> {
    file("examples/own-case.sheet")
}

#[test]
fn the_own_case() {
    let sheet = "house 4542 17750 740\nsection 1 2052 1026 71\nhead 921 421 1\n";
    let job = office::house::pack(&text("examples/own-case.txt")).expect("a house");
    let cat = office::table::pack(&text("examples/own-case.csv")).expect("a table");
    assert_eq!(own(), [job, cat, vec![2]].concat());
    assert_eq!(printed(&own()), sheet);
    assert_eq!(sheet::of(&own()).0, sheet);
}

#[test]
fn the_largest_input() {
    let (input, text) = (largest(), text("crates/sheet/stdout"));
    assert_eq!(input.len(), 6_933);
    assert_eq!(sheet::of(&input).0, text);
    assert_eq!(printed(&input), text);
    for piece in [1, 7, 4_095, 4_096, 4_097] {
        assert_eq!(printed_in_pieces(&input, piece), text, "in pieces of {piece}");
    }
    // Each byte counts: with the last one off, and with one more, the list of sizes is wrong.
    assert_eq!(printed(&input[..6_932]), "refused 12\n");
    assert_eq!(printed(&[&input[..], &[1]].concat()), "refused 12\n");
}

#[test]
fn every_stored_input() {
    let mut ran = 0;
    for vector in stored::vectors().iter().filter(|vector| vector.letter == 's' && vector.room >= 4_096) {
        let text = printed(&vector.sheet_input());
        assert_eq!(stored::hex(text.as_bytes()), vector.answer, "{}", vector.name);
        ran += 1;
    }
    assert!(ran > 100, "{ran}");
}

#[test]
fn nothing_to_read() {
    assert_eq!(sheet::of(&[]).0, "refused 1\n");
    assert_eq!(printed(&[]), "refused 1\n");
}

/// The own case, its job or its catalogue stating another length, and zeros up to this many bytes.
fn long(at: usize, stated: u32, bytes: usize) -> Vec<u8> {
    let mut input = own();
    input[at..at + 4].copy_from_slice(&stated.to_be_bytes());
    input.resize(bytes, 0);
    input
}

/// Of the first 65,536 bytes each is read, and none behind them: a job that states 65,536 is whole (4) only if the last of them
/// is there, and one that states 65,537 never is (1).
#[test]
fn around_the_bytes_that_are_read() {
    for (bytes, at_the_end, past_it) in
        [(65_535, 1, 1), (65_536, 4, 1), (65_537, 4, 1), (65_538, 4, 1), (131_072, 4, 1)]
    {
        for (stated, number) in [(65_536, at_the_end), (65_537, past_it)] {
            let input = long(0, stated, bytes);
            let text = format!("refused {number}\n");
            assert_eq!(sheet::of(&input).0, text, "{bytes} bytes stating {stated}, by the model");
            assert_eq!(printed(&input), text, "{bytes} bytes stating {stated}");
            assert_eq!(printed_in_pieces(&input, 1_000), text, "{bytes} bytes stating {stated}, in pieces");
        }
    }
}

#[test]
fn long_inputs() {
    for bytes in [65_535, 65_536, 65_537, 100_000, 1 << 20, 1 << 24] {
        // The rest is the list of sizes, or the catalogue ends where the reading does.
        for input in [long(0, 50, bytes), long(50, 65_486, bytes), long(50, 65_487, bytes), vec![0xff; bytes]] {
            assert_eq!(printed(&input), sheet::of(&input).0, "{bytes} bytes");
        }
    }
}

/// Nothing is printed where nothing can be: the program ends by itself all the same.
#[test]
fn a_full_output() {
    let mut child = program(File::create("/dev/full").expect("/dev/full").into());
    feed(&mut child, &largest(), usize::MAX);
    assert_eq!(ended(child).code(), Some(0));
}

/// The reader has gone: a signal tells the program, or it ends by itself.
#[test]
fn an_output_that_nobody_reads() {
    let mut child = program(Stdio::piped());
    drop(child.stdout.take());
    feed(&mut child, &largest(), usize::MAX);
    let status = ended(child);
    assert!(status.code() == Some(0) || status.signal() == Some(13), "{status}");
}

/// No output at all.
#[test]
fn a_closed_output() {
    let mut child = Command::new("/bin/sh")
        .args(["-c", "exec target/bin/sheet >&-"])
        .current_dir(TOP)
        .stdin(Stdio::piped())
        .stderr(Stdio::piped())
        .spawn()
        .expect("the shell starts");
    feed(&mut child, &largest(), usize::MAX);
    assert_eq!(ended(child).code(), Some(0));
}
