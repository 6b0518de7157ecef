//! The test program, `target/bin/vectors`, on its input as it comes: what the stored lines don't show. The coefficients are the
//! model's.
#![cfg(unix)]

#[path = "tools/program.rs"]
mod program;

use office::model::alpha::alpha;
use program::{LIMIT, ended, feed, not_ended, output, program};
use std::io::Write;
use std::os::fd::OwnedFd;
use std::os::unix::net::UnixDatagram;
use std::process::Stdio;
use std::sync::mpsc;
use std::thread;
use std::time::Duration;

/// A line that asks for the coefficient of these digits of m.
fn asking(m: &str) -> String {
    format!("a 0000 00 00000000 0004 0000 {m}\n")
}

/// What the program prints for these m, a line each.
fn coefficients(of: &[i128]) -> String {
    of.iter().map(|m| format!("{:08x}\n", alpha(*m))).collect()
}

fn printed(input: &str) -> String {
    let mut child = program("vectors", Stdio::piped(), Stdio::piped());
    feed(&mut child, input.as_bytes(), usize::MAX);
    let text = output(&mut child);
    assert_eq!(ended(child).code(), Some(0));
    text
}

/// A single last digit is the lower half of its byte. The upper half is the last digit that the latest earlier line with that
/// byte had in it, or 0.
#[test]
fn a_single_last_digit() {
    assert_ne!(alpha(0xfff5), alpha(0xff05));
    assert_eq!(printed(&asking("0000ff5")), coefficients(&[0xff05]));
    let lines = ["0000ffff", "0000ff5", "0000ff50", "0000ff5", "0000ff7"].map(asking).concat();
    assert_eq!(printed(&lines), coefficients(&[0xffff, 0xfff5, 0xff50, 0xff05, 0xff57]));
    // A line that doesn't come as far, of three bytes of m, has no answer and leaves the digit.
    let lines = ["0000ffff", "0000ff", "0000ff5"].map(asking).concat();
    assert_eq!(printed(&lines), [coefficients(&[0xffff]), "\n".to_string(), coefficients(&[0xfff5])].concat());
}

/// 65,536 bytes have come before their lines are answered, and the pipe holds as many more: who writes nearly all of these and
/// then reads need not wait.
#[test]
fn a_writer_that_reads_late() {
    // An empty job, refused with 1, and the 256 bytes of the buffer: 522 bytes for 24.
    let (line, answer) = ("f0100000000000000000000\n", format!("00000001 {}\n", "00".repeat(256)));
    let lines = 120_000 / line.len();
    let input = line.repeat(lines);
    let mut child = program("vectors", Stdio::piped(), Stdio::piped());
    let mut pipe = child.stdin.take().expect("its input is a pipe");
    let (tell, told) = mpsc::channel();
    thread::spawn(move || {
        for some in input.as_bytes().chunks(4096) {
            pipe.write_all(some).expect("the program reads to the end");
            // So that the program reads this much by itself.
            thread::sleep(Duration::from_millis(5));
        }
        let _ = tell.send(());
    });
    if told.recv_timeout(LIMIT).is_err() {
        not_ended(&mut child);
    }
    assert_eq!(output(&mut child), answer.repeat(lines));
    assert_eq!(ended(child).code(), Some(0));
}

/// At a terminal an end of input (Ctrl-D) is the end of a chunk, and one with nothing before it is the program's. A socket of
/// datagrams gives a program the same reads: what is sent at once is one read, and an end is a read of no bytes.
#[test]
fn lines_after_an_end_of_input() {
    let (typed, seen) = UnixDatagram::pair().expect("two sockets");
    typed.set_write_timeout(Some(LIMIT)).expect("a limit");
    let [one, two, three, four] = ["0000ffff", "0001ffff", "0002ffff", "0003ffff"].map(asking);
    for some in [&one, "", &two, "", &three, "", "", &four] {
        typed.send(some.as_bytes()).expect("sent");
    }
    let mut child = program("vectors", OwnedFd::from(seen).into(), Stdio::piped());
    let text = output(&mut child);
    assert_eq!(ended(child).code(), Some(0));
    assert_eq!(text, coefficients(&[0xffff, 0x1ffff, 0x2ffff]));
}
