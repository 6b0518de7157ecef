//! The command `office`: readable files, flows, ratings, choices and drawings, and the refusals in words.
//!
//! Standard output carries the answer, or the refusal, which is the library's answer too. Standard error carries warnings,
//! mistakes in readable files, and misuse. The status is 0 for an answer, 1 for a refusal, 2 for misuse or a mistake.

#![deny(unsafe_code)]

mod closed;
mod command;

use std::ffi::OsString;
use std::process::ExitCode;

fn main() -> ExitCode {
    // A file's name need not be text, so the words stay as the system gives them.
    let words: Vec<OsString> = std::env::args_os().skip(1).collect();
    command::run(&words)
}
