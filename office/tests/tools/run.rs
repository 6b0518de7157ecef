//! The built command, run at the top of the repository. Not every test needs all of it.
#![allow(dead_code)]

use std::hash::{DefaultHasher, Hash, Hasher};
use std::io::Write;
use std::path::PathBuf;
use std::process::{Command, Stdio};

pub struct Ran {
    pub status: i32,
    pub output: Vec<u8>,
    pub error: String,
}

impl Ran {
    pub fn text(&self) -> String {
        String::from_utf8(self.output.clone()).expect("the output is text")
    }
}

/// The top of the repository.
pub fn top() -> PathBuf {
    PathBuf::from(env!("CARGO_MANIFEST_DIR")).join("..")
}

pub fn read(file: &str) -> String {
    std::fs::read_to_string(top().join(file)).unwrap_or_else(|why| panic!("{file}: {why}"))
}

pub fn office(words: &[&str]) -> Ran {
    office_with(words, b"")
}

/// With something on standard input.
pub fn office_with(words: &[&str], input: &[u8]) -> Ran {
    let mut child = Command::new(env!("CARGO_BIN_EXE_office"))
        .args(words)
        .current_dir(top())
        .stdin(Stdio::piped())
        .stdout(Stdio::piped())
        .stderr(Stdio::piped())
        .spawn()
        .expect("the command starts");
    // A command that reads no input closes it early.
    let _ = child.stdin.take().expect("its input is a pipe").write_all(input);
    let done = child.wait_with_output().expect("the command ends");
    let error = String::from_utf8(done.stderr).expect("the error output is text");
    Ran { status: done.status.code().expect("no signal ended it"), output: done.stdout, error }
}

/// A file of this test's own, outside the checkout: some tests make links, and `rt ci` refuses a checkout with a link in it. Each
/// checkout has a folder of its own.
pub fn scratch(name: &str) -> String {
    let mut checkout = DefaultHasher::new();
    env!("CARGO_MANIFEST_DIR").hash(&mut checkout);
    let folder = std::env::temp_dir().join(format!("office-tests-{:016x}", checkout.finish()));
    std::fs::create_dir_all(&folder).expect("a folder for what the tests write");
    folder.join(name).to_str().expect("the folder's name is text").to_string()
}
