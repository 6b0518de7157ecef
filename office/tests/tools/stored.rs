//! The vectors that the Python model made, `crates/vectors/stdin` and `stdout`; `model/vectors.py` says what stands in the lines.

use std::fmt::Write;

pub struct Vector {
    pub name: String,
    /// All the refusals whose condition holds, where they are stated.
    pub holds: Option<Vec<u32>>,
    pub letter: char,
    pub room: usize,
    pub fill: u8,
    pub length: usize,
    pub first: Vec<u8>,
    pub second: Vec<u8>,
    pub third: Vec<u8>,
    /// The stored line.
    pub answer: &'static str,
}

const INPUT: &str = include_str!("../../../crates/vectors/stdin");
const OUTPUT: &str = include_str!("../../../crates/vectors/stdout");

/// All of them. Each line of the output answers the line of the input at its place; a comment is its own answer.
pub fn vectors() -> Vec<Vector> {
    assert_eq!(INPUT.lines().count(), OUTPUT.lines().count());
    let mut title = "";
    let mut found = Vec::new();
    for (line, answer) in INPUT.lines().zip(OUTPUT.lines()) {
        if line.starts_with('#') {
            assert_eq!(line, answer);
            title = line;
        } else {
            found.push(vector(title, line, answer));
        }
    }
    found
}

fn vector(title: &str, line: &str, answer: &'static str) -> Vector {
    let (name, holds) = match title.rsplit_once("; holds ") {
        Some((name, numbers)) => (name, Some(numbers.split(' ').filter_map(|number| number.parse().ok()).collect())),
        None => (title, None),
    };
    let bytes = unhex(&line[1..]);
    let number = |from: usize, to: usize| bytes[from..to].iter().fold(0, |all, byte| all << 8 | usize::from(*byte));
    let (one, two) = (11 + number(7, 9), 11 + number(7, 9) + number(9, 11));
    Vector {
        name: name.to_string(),
        holds,
        letter: line.chars().next().expect("no line is empty"),
        room: number(0, 2),
        fill: bytes[2],
        length: number(3, 7),
        first: bytes[11..one].to_vec(),
        second: bytes[one..two].to_vec(),
        third: bytes[two..].to_vec(),
        answer,
    }
}

fn unhex(text: &str) -> Vec<u8> {
    let digits: Vec<u8> = text.chars().filter(|c| *c != ' ').map(|c| c.to_digit(16).expect("a digit") as u8).collect();
    digits.chunks(2).map(|two| two[0] * 16 + two[1]).collect()
}

pub fn hex(bytes: &[u8]) -> String {
    bytes.iter().fold(String::new(), |mut text, byte| {
        let _ = write!(text, "{byte:02x}");
        text
    })
}

impl Vector {
    /// The input of a sheet, with its zero bytes.
    pub fn sheet_input(&self) -> Vec<u8> {
        let mut input = self.first.clone();
        input.resize(input.len() + self.length, 0);
        input
    }
}
