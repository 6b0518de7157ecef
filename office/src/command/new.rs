//! `office new`: a file to start from. The same texts are the examples of `office help files`.

use super::arguments::Arguments;
use super::outcome::{Misuse, Outcome, word};
use std::path::Path;

pub const HOUSE: &str = include_str!("new/house.txt");
pub const TABLE: &str = include_str!("new/table.csv");
pub const METERS: &str = include_str!("new/meters.csv");
pub const LOSSES: &str = include_str!("new/losses.csv");

/// What there is to begin with, and its text.
const STARTS: &[(&str, &str)] = &[("house", HOUSE), ("table", TABLE), ("meters", METERS), ("losses", LOSSES)];

pub fn new(arguments: &Arguments) -> Result<Outcome, Misuse> {
    let what = arguments.text(0).unwrap_or_default();
    let Some((_, text)) = STARTS.iter().find(|(name, _)| *name == what) else {
        let names: Vec<&str> = STARTS.iter().map(|(name, _)| *name).collect();
        let (last, others) = names.split_last().expect("there are some");
        let what = word(&what);
        return Err(Misuse::Words(format!("`new` gives no `{what}`; it gives {} or {last}", others.join(", "))));
    };
    // Every other answer can be had again; what somebody has filled in since the last `new` can't.
    match arguments.kept().filter(|file| Path::new(file).is_file()) {
        Some(file) => {
            let file = word(&file.to_string_lossy());
            Err(Misuse::Words(format!("{file} is there already, and `new` replaces no file; name another")))
        }
        None => Ok(Outcome::answer(*text)),
    }
}
