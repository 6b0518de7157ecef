//! `office --version`: which command, which library, by which specification.

use super::arguments::Arguments;
use super::json::Json;
use super::outcome::{Misuse, Outcome};
use super::refused::Given;
use super::report::{self, Fields};

/// The library is the archive of the crate `order`, which is linked into the command and delivered with it, so both have the
/// package's version.
const PACKAGE: &str = env!("CARGO_PKG_VERSION");
const SPECIFICATION: &str = "document 01 with L1 to L6 of document 02";

/// What has a version: its name in words, its key in JSON, its version.
const VERSIONS: &[(&str, &str, &str)] = &[
    ("command", "command_version", PACKAGE),
    ("library", "library_version", PACKAGE),
    ("specification", "specification", SPECIFICATION),
];

pub fn version(arguments: &Arguments) -> Result<Outcome, Misuse> {
    let lines: String = VERSIONS.iter().map(|(name, _, version)| format!("{name} {version}\n")).collect();
    report::answer(arguments, &Given::default(), fields, || lines.into_bytes())
}

fn fields() -> Fields {
    VERSIONS.iter().map(|(_, key, version)| (*key, Json::text(*version))).collect()
}
