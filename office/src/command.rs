//! What `office` does with its words: parsing, running, writing.

mod arguments;
mod charts;
mod fields;
mod files;
mod heads;
mod heat;
mod help;
mod input;
mod json;
mod keep;
mod kinds;
mod lent;
mod losses;
mod meter;
mod network;
mod new;
mod outcome;
mod picked;
mod rating;
mod refused;
mod report;
mod required;
mod sections;
mod topics;
mod trials;
mod version;
mod walked;

use crate::closed;
use arguments::Arguments;
use outcome::{Misuse, Outcome};
use std::ffi::OsString;
use std::io::Write;
use std::process::ExitCode;

/// Runs one command and gives its status, which is 0, 1 or 2.
pub fn run(words: &[OsString]) -> ExitCode {
    let outcome = match arguments::parse(words) {
        Ok(arguments) => {
            perform(&arguments).unwrap_or_else(|why| Outcome::misuse(&why, report::misuse(&arguments, &why)))
        }
        Err(why) => Outcome::misuse(&why, String::new()),
    };
    let lost = write_output(&outcome.output).err();
    // A warning that can't be written has nowhere else to go; the status says it too.
    let _ = std::io::stderr().write_all(outcome.warning.as_bytes());
    let Some(why) = lost else { return ExitCode::from(outcome.status) };
    let lost = Misuse::Words(format!("the answer can't be written to standard output: {why}"));
    let _ = std::io::stderr().write_all(lost.text().as_bytes());
    ExitCode::from(2)
}

/// Writes to standard output. Where that fails the answer is lost, on a full disk as at a closed pipe, and a script must not
/// take what is there for the whole of it.
fn write_output(output: &[u8]) -> std::io::Result<()> {
    if output.is_empty() {
        return Ok(());
    }
    if closed::output_was_closed() {
        return Err(std::io::Error::other("it is closed"));
    }
    let mut out = std::io::stdout().lock();
    out.write_all(output).and_then(|()| out.flush())
}

fn perform(arguments: &Arguments) -> Result<Outcome, Misuse> {
    let outcome = answer(arguments)?;
    match arguments.kept() {
        // A refusal is no answer to keep: it goes to standard output, and the file is left alone.
        Some(file) if outcome.answered => {
            let name = outcome::word(&file.to_string_lossy());
            let lost = |why| Misuse::Words(format!("{name} can't be written: {why}"));
            match &outcome.kept {
                Some(kept) => keep::keep(file, kept).map_err(lost).map(|()| outcome),
                None => {
                    keep::keep(file, &outcome.output).map_err(lost)?;
                    Ok(Outcome { output: Vec::new(), ..outcome })
                }
            }
        }
        _ => Ok(outcome),
    }
}

fn answer(arguments: &Arguments) -> Result<Outcome, Misuse> {
    if arguments.help {
        return help::of_command(&arguments.command);
    }
    match arguments.command.as_str() {
        "pack" => files::pack(arguments),
        "show" => files::show(arguments),
        "flow" => network::flow(arguments),
        "meter" => meter::meter(arguments),
        "rate" => network::rate(arguments),
        "losses" => losses::losses(arguments),
        "heads" => heads::heads(arguments),
        "choose" => network::choose(arguments),
        "heat" => heat::heat(arguments),
        "draw" => network::draw(arguments),
        "kinds" => kinds::kinds(arguments),
        "new" => new::new(arguments),
        "soak" => trials::soak(arguments),
        "replay" => trials::replay(arguments),
        "bench" => trials::bench(arguments),
        "help" => help::of(&arguments.text(0).unwrap_or("help".into())),
        "--version" => version::version(arguments),
        other => help::none(other),
    }
}
