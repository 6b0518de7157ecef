//! `office soak`, `replay` and `bench`: the library against the model.

use super::arguments::{Arguments, number};
use super::input::{ANSWER, Content};
use super::outcome::{Misuse, Outcome};
use office::case::Case;
use std::io::IsTerminal;

/// Made-up orders. Where the two differ, the order is given in the form that `replay` takes.
pub fn soak(arguments: &Arguments) -> Result<Outcome, Misuse> {
    let cases = number(&arguments.text(0).unwrap_or_default(), "the count of orders")?;
    let seed = arguments.seed.unwrap_or(1);
    let watched = std::io::stderr().is_terminal();
    let mut progress = |done: u64| {
        if watched {
            eprintln!("{done} of {cases}");
        }
    };
    Ok(match office::soak(cases, seed, &mut progress) {
        Ok(counters) => {
            let counted = counters.to_string();
            Outcome::answer(format!("library and model agree on {cases} orders, seed {seed}\n{}\n", counted.trim_end()))
        }
        Err(mismatch) => Outcome::refusal(format!("{mismatch}\n")),
    })
}

/// One kept order.
pub fn replay(arguments: &Arguments) -> Result<Outcome, Misuse> {
    let file = arguments.file(0);
    let name = file.name();
    let text = match file.some_content()? {
        Content::Text(text) => text,
        Content::Answer(_) => return Err(Misuse::Words(format!("{name} is {ANSWER}, and so no order to replay"))),
        _ => return Err(Misuse::Words(format!("{name} is no text, and so no order to replay"))),
    };
    Case::parse(&text).map_err(|why| Misuse::Words(format!("{name} is no order to replay: {why}")))?;
    Ok(match office::replay(&text) {
        Ok(words) => Outcome::answer(format!("{}\n", words.trim_end())),
        Err(words) => Outcome::refusal(format!("{}\n", words.trim_end())),
    })
}

/// Times of the calls, beside those of their rivals.
pub fn bench(_: &Arguments) -> Result<Outcome, Misuse> {
    Ok(Outcome::answer(office::bench()))
}
