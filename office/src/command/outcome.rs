//! What a command leaves: bytes to write, words for standard error, a status.

use office::echo;
use office::mistake::Mistakes;

/// Why a command gives no answer although no library call refused: status 2.
pub enum Misuse {
    /// Wrong words, an unreadable file.
    Words(String),
    /// Mistakes in a readable file, whose name is here.
    Mistakes(String, Mistakes),
    /// Losses of another house: the name of their file, and how they differ.
    AnotherHouse(String, String),
    /// Warnings that `--strict` makes a refusal, in words and as JSON.
    Strict(String, String),
}

impl Misuse {
    /// For standard error.
    pub fn text(&self) -> String {
        match self {
            Misuse::Words(text) => format!("office: {}\n", text.trim_end()),
            Misuse::Mistakes(name, mistakes) => {
                let mut text: String =
                    mistakes.list.iter().map(|mistake| format!("office: {name} {mistake}\n")).collect();
                if mistakes.more > 0 {
                    text.push_str(&format!("office: {name} has {} more mistakes\n", mistakes.more));
                }
                text
            }
            Misuse::AnotherHouse(name, why) => format!(
                "office: {name} is not of this house: {why}; it was made for another house, or for this one before a change; \
                 `office losses` works the losses out again\n"
            ),
            Misuse::Strict(warnings, _) => {
                format!("{warnings}office: there is no answer, since --strict makes a warning a refusal\n")
            }
        }
    }
}

/// A word of the command line as a message repeats it.
pub fn word(word: &str) -> String {
    echo::shown(word).replace('\n', "\\n")
}

/// Names or numbers for a message, as `one, two and three`.
pub fn all_of(names: &[String]) -> String {
    match names.split_last() {
        Some((last, others)) if !others.is_empty() => format!("{} and {last}", others.join(", ")),
        _ => names.concat(),
    }
}

pub struct Outcome {
    /// For standard output, or for the file of `-o` where this is an answer.
    pub output: Vec<u8>,
    /// For the file of `-o`, where something else than the output belongs there.
    pub kept: Option<Vec<u8>>,
    pub answered: bool,
    /// For standard error.
    pub warning: String,
    pub status: u8,
}

impl Outcome {
    pub fn answer(output: impl Into<Vec<u8>>) -> Outcome {
        Outcome { output: output.into(), kept: None, answered: true, warning: String::new(), status: 0 }
    }

    /// The library's refusal, given as the answer.
    pub fn refusal(output: String) -> Outcome {
        Outcome { output: output.into_bytes(), kept: None, answered: false, warning: String::new(), status: 1 }
    }

    /// The same with words for standard error, which change no status.
    pub fn with(self, warning: String) -> Outcome {
        Outcome { warning: self.warning + &warning, ..self }
    }

    /// Work that was done although the library refuses what was worked on. The status tells a script not to go on.
    pub fn refused_all_the_same(self) -> Outcome {
        Outcome { status: 1, ..self }
    }

    /// No answer. What stands on standard output is for machines.
    pub fn misuse(misuse: &Misuse, output: String) -> Outcome {
        Outcome { output: output.into_bytes(), kept: None, answered: false, warning: misuse.text(), status: 2 }
    }
}
