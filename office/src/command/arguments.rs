//! The command's words: its name, its files, its options.

use super::help;
use super::input::{File, Reading};
use super::keep;
use super::outcome::{Misuse, all_of, word};
use super::walked::{self, Start};
use std::borrow::Cow;
use std::ffi::OsString;

#[derive(Debug, Default)]
pub struct Arguments {
    pub command: String,
    /// Files, size lists and numbers, in their order.
    pub words: Vec<OsString>,
    /// How each of the words is to be read.
    readings: Vec<Reading>,
    pub out: Option<OsString>,
    pub json: bool,
    pub strict: bool,
    pub seed: Option<u64>,
    /// What `heat` is given beside its file, as it was written.
    pub cold_water: Option<OsString>,
    pub loss: Option<OsString>,
    /// The section from which `rate` and `heads` walk to the pump.
    pub walk: Option<Start>,
    pub help: bool,
}

/// Options may stand anywhere, but those that say how a file is read stand before it; behind `--` everything is a plain
/// word.
pub fn parse(words: &[OsString]) -> Result<Arguments, Misuse> {
    let mut found = Arguments::default();
    let mut plain: Vec<(OsString, Reading)> = Vec::new();
    let mut next = Reading::ByContent;
    let mut rest = words.iter();
    while let Some(word) = rest.next() {
        // What is no text is no option either.
        match word.to_str().unwrap_or("") {
            "--" => plain.extend(rest.by_ref().map(|word| (word.clone(), std::mem::take(&mut next)))),
            "--json" => found.json = true,
            "--strict" => found.strict = true,
            "-h" | "--help" => found.help = true,
            "--record" => set_reading(&mut next, Reading::Record)?,
            "--text" => set_reading(&mut next, Reading::Text)?,
            option if WITH_A_VALUE.contains(&option) => found.set(option, rest.next())?,
            // It takes the command's place, or that of the command on which there is to be help.
            "--version" if plain.iter().all(|(word, _)| word == "help") => {
                plain.push((word.clone(), Reading::ByContent))
            }
            "--version" => return Err(Misuse::Words("`--version` stands alone, as `office --version`".to_string())),
            option if option.starts_with('-') && option != "-" => return Err(unknown(option)),
            // The command's own name is no file.
            _ if plain.is_empty() => plain.push((word.clone(), Reading::ByContent)),
            _ => plain.push((word.clone(), std::mem::take(&mut next))),
        }
    }
    let mut plain = plain.into_iter();
    found.command = plain.next().map_or("help".to_string(), |(word, _)| word.to_string_lossy().into_owned());
    (found.words, found.readings) = plain.unzip();
    found.check(next)?;
    found.last_reading(next)?;
    Ok(found)
}

/// An option that there is not. A value stands behind a blank, and not behind `=`.
fn unknown(option: &str) -> Misuse {
    let advice = match option.split_once('=') {
        Some((own, value)) if WITH_A_VALUE.contains(&own) => {
            format!("write a blank in place of `=`, as `{own} {}`", word(value))
        }
        _ => "`office help` lists them".to_string(),
    };
    Misuse::Words(format!("there is no option `{}`; {advice}", word(option)))
}

/// The options behind which a value stands.
const WITH_A_VALUE: [&str; 5] = ["-o", "--seed", "--cold-water", "--loss", "--walk"];

fn set_reading(next: &mut Reading, reading: Reading) -> Result<(), Misuse> {
    if *next != Reading::ByContent {
        return Err(Misuse::Words("`--record` and `--text` stand before a file each".to_string()));
    }
    *next = reading;
    Ok(())
}

/// Takes the value of an option that may be given once only: of two only one could be meant.
fn set_once<T>(place: &mut Option<T>, value: T, option: &str) -> Result<(), Misuse> {
    match place.replace(value) {
        None => Ok(()),
        Some(_) => Err(Misuse::Words(format!("`{option}` is given twice"))),
    }
}

fn value(word: Option<&OsString>, option: &str, what: &str) -> Result<OsString, Misuse> {
    word.cloned().ok_or_else(|| Misuse::Words(format!("`{option}` wants {what}")))
}

/// A value that is a number. Another option in its place is none: what stands behind that would be taken for a file.
fn numeric(word: Option<&OsString>, option: &str, what: &str) -> Result<OsString, Misuse> {
    let value = value(word, option, what)?;
    match value.to_str().filter(|next| next.starts_with("--") || ["-o", "-h"].contains(next)) {
        Some(next) => {
            let next = self::word(next);
            Err(Misuse::Words(format!("`{option}` has no number: `{next}` stands behind it; it wants {what}")))
        }
        None => Ok(value),
    }
}

/// A whole number given as a word.
pub fn number(given: &str, what: &str) -> Result<u64, Misuse> {
    let plain = given.bytes().all(|b| b.is_ascii_digit());
    let no = || Misuse::Words(format!("`{}` is no whole number for {what}", word(given)));
    given.parse().ok().filter(|_| plain).ok_or_else(no)
}

impl Arguments {
    /// An option with the word behind it.
    fn set(&mut self, option: &str, word: Option<&OsString>) -> Result<(), Misuse> {
        let value = |what: &str| value(word, option, what);
        match option {
            "-o" => self.set_out(value("a file")?),
            "--cold-water" => {
                set_once(&mut self.cold_water, numeric(word, option, "a temperature in degrees C")?, option)
            }
            "--loss" => set_once(&mut self.loss, numeric(word, option, "a number of W")?, option),
            // Judged before words are counted: of a file in the number's place, the count would only say that one is missing.
            "--walk" => set_once(&mut self.walk, Start::read(&numeric(word, option, walked::WANTED)?)?, option),
            seed => {
                self.seed = Some(number(&value("a number")?.to_string_lossy(), seed)?);
                Ok(())
            }
        }
    }

    /// There is one answer, so it has one file. A dash is standard output, where it goes anyway.
    fn set_out(&mut self, file: OsString) -> Result<(), Misuse> {
        match self.out.replace(file) {
            None => Ok(()),
            Some(_) => Err(Misuse::Words("`-o` is given twice; the answer goes to one file".to_string())),
        }
    }

    /// A reading behind the last file is about it, where there is no other that could be meant.
    fn last_reading(&mut self, reading: Reading) -> Result<(), Misuse> {
        match (reading, self.readings.as_mut_slice()) {
            (Reading::ByContent, _) => Ok(()),
            (_, [Reading::ByContent]) => {
                self.readings[0] = reading;
                Ok(())
            }
            _ => Err(Misuse::Words("`--record` or `--text` stands before the file that it is about".to_string())),
        }
    }

    /// A word that is no file's name.
    pub fn text(&self, place: usize) -> Option<Cow<'_, str>> {
        self.words.get(place).map(|word| word.to_string_lossy())
    }

    /// A word that is a file's name.
    pub fn file(&self, place: usize) -> File<'_> {
        File { file: &self.words[place], reading: self.readings[place] }
    }

    /// Whether `-o -` makes standard output the file, so that nothing but an answer belongs there.
    pub fn is_piped(&self) -> bool {
        self.out.as_ref().is_some_and(|out| out == "-")
    }

    /// The file of the answer, where it does not go to standard output.
    pub fn kept(&self) -> Option<&OsString> {
        self.out.as_ref().filter(|out| *out != "-")
    }

    /// The right count of words, and no option that the command would not heed; `last` is the reading behind the last file.
    fn check(&self, last: Reading) -> Result<(), Misuse> {
        let Some(known) = help::COMMANDS.iter().find(|known| known.name == self.command) else { return Ok(()) };
        if self.help {
            return Ok(());
        }
        let misuse = |why: String| Err(Misuse::Words(format!("{why}\nusage: {}", known.usage)));
        if let (0, Some(first)) = (known.most, self.text(0)) {
            return misuse(format!("`{}` takes no words, but `{}` is given", self.command, word(&first)));
        }
        if self.words.len() < known.least || self.words.len() > known.most {
            return misuse(format!("`{}` takes {}, not {}", self.command, count(known), self.words.len()));
        }
        let forced = |reading: Reading| last == reading || self.readings.contains(&reading);
        let options = [
            (self.json, "--json"),
            (self.strict, "--strict"),
            (forced(Reading::Record), "--record"),
            (forced(Reading::Text), "--text"),
            (self.out.is_some(), "-o"),
            (self.seed.is_some(), "--seed"),
            (self.cold_water.is_some(), "--cold-water"),
            (self.loss.is_some(), "--loss"),
            (self.walk.is_some(), "--walk"),
        ];
        if let Some((_, option)) = options.iter().find(|(given, option)| *given && !known.has(option)) {
            return misuse(format!("`{}` has no option {option}{}", self.command, others_with(option)));
        }
        if self.words.iter().filter(|word| *word == "-" || *word == "@-").count() > 1 {
            return misuse("standard input can be read only once".to_string());
        }
        if let Some(file) = self.kept().filter(|out| known.reads && keep::is_read(out, &self.words)) {
            let name = word(&file.to_string_lossy());
            return misuse(format!("`-o {name}` would overwrite the file that is read; name another"));
        }
        Ok(())
    }
}

/// The commands that have an option, where they are few.
fn others_with(option: &str) -> String {
    let names: Vec<String> =
        help::COMMANDS.iter().filter(|other| other.has(option)).map(|other| format!("`{}`", other.name)).collect();
    match names.len() {
        1 => format!("; {} has it", all_of(&names)),
        2..=MOST_NAMED => format!("; {} have it", all_of(&names)),
        _ => String::new(),
    }
}

/// Of more commands none is named.
const MOST_NAMED: usize = 3;

fn count(known: &help::Command) -> String {
    match (known.least, known.most) {
        (1, 1) => "1 word".to_string(),
        (least, most) if least == most => format!("{least} words"),
        (least, most) => format!("{least} to {most} words"),
    }
}
