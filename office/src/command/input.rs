//! Files as the command reads them: a readable file or a binary record, told apart by the first byte.

use super::lent::{LISTED, Losses};
use super::outcome::{Misuse, word};
use office::answer;
use office::at::Lines;
use office::catalogue::Catalogue;
use office::loss::{self, NoLosses};
use office::meter::{self, Meter, NoMeters};
use office::readable::{self, MOST_BYTES};
use office::record::Record;
use office::which::Which;
use office::{house, losses, meters, table};
use std::ffi::{OsStr, OsString};
use std::io::Read;

/// How a file is to be read.
#[derive(Clone, Copy, Debug, Default, PartialEq, Eq)]
pub enum Reading {
    #[default]
    ByContent,
    /// `--record`
    Record,
    /// `--text`
    Text,
}

/// A file that a word of the command names.
#[derive(Clone, Copy)]
pub struct File<'a> {
    pub file: &'a OsStr,
    pub reading: Reading,
}

/// What a file holds.
pub enum Content {
    /// A job record, a catalogue or the record of a list of losses.
    Record(Vec<u8>),
    /// The record of a list of meters.
    Meters(Vec<u8>),
    /// What the command has printed with `--json`.
    Answer(Vec<u8>),
    Text(String),
}

/// A job, a catalogue, a list of meters or one of losses, with the lines of its fields where it came from a readable file.
pub struct Source {
    /// The file's name for messages.
    pub name: String,
    pub bytes: Vec<u8>,
    pub lines: Lines,
}

/// A list of meters with the names that a readable file has for them.
pub struct Meters {
    pub source: Source,
    pub names: Vec<String>,
}

/// The bytes of a file, up to the limit; `-` is standard input.
fn bytes(file: &OsStr) -> Result<Vec<u8>, Misuse> {
    let mut bytes = Vec::new();
    // One byte more shows that there is more, without reading what may have no end.
    let most = MOST_BYTES as u64 + 1;
    let read = match file == "-" {
        true => std::io::stdin().lock().take(most).read_to_end(&mut bytes),
        false => std::fs::File::open(file).and_then(|open| open.take(most).read_to_end(&mut bytes)),
    };
    read.map_err(|why| Misuse::Words(format!("{} can't be read: {why}", name(file))))?;
    if bytes.len() > MOST_BYTES {
        let name = name(file);
        return Err(Misuse::Words(format!("{name} has over {MOST_BYTES} bytes; no house, table or list is as long")));
    }
    Ok(bytes)
}

pub fn name(file: &OsStr) -> String {
    if file == "-" { "standard input".to_string() } else { word(&file.to_string_lossy()) }
}

impl File<'_> {
    pub fn name(&self) -> String {
        name(self.file)
    }

    /// All bytes of the file.
    pub fn bytes(&self) -> Result<Vec<u8>, Misuse> {
        bytes(self.file)
    }

    /// The file's record or text.
    pub fn content(&self) -> Result<Content, Misuse> {
        self.content_of(self.bytes()?)
    }

    /// The record or text of the file's bytes. No bytes at all are no text, so that the library gives its number for them.
    fn content_of(&self, bytes: Vec<u8>) -> Result<Content, Misuse> {
        match self.reading {
            Reading::Record => Ok(Content::Record(bytes)),
            Reading::ByContent if bytes.is_empty() || readable::is_record(&bytes) => Ok(Content::Record(bytes)),
            Reading::ByContent if meter::is_list(&bytes) => Ok(Content::Meters(bytes)),
            _ if answer::is_answer(&bytes) => Ok(Content::Answer(bytes)),
            _ => readable::text(&bytes).map(Content::Text).map_err(|found| Misuse::Mistakes(self.name(), found)),
        }
    }

    /// What the file is, where another was expected.
    pub fn another(&self, found: Which, expected: Which) -> Misuse {
        self.is_instead(found.name(), expected)
    }

    fn is_instead(&self, found: &str, expected: Which) -> Misuse {
        Misuse::Words(format!("{} is {found}; {} is expected", self.name(), expected.name()))
    }

    /// A record as it is.
    pub fn as_it_is(&self, bytes: Vec<u8>) -> Source {
        Source { name: self.name(), bytes, lines: Lines::default() }
    }

    /// The content of a file that no library call has a number for: there must be some.
    pub fn some_content(&self) -> Result<Content, Misuse> {
        match self.content()? {
            Content::Record(bytes) if bytes.is_empty() => {
                Err(Misuse::Words(format!("{}: the file is empty", self.name())))
            }
            content => Ok(content),
        }
    }

    /// The bytes of a record for `show`, which has no use for a text.
    pub fn record_of(&self, bytes: Vec<u8>) -> Result<Vec<u8>, Misuse> {
        let name = self.name();
        match bytes.first() {
            None => Err(Misuse::Words(format!("{name}: the file is empty"))),
            Some(_) if self.reading == Reading::Record || readable::is_record(&bytes) => Ok(bytes),
            Some(first) if meter::begins(&bytes) => match binary(&bytes, false) {
                Binary::Job(_) | Binary::Catalogue(_) => Err(Misuse::Words(format!(
                    "{name} begins with {first:02X} as a list of meters does, but has the length of a job record or a \
                     catalogue, whose first byte is 00; `--record` shows a record that is damaged there"
                ))),
                _ => Ok(bytes),
            },
            Some(0) => Err(Misuse::Words(format!(
                "{name} is text in UTF-16 without its mark: saved as UTF-8, `office pack` packs it; `--record` shows it as a \
                 record all the same"
            ))),
            Some(b'[') => Err(self.no_object(LISTED)),
            Some(first) => Err(Misuse::Words(format!(
                "{name} is readable already, since its first byte is {first:02X} and a record's is 00, 01 or 02; `office \
                 pack` packs it, and `--record` shows a record that is damaged there"
            ))),
        }
    }

    /// A job: a readable house is packed, a record is taken as it is.
    pub fn job(&self) -> Result<Source, Misuse> {
        self.job_of(self.bytes()?)
    }

    /// The job of the file's bytes.
    pub fn job_of(&self, bytes: Vec<u8>) -> Result<Source, Misuse> {
        match self.content_of(bytes)? {
            Content::Record(bytes) => Ok(self.as_it_is(bytes)),
            Content::Meters(_) => Err(self.another(Which::Meters, Which::House)),
            Content::Answer(_) => Err(self.is_instead(ANSWER, Which::House)),
            Content::Text(text) => match Which::of(&text) {
                Which::House => self.house(&text),
                other => Err(self.another(other, Which::House)),
            },
        }
    }

    /// A readable house.
    pub fn house(&self, text: &str) -> Result<Source, Misuse> {
        let packed = house::read(text).map_err(|mistakes| Misuse::Mistakes(self.name(), mistakes))?;
        Ok(Source { name: self.name(), bytes: packed.bytes, lines: packed.lines })
    }

    /// A catalogue: a readable table is packed, a record is taken as it is.
    pub fn catalogue(&self) -> Result<Source, Misuse> {
        match self.content()? {
            Content::Record(bytes) => Ok(self.as_it_is(bytes)),
            Content::Meters(_) => Err(self.another(Which::Meters, Which::Table)),
            Content::Answer(_) => Err(self.is_instead(ANSWER, Which::Table)),
            Content::Text(text) => match Which::of(&text) {
                Which::Table => self.table(&text),
                other @ (Which::Meters | Which::Losses) => Err(self.another(other, Which::Table)),
                Which::House => Err(self.headless(Which::Table, table::FORM.header(','))),
            },
        }
    }

    /// A text whose first line is not the header that is expected.
    fn headless(&self, expected: Which, header: String) -> Misuse {
        let what = expected.name().trim_start_matches("a ");
        Misuse::Words(format!("{} is no {what}: its first line is not `{header}`", self.name()))
    }

    /// A readable table.
    pub fn table(&self, text: &str) -> Result<Source, Misuse> {
        let packed = table::read(text).map_err(|mistakes| Misuse::Mistakes(self.name(), mistakes))?;
        Ok(Source { name: self.name(), bytes: packed.bytes, lines: packed.lines })
    }

    /// A list of meters: a readable one is packed, a record is taken as it is. No text begins with a meter's type.
    pub fn meters(&self) -> Result<Meters, Misuse> {
        let bytes = self.bytes()?;
        if self.reading == Reading::ByContent && meter::begins(&bytes) {
            return Ok(Meters { source: self.as_it_is(bytes), names: Vec::new() });
        }
        match self.content_of(bytes)? {
            Content::Record(bytes) | Content::Meters(bytes) => {
                Ok(Meters { source: self.as_it_is(bytes), names: Vec::new() })
            }
            Content::Answer(_) => Err(self.is_instead(ANSWER, Which::Meters)),
            Content::Text(text) => {
                self.is_list(&text, Which::Meters, meters::FORM.header(','))?;
                self.list(&text)
            }
        }
    }

    /// Whether a text may be the list that is expected. One that is whole as something else is named as that, and one that begins
    /// as no list is told which header it lacks.
    pub fn is_list(&self, text: &str, expected: Which, header: String) -> Result<(), Misuse> {
        let found = Which::of(text);
        let whole = match found {
            Which::House => house::read(text).is_ok(),
            Which::Table => table::read(text).is_ok(),
            Which::Meters | Which::Losses => found != expected,
        };
        match found {
            _ if whole => Err(self.another(found, expected)),
            Which::House if readable::lines(text).next().is_some() => Err(self.headless(expected, header)),
            _ => Ok(()),
        }
    }

    /// A readable list of losses.
    pub fn loss_list(&self, text: &str) -> Result<Losses, Misuse> {
        let packed = losses::read(text).map_err(|mistakes| Misuse::Mistakes(self.name(), mistakes))?;
        let source = Source { name: self.name(), bytes: packed.bytes, lines: packed.lines };
        Ok(Losses { source, service: packed.service, answer: None })
    }

    /// A readable list of meters.
    pub fn list(&self, text: &str) -> Result<Meters, Misuse> {
        let packed = meters::read(text).map_err(|mistakes| Misuse::Mistakes(self.name(), mistakes))?;
        let source = Source { name: self.name(), bytes: packed.bytes, lines: packed.lines };
        Ok(Meters { source, names: packed.names })
    }

    /// A list of sizes: numbers between commas, or `@` and a file with such numbers or with the bytes themselves.
    pub fn sizes(&self) -> Result<Vec<u8>, Misuse> {
        let Some(file) = behind_at(self.file) else { return numbers(&self.file.to_string_lossy()) };
        let (name, bytes) = (name(&file), bytes(&file)?);
        // Sizes 9, 10, 12 and 13 are blanks as letters: only a byte that no text has shows size bytes.
        let blank = |byte: &u8| b"\t\n\x0c\r ".contains(byte);
        let raw = !bytes.is_empty() && bytes.iter().all(|byte| *byte < 0x20) && !bytes.iter().all(blank);
        if self.reading == Reading::Record || (self.reading == Reading::ByContent && raw) {
            return Ok(bytes);
        }
        let text = readable::text(&bytes).map_err(|found| Misuse::Mistakes(name.clone(), found))?;
        let mut found = Vec::new();
        for line in readable::lines(&text) {
            if let Some(fault) = line.fault() {
                return Err(Misuse::Mistakes(name, fault.into()));
            }
            found.extend(numbers(line.content)?);
        }
        match found.is_empty() {
            false => Ok(found),
            true => Err(Misuse::Words(format!(
                "{name} has no size number; `--record` takes its {} bytes as sizes",
                bytes.len()
            ))),
        }
    }
}

/// How a message calls what the command has printed with `--json`.
pub const ANSWER: &str = "an answer of `office` as JSON";

/// What binary bytes are: a list of meters by its types, a list of losses by the first byte of each, the others by their length,
/// which is never the same for a job and a catalogue with the same counts.
pub enum Binary {
    Job(Record),
    Catalogue(Catalogue),
    Meters(Vec<Meter>),
    Losses(Vec<u32>),
    /// None of them, in words.
    Neither(String),
}

/// What these bytes are. A list of meters that is none by its types is one by its length; where its first byte is 0, as in the
/// other records, only if these bytes are known to be a record that may be damaged there. So is a list of losses of which one has
/// another first byte than 0.
pub fn binary(bytes: &[u8], forced: bool) -> Binary {
    let meters = meter::read(bytes);
    if let Ok(meters) = &meters
        && meter::is_list(bytes)
    {
        return Binary::Meters(meters.clone());
    }
    let meters = meters.and_then(|meters| match forced || meter::begins(bytes) {
        true => Ok(meters),
        false => Err(NoMeters { given: bytes.len() }),
    });
    let losses = loss::read(bytes).and_then(|losses| match forced || loss::is_list(bytes) {
        true => Ok(losses),
        false => Err(NoLosses { given: bytes.len() }),
    });
    match (Record::read(bytes), Catalogue::read(bytes), meters, losses) {
        (_, _, _, Ok(losses)) if loss::is_list(bytes) => Binary::Losses(losses),
        (Ok(record), _, _, _) => Binary::Job(record),
        (_, Ok(catalogue), _, _) => Binary::Catalogue(catalogue),
        (_, _, Ok(meters), _) => Binary::Meters(meters),
        (_, _, _, Ok(losses)) => Binary::Losses(losses),
        (Err(job), Err(catalogue), Err(meters), Err(losses)) => Binary::Neither(format!(
            "no job record: {job};\nno catalogue: {catalogue};\nno list of meters: {meters};\nno list of losses: {losses}"
        )),
    }
}

/// Whether a text has whole numbers between commas and blanks and nothing else, as a list of sizes has.
pub fn is_of_sizes(text: &str) -> bool {
    let plain = |c: char| c.is_ascii_digit() || c == ',' || c.is_whitespace();
    text.chars().all(plain) && text.contains(|c: char| c.is_ascii_digit())
}

/// The file behind `@`, whose name need not be text.
#[cfg(unix)]
pub fn behind_at(word: &OsStr) -> Option<OsString> {
    use std::os::unix::ffi::OsStrExt;
    word.as_bytes().strip_prefix(b"@").map(|file| OsStr::from_bytes(file).to_os_string())
}

/// The file behind `@`. Systems of another kind have no safe way to cut a name that is no text.
#[cfg(not(unix))]
pub fn behind_at(word: &OsStr) -> Option<OsString> {
    word.to_string_lossy().strip_prefix('@').map(OsString::from)
}

/// The size numbers of a line. Nothing before a comma may be a section whose size was forgotten; behind the last comma there
/// is no section.
fn numbers(text: &str) -> Result<Vec<u8>, Misuse> {
    let entries: Vec<&str> = text.split(',').collect();
    if let Some(at) = entries[..entries.len() - 1].iter().position(|entry| entry.trim().is_empty()) {
        let wrong = format!("before comma {} of `{}` stands no size number", at + 1, word(text));
        return Err(Misuse::Words(format!("{wrong}; SIZES is {SIZES}")));
    }
    let plain = |part: &str| part.bytes().all(|b| b.is_ascii_digit());
    entries
        .into_iter()
        .flat_map(str::split_whitespace)
        .map(|part| {
            let no = || Misuse::Words(format!("`{}` is no size number; SIZES is {SIZES}", word(part)));
            part.parse().ok().filter(|_| plain(part)).ok_or_else(no)
        })
        .collect()
}

const SIZES: &str = "a size number from 1 to 12 for each section, between commas, or @FILE";
