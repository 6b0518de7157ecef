//! The bytes of a readable file as text, and its lines. What a comment holds is nobody's business, unless some program shows a
//! line of a house, a table or a list in it; everywhere else each byte must be a letter that can be read in one way only.

use crate::echo;
use crate::meter;
use crate::mistake::{Mistake, Mistakes};
use std::ops::Range;

/// Far above any house or table, and below what would trouble a small computer.
pub const MOST_BYTES: usize = 1 << 20;
/// Bytes of a line; a line of separators alone must not cost many times its length.
const LONGEST_LINE: usize = 10_000;

/// Whether bytes are a record: its length is under 2²⁴, so its first byte is 0, and no text begins so but one in UTF-16.
pub fn is_record(bytes: &[u8]) -> bool {
    bytes.first() == Some(&0) && !is_wide(bytes)
}

/// Whether bytes look like UTF-16 without its mark: in plain text every second byte is then 0, and beside it stands a letter.
/// A record that states its own length has two such bytes in front, which a text in UTF-16 can't have.
fn is_wide(bytes: &[u8]) -> bool {
    let letter = |byte: u8| byte >= 0x20 || b"\t\n\r".contains(&byte);
    let plain = |zero: usize| {
        let pairs = bytes.chunks_exact(2);
        let (all, zeros) = (pairs.len(), pairs.clone().filter(|two| two[zero] == 0).count());
        let letters = pairs.filter(|two| two[zero] == 0).all(|two| letter(two[1 - zero]));
        all >= 2 && zeros * 10 >= all * 8 && letters
    };
    plain(0) || plain(1)
}

/// The bytes of a readable file behind its mark, each line's letters as UTF-8 or as an older code page has them.
pub struct Saved {
    pub bytes: Vec<u8>,
    mark: &'static [u8],
}

const UTF_8: &[u8] = &[0xef, 0xbb, 0xbf];
const BIG: &[u8] = &[0xfe, 0xff];
const LITTLE: &[u8] = &[0xff, 0xfe];

impl Saved {
    pub fn of(bytes: &[u8]) -> Result<Saved, Mistakes> {
        let mark = [UTF_8, BIG, LITTLE].into_iter().find(|mark| bytes.starts_with(mark)).unwrap_or(&[]);
        let bytes = if mark.len() == 2 { utf_16(bytes)?.into_bytes() } else { bytes[mark.len()..].to_vec() };
        Ok(Saved { bytes, mark })
    }

    /// The byte at which lines end: in a file without any newline it is the carriage return.
    fn end(&self) -> u8 {
        if self.bytes.contains(&b'\n') { b'\n' } else { b'\r' }
    }

    /// Where a line stands, from 1; a carriage return before its newline belongs to it.
    pub fn line(&self, number: usize) -> Option<Range<usize>> {
        let end = self.end();
        let mut lines = self.bytes.split(|byte| *byte == end);
        let before: usize = lines.by_ref().take(number.checked_sub(1)?).map(|line| line.len() + 1).sum();
        lines.next().map(|line| before..before + line.len())
    }

    /// The file's bytes with other letters in one place.
    pub fn with(&self, place: Range<usize>, letters: &[u8]) -> Vec<u8> {
        let bytes = [&self.bytes[..place.start], letters, &self.bytes[place.end..]].concat();
        let units = || String::from_utf8_lossy(&bytes).encode_utf16().collect::<Vec<u16>>();
        match self.mark {
            BIG => [BIG.to_vec(), units().into_iter().flat_map(u16::to_be_bytes).collect()].concat(),
            LITTLE => [LITTLE.to_vec(), units().into_iter().flat_map(u16::to_le_bytes).collect()].concat(),
            mark => [mark, &bytes].concat(),
        }
    }
}

/// The text of a readable file, its lines ended by newlines, or what is no text in it, by line and byte.
pub fn text(bytes: &[u8]) -> Result<String, Mistakes> {
    let saved = Saved::of(bytes)?;
    if saved.mark.len() != 2 && is_wide(bytes) {
        let wrong = format!(
            "byte 1 of the line, {:02X}, and the next belong together: this is UTF-16 without its mark",
            bytes[0]
        );
        return Err(Mistake::on(1, "", wrong, "the file saved as UTF-8").into());
    }
    let (end, mut bytes) = (saved.end(), &saved.bytes[..]);
    // Older programs end a text so.
    while let [rest @ .., 0x1a] = bytes {
        bytes = rest;
    }
    let mut mistakes = Mistakes::default();
    let mut text = String::with_capacity(bytes.len());
    let lines: usize = 1 + bytes.iter().filter(|byte| **byte == end).count();
    for (place, line) in bytes.split(|byte| *byte == end).enumerate() {
        // Behind the last newline there is no line end that a carriage return could belong to.
        let ended = end == b'\n' && place + 1 < lines;
        let line = if ended { line.strip_suffix(b"\r").unwrap_or(line) } else { line };
        if let Some(mistake) = unreadable(place + 1, line) {
            mistakes.add(mistake);
        }
        text.push_str(&String::from_utf8_lossy(line));
        text.push('\n');
    }
    mistakes.none(text)
}

/// Text in UTF-16 behind its mark, which says which byte of two comes first.
fn utf_16(bytes: &[u8]) -> Result<String, Mistakes> {
    let wrong = |why: &str| {
        Mistakes::from(Mistake::lacking(format!("the file is UTF-16 and {why}"), "the file saved as UTF-8"))
    };
    if bytes.len() % 2 == 1 {
        return Err(wrong("has half a character at its end"));
    }
    let high = usize::from(bytes[0] == 0xff);
    let units = bytes.chunks_exact(2).skip(1).map(|two| u16::from_be_bytes([two[high], two[1 - high]]));
    char::decode_utf16(units).collect::<Result<String, _>>().map_err(|_| wrong("has half a pair of units in it"))
}

const LEADS_OUT: &str = "the file saved as UTF-8; letters behind # may be anything; a record that is damaged in its first \
    byte is read with --record";

/// Whether a line begins as one of a house does. A list of meters may begin with its service flows.
pub fn begins_a_house(line: &str) -> bool {
    let line = line.trim_start().to_lowercase();
    let service = line.strip_prefix("service").is_some_and(|rest| !rest.trim_start().starts_with("flow"));
    service || OF_A_HOUSE.iter().any(|word| line.starts_with(word))
}

/// The words that begin a house's lines, beside the service's.
const OF_A_HOUSE: [&str; 11] = [
    "local",
    "hours",
    "meter",
    "guaranteed",
    "delivered",
    "velocity limit",
    "residents",
    "section ",
    "section\t",
    "version",
    "stated length",
];

/// The characters besides newline and carriage return at which some program begins a line.
fn begins_a_line(c: char) -> bool {
    matches!(c, '\u{b}' | '\u{c}' | '\u{1c}'..='\u{1e}' | '\u{85}' | '\u{2028}' | '\u{2029}')
}

/// What a comment holds that some program shows as a line of a house or as a row: its author would miss it without a word.
fn hidden(comment: &str) -> Option<&str> {
    let row = |line: &str| {
        let cells: Vec<String> = line.split([',', ';', '\t']).map(str::to_lowercase).collect();
        let begun = line.starts_with(|c: char| c.is_ascii_digit() || ",;\"".contains(c));
        let meter = cells.iter().any(|cell| meter::design(cell.trim_matches([' ', '"'])).is_some());
        (begun && cells.len() > 1) || (meter && cells.len() > 2)
    };
    let mut shown = comment.split(begins_a_line).skip(1).map(|line| line.trim_start_matches([' ', '\t']));
    shown.find(|line| row(line) || begins_a_house(line))
}

/// What is no text outside of a line's comment, by its first byte, counted from 1; or a line that a comment hides.
fn unreadable(number: usize, line: &[u8]) -> Option<Mistake> {
    let mistake = |at: usize, what: &str, expected: &str| {
        let wrong = format!("byte {} of the line, {:02X}, is {what}", at + 1, line[at]);
        Some(Mistake::on(number, &String::from_utf8_lossy(line), wrong, expected))
    };
    if line.len() > LONGEST_LINE {
        let wrong = format!("the line has {} bytes", line.len());
        // Of a long line only its start is for the message; the rest is not looked at.
        let start = String::from_utf8_lossy(&line[..LONGEST_LINE]);
        return Some(Mistake::on(number, &start, wrong, "at most 10000 bytes in a line"));
    }
    if let Some(at) = line.iter().position(|byte| *byte == b'\r') {
        let expected = "lines that all end alike: to one program it ends a line, to another it doesn't";
        return mistake(at, "a carriage return alone", expected);
    }
    let content = line.split(|byte| *byte == b'#').next().unwrap_or(line);
    if let Some(hidden) = hidden(&String::from_utf8_lossy(&line[content.len()..])) {
        let wrong = format!("behind # stands what some programs show as a line of its own, `{}`", echo::shown(hidden));
        let expected = "a newline before it, or a blank if it is part of the comment";
        return Some(Mistake::on(number, &String::from_utf8_lossy(line), wrong, expected));
    }
    let whole = std::str::from_utf8(content).map_err(|why| why.valid_up_to());
    let front = whole.err().unwrap_or(content.len());
    let text = std::str::from_utf8(&content[..front]).unwrap_or("");
    // Outside of a comment a form feed is a blank: what stands behind it is read, whether in this line or in the next.
    let control = |c: char| (c.is_control() && c != '\t' && c != '\u{c}') || matches!(c, '\u{2028}' | '\u{2029}');
    match (text.char_indices().find(|(_, c)| control(*c)), whole) {
        (Some((at, c)), _) if begins_a_line(c) => {
            mistake(at, "a character at which some programs begin a line", "a newline")
        }
        (Some((at, _)), _) => mistake(at, "no letter but a control character", LEADS_OUT),
        (None, Err(at)) => mistake(at, "no UTF-8: an older code page (cp1251, cp866), or no text", LEADS_OUT),
        (None, Ok(_)) => None,
    }
}

/// A line that is not blank without its comment.
pub struct TextLine<'a> {
    /// From 1.
    pub number: usize,
    /// All of it, for messages.
    pub text: &'a str,
    /// Without its comment.
    pub content: &'a str,
}

/// The lines that are not blank without their comments.
pub fn lines(text: &str) -> impl Iterator<Item = TextLine<'_>> {
    text.lines().enumerate().filter_map(|(place, text)| {
        let content = text.split('#').next().unwrap_or("");
        (!content.trim().is_empty()).then_some(TextLine { number: place + 1, text, content })
    })
}

/// The comments of a text with the numbers of their lines, also of lines that hold nothing else; a second `#` in a line begins
/// another one.
pub fn comments(text: &str) -> impl Iterator<Item = (usize, &str)> {
    (1..).zip(text.lines()).flat_map(|(number, line)| line.split('#').skip(1).map(move |comment| (number, comment)))
}

impl TextLine<'_> {
    /// A sign for comments that may be part of a word.
    pub fn fault(&self) -> Option<Mistake> {
        let behind = self.text[self.content.len()..].chars().nth(1);
        let word = self.content.chars().last().is_some_and(char::is_alphanumeric);
        let within = word && behind.is_some_and(char::is_alphanumeric);
        let expected = "a blank before a comment; no # in a name or number";
        within.then(|| Mistake::on(self.number, self.text, "`#` stands within a word", expected))
    }
}

#[cfg(test)]
mod tests {
    use super::*;

    #[test]
    fn line_ends_and_marks() {
        for bytes in [&b"a\nb\n"[..], b"a\r\nb\r\n", b"a\rb\r", b"\xef\xbb\xbfa\nb\n", b"a\nb\n\x1a", b"a\nb\n\x1a\x1a"]
        {
            assert_eq!(text(bytes).expect("text").trim_end(), "a\nb", "{bytes:?}");
        }
        for (bytes, wanted) in [(&b"\xff\xfea\0#\0"[..], "a#"), (b"\xfe\xff\0a\0#", "a#")] {
            assert_eq!(text(bytes).expect("text").trim_end(), wanted);
        }
        let bytes: Vec<u8> = (0..=255).filter(|byte| !b"\n\r".contains(byte)).collect();
        assert!(text(&[b"# ", &bytes[..], b"\nhours 24"].concat()).is_ok(), "bytes of a comment");
        assert!(text(b"# see\x0bservice flow, and\x0c Service\tflow\n").is_ok(), "a list's column begins no house");
        assert!(text("# wide\u{b}see page 3, 4\u{c}\u{2028}# hours 24\n".as_bytes()).is_ok(), "no line in a comment");
    }

    #[test]
    fn what_is_no_text_is_named_by_line_and_byte() {
        for (bytes, line, wrong) in [
            (&b"a\nfree 3 \xf1\xec\n"[..], 2, "byte 8 of the line, F1, is no UTF-8"),
            (b"a\nb\x00\n", 2, "byte 2 of the line, 00, is no letter"),
            (b"a\x1ab\n", 1, "byte 2 of the line, 1A"),
            (b"# a\rhours 24\nb\n", 1, "byte 4 of the line, 0D, is a carriage return alone"),
            (b"a\n# b\xe2\x80\xa8hours 24\n", 2, "show as a line of its own, `hours 24`"),
            (b"# \xea\xf3\x0bhours 24\n", 1, "show as a line of its own, `hours 24`"),
            (b"# a\x0bService: hot\n", 1, "show as a line of its own, `Service: hot`"),
            (b"a\xe2\x80\xa9b\n", 1, "byte 2 of the line, E2, is a character at which"),
            (b"\x0ca # b\x0chours 24\n", 1, "show as a line of its own, `hours 24`"),
            (b"a\0b\0\n\0", 1, "UTF-16 without its mark"),
            (b"\0a\0b\0\n", 1, "UTF-16 without its mark"),
        ] {
            let mistakes = text(bytes).expect_err(wrong);
            let first = &mistakes.list[0];
            assert_eq!(first.line.as_ref().map(|(number, _)| *number), Some(line), "{mistakes}");
            assert!(first.wrong.contains(wrong), "{mistakes}");
        }
        assert!(text(b"\xff\xfea\0\0\xd8").is_err() && text(b"\xff\xfea").is_err());
    }

    #[test]
    fn a_record_is_told_by_its_first_byte() {
        assert!(is_record(&[0, 0, 0, 50, 1]) && is_record(&[0]) && is_record(&[0; 40]) && is_record(&[0, 7, 1, 9]));
        assert!(is_record(&[0, 1, 0, 2]) && is_record(b"\0\0\0(\0\0"));
        assert!(!is_record(b"") && !is_record(b"hours") && !is_record(&[1, 0, 0, 50]) && !is_record(b"\0h\0o\0u\0r"));
    }
}
