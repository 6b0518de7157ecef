//! What a message repeats of a file or of the command's words: nothing that moves a terminal's cursor or turns its text
//! round, never more than a message needs, and letters of another alphabet named.

use std::fmt::Write;

/// Characters of a line or a word that are repeated.
pub const LONGEST: usize = 200;

/// A text with its hidden characters written out, cut at [`LONGEST`].
pub fn shown(text: &str) -> String {
    // Writing characters out makes a text longer and never shorter.
    let whole = escaped(text.chars().take(LONGEST + 1));
    match whole.char_indices().nth(LONGEST) {
        Some((at, _)) => format!("{}...", &whole[..at]),
        None => whole,
    }
}

/// Characters with the hidden ones written out.
pub fn escaped(text: impl Iterator<Item = char>) -> String {
    text.fold(String::new(), |mut out, c| {
        match c {
            '\t' => out.push_str("\\t"),
            c if hidden(c) => {
                let _ = write!(out, "\\u{{{:x}}}", c as u32);
            }
            c => out.push(c),
        }
        out
    })
}

/// Controls of both blocks, marks of direction, characters without width, line ends of other kinds, private ones and tags:
/// a terminal obeys them or shows nothing.
pub fn hidden(c: char) -> bool {
    c.is_control()
        || matches!(c, '\u{ad}' | '\u{61c}' | '\u{180e}' | '\u{feff}' | '\u{200b}'..='\u{200f}' | '\u{2028}'..='\u{202e}')
        || matches!(c, '\u{2060}'..='\u{206f}' | '\u{e000}'..='\u{f8ff}' | '\u{fff9}'..='\u{fffb}' | '\u{e0000}'..)
}

/// Letters of other alphabets, in lower case as words are read, and the ones they are taken for.
const ALIKE: [(char, char); 24] = [
    ('а', 'a'),
    ('в', 'b'),
    ('е', 'e'),
    ('з', '3'),
    ('и', 'u'),
    ('к', 'k'),
    ('м', 'm'),
    ('н', 'h'),
    ('о', 'o'),
    ('п', 'n'),
    ('р', 'p'),
    ('с', 'c'),
    ('т', 't'),
    ('у', 'y'),
    ('х', 'x'),
    ('і', 'i'),
    ('ј', 'j'),
    ('ѕ', 's'),
    ('ԁ', 'd'),
    ('ο', 'o'),
    ('α', 'a'),
    ('ρ', 'p'),
    ('ν', 'v'),
    ('µ', 'u'),
];

/// What is to be said of characters that are not what they look like. The program's own words are plain, so in a message
/// every other character is the file's.
pub fn remark(text: &str) -> Option<String> {
    let odd: Vec<char> = text.chars().filter(|c| !c.is_ascii()).collect();
    let first = *odd.first()?;
    if let Some(c) = odd.iter().find(|c| hidden(**c)) {
        return Some(format!("U+{:04X} in it can't be seen", *c as u32));
    }
    let alike = |c: char| ALIKE.iter().find(|(letter, _)| *letter == c).map(|(_, latin)| *latin);
    let cyrillic = |c: char| ('\u{400}'..='\u{52f}').contains(&c);
    // A word that is Cyrillic as a whole is meant so, whatever its letters look like.
    let meant = |word: &str| word.chars().count() > 1 && word.chars().all(cyrillic);
    let word = text.split(|c: char| !c.is_alphabetic()).any(meant);
    match alike(first) {
        Some(latin) if !word && odd.iter().all(|c| alike(*c).is_some()) => {
            let alphabet = if cyrillic(first) { "Cyrillic" } else { "Greek" };
            Some(format!("U+{:04X}, a {alphabet} letter that looks like {latin}, is in it", first as u32))
        }
        _ if odd.iter().any(|c| cyrillic(*c)) => {
            Some("it has Cyrillic letters; the words of the format are English".to_string())
        }
        _ => Some(format!("U+{:04X} is in it", first as u32)),
    }
}

#[cfg(test)]
mod tests {
    use super::*;

    #[test]
    fn nothing_hidden_is_repeated() {
        assert_eq!(shown("a\u{1b}[31mb\u{9b}c\u{202e}d\te"), "a\\u{1b}[31mb\\u{9b}c\\u{202e}d\\te");
        assert_eq!(shown(&"x".repeat(201)), format!("{}...", "x".repeat(200)));
        assert_eq!(shown(&"x".repeat(200)), "x".repeat(200));
        assert_eq!(shown("Hôtel № 7, Ж"), "Hôtel № 7, Ж");
    }

    #[test]
    fn letters_of_another_alphabet_are_named() {
        assert_eq!(remark("hours"), None);
        let found = remark("`5\u{441}m` is no unit").expect("a remark");
        assert_eq!(found, "U+0441, a Cyrillic letter that looks like c, is in it");
        assert!(remark("`\u{3bf}ffices`").expect("a remark").contains("U+03BF, a Greek letter that looks like o"));
        assert!(remark("`часы` begins").expect("a remark").contains("Cyrillic letters"));
        for word in ["тип", "туре", "5см", "вода 5"] {
            let found = remark(&format!("`{word}` is no column")).expect("a remark");
            assert_eq!(found, "it has Cyrillic letters; the words of the format are English", "{word}");
        }
        assert!(remark("`pum\u{440}`").expect("a remark").contains("looks like p"));
        assert!(remark("`24\u{200b}`").expect("a remark").contains("U+200B in it can't be seen"));
        assert_eq!(remark("`é`").as_deref(), Some("U+00E9 is in it"));
    }
}
