//! What the tests of lists share: lists with one thing put for another, and their mistakes. Not every test needs all of it.
#![allow(dead_code)]

use crate::run::office_with;
use office::mistake::{Mistake, Mistakes};

/// What makes bytes of a list.
pub type Pack = fn(&str) -> Result<Vec<u8>, Mistakes>;

pub fn put(text: &str, from: &str, to: &str) -> String {
    assert!(text.contains(from), "{from}");
    text.replacen(from, to, 1)
}

/// The line of a mistake.
pub fn line(mistake: &Mistake) -> Option<usize> {
    mistake.line.as_ref().map(|(number, _)| *number)
}

/// The first mistake of a text.
pub fn first(pack: Pack, text: &str) -> Mistake {
    pack(text).expect_err(text).list.into_iter().next().expect("a mistake")
}

/// The mistakes of a list with this header and these rows below it.
pub fn mistakes(pack: Pack, header: &str, rows: &str) -> Mistakes {
    pack(&format!("{header}\n{rows}\n")).expect_err(rows)
}

/// The only mistake of a list.
pub fn only(pack: Pack, header: &str, rows: &str) -> Mistake {
    let mistakes = mistakes(pack, header, rows);
    assert_eq!((mistakes.list.len(), mistakes.more), (1, 0), "{mistakes}");
    mistakes.list.into_iter().next().expect("one")
}

/// What is put for what, the line of the mistake, what is wrong and what is expected.
pub type Slip = (&'static str, &'static str, usize, &'static str, &'static str);

/// Each slip in a list that is sound is named, by the package and by the command with these words.
pub fn are_named(slips: &[Slip], sound: &str, pack: Pack, words: &[&str]) {
    for (from, to, number, wrong, expected) in slips {
        let text = put(sound, from, to);
        let mistake = first(pack, &text);
        assert_eq!(line(&mistake), Some(*number), "{to}: {mistake}");
        assert!(mistake.wrong.contains(wrong), "{to}: {mistake}");
        assert!(mistake.expected.contains(expected), "{to}: {mistake}");
        let ran = office_with(words, text.as_bytes());
        assert_eq!((ran.status, ran.output.len()), (2, 0), "{to}");
        assert!(ran.error.contains(&format!("standard input line {number}: ")), "{to}: {}", ran.error);
    }
}
