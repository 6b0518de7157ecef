//! Cells that are no plain number although one stands in them: why, and what to write.

use crate::measure::latin;

/// What is in the way of a cell's number, and what to write instead; none where there is no telling.
#[derive(Debug, Default, PartialEq, Eq)]
pub struct Remark {
    pub why: Option<&'static str>,
    pub written: Option<String>,
}

/// What is in the way of a cell's number; `power` shows one with its power of ten written out, if there is one to show.
pub fn remark(text: &str, power: &str) -> Remark {
    let end = text.find(|c: char| !c.is_ascii_digit() && c != '.').unwrap_or(text.len());
    let (number, behind) = text.split_at(end);
    let bare = |text: &str| text.chars().filter(|c| !c.is_whitespace()).collect::<String>();
    let joined = bare(text);
    let told = |why: &'static str, written: String| Remark { why: Some(why), written: Some(written) };
    if number.is_empty() {
        Remark::default()
    } else if behind.is_empty() {
        Remark { why: of_points(number), written: None }
    } else if joined.chars().all(|c| c.is_ascii_digit() || c == '.') {
        told("a blank stands in it", format!("nothing between digits; write {joined} if that is meant"))
    } else if is_power(&bare(behind)) {
        let shown = if power.is_empty() { String::new() } else { format!(", as {power}") };
        told("it has a power of ten", format!("the number written out{shown}"))
    } else if behind.starts_with(char::is_whitespace) || is_word(behind) {
        told("more than the number stands in it", "the number alone; its unit stands in the header".to_string())
    } else {
        let fraction = bare(behind).starts_with('/');
        Remark { why: fraction.then_some("a fraction stands in it"), written: None }
    }
}

/// What is wrong with the points among digits.
fn of_points(number: &str) -> Option<&'static str> {
    match (number.matches('.').count(), number.starts_with('.'), number.ends_with('.')) {
        (1, true, false) => Some("no digit stands before its point"),
        (1, false, true) => Some("no digit stands behind its point"),
        (2.., _, _) => Some("it has more than one point, and nothing stands between thousands"),
        _ => None,
    }
}

/// Whether a unit may be glued to the number. A single letter is rather a digit that was mistyped, unless it is the metre's.
fn is_word(behind: &str) -> bool {
    behind.starts_with(char::is_alphabetic) && (behind.chars().count() > 1 || latin(behind) == "m")
}

/// Whether what stands behind a number is a power of ten: `e-3`, `·10-5`, `*10^3`.
fn is_power(behind: &str) -> bool {
    let mut rest = behind.chars();
    match rest.next() {
        Some('e') => rest.as_str().trim_start_matches(['+', '-']).starts_with(|c: char| c.is_ascii_digit()),
        Some('·' | '⋅' | '*' | '×' | 'x' | 'х') => rest.as_str().starts_with("10"),
        _ => false,
    }
}

#[cfg(test)]
mod tests {
    use super::*;

    #[test]
    fn what_is_in_the_way_is_told() {
        for (text, why) in [
            ("6 400", "a blank"),
            ("6\u{a0}400", "a blank"),
            ("8.1e-3", "a power"),
            ("1e3", "a power"),
            ("1e+3", "a power"),
            ("810·10-5", "a power"),
            ("810 × 10⁻⁵", "a power"),
            ("7.66*10^-4", "a power"),
            ("0.5 m/(l/s)2", "more than"),
            ("6400l/h", "more than"),
            ("900 ₽", "more than"),
            ("0.71m", "more than"),
            ("0.71м", "more than"),
            ("1/2", "a fraction"),
            (".5", "no digit stands before"),
            ("7.", "no digit stands behind"),
            ("1.2.3", "more than one point"),
        ] {
            let found = remark(text, "").why.expect(text);
            assert!(found.contains(why), "{text}: {found}");
        }
        for text in ["", "4o", "forty", ".", "5-6", "-", "e3", "\"13"] {
            assert_eq!(remark(text, ""), Remark::default(), "{text}");
        }
        let written = |power: &str| remark("1e2", power).written;
        assert_eq!(written("").as_deref(), Some("the number written out"));
        assert_eq!(written("0.04 for 4E-2").as_deref(), Some("the number written out, as 0.04 for 4E-2"));
    }
}
