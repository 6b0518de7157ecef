//! A readable house with another meter loss: that number takes the place of the one that stood there, and every other byte
//! stays, those of comments, blanks, line ends and marks too.

use crate::at::{At, Field};
use crate::measure::{self, shown};
use crate::readable::{self, Saved};
use std::ops::Range;

/// The bytes of a readable house with this meter loss in cm, in the unit that its author wrote; none where the bytes are no
/// house.
pub fn with_meter_loss(bytes: &[u8], loss: u16) -> Option<Vec<u8>> {
    let text = readable::text(bytes).ok()?;
    let line = super::read(&text).ok()?.lines.of(At::Field(Field::Meter))?;
    let saved = Saved::of(bytes).ok()?;
    let whole = saved.line(line)?;
    let content = saved.bytes[whole.clone()].split(|byte| *byte == b'#').next()?;
    let (number, power) = number(std::str::from_utf8(content).ok()?)?;
    let value = shown(loss.into(), power);
    let value = if power == 0 { &value } else { value.trim_end_matches('0').trim_end_matches('.') };
    Some(saved.with(whole.start + number.start..whole.start + number.end, value.as_bytes()))
}

/// Where the number of a line stands, and the power of ten of its unit. The words before it have no digit.
fn number(content: &str) -> Option<(Range<usize>, u32)> {
    let start = content.find(|c: char| c.is_ascii_digit())?;
    let length = content[start..].find(|c: char| !c.is_ascii_digit() && c != '.')?;
    // A semicolon at the end of a word counts as a blank.
    let behind = content[start + length..].trim_start_matches(|c: char| c == ';' || c.is_whitespace()).to_lowercase();
    let unit: String = behind.chars().take_while(|c| c.is_alphabetic()).collect();
    Some((start..start + length, measure::METER.power(&unit)?))
}

#[cfg(test)]
mod tests {
    use super::*;

    const HOUSE: &str = "local losses 0.3\nhours 24\nmeter loss 50 cm # as built\nguaranteed head 500 cm\n\
        delivered head 1200 cm\nvelocity limit 1500 mm/s\nresidents dwelling 84\n\
        section 1 from pump length 10 m elevation 600 cm kind dwelling fixtures 80 free 200 cm\n";

    fn wide(text: &str, big: bool) -> Vec<u8> {
        let units = [0xfeff].into_iter().chain(text.encode_utf16());
        units.flat_map(|unit| if big { unit.to_be_bytes() } else { unit.to_le_bytes() }).collect()
    }

    #[test]
    fn the_number_alone_is_replaced_in_its_own_unit() {
        for (from, to) in [
            ("meter loss 50 cm # as built", "meter loss 211 cm # as built"),
            ("  Meter\tLoss :  050cm; # 50 cm", "  Meter\tLoss :  211cm; # 50 cm"),
            ("meter loss 0.50 m", "meter loss 2.11 m"),
            ("METER LOSS: 12 М# Ж", "METER LOSS: 2.11 М# Ж"),
            ("meter loss:0.5m;", "meter loss:2.11m;"),
            ("meter loss 50; cm", "meter loss 211; cm"),
            ("meter loss; 0.5;\tm;", "meter loss; 2.11;\tm;"),
        ] {
            let [before, after] = [from, to].map(|line| HOUSE.replace("meter loss 50 cm # as built", line));
            for end in ["\n", "\r\n", "\r"] {
                let [before, after] = [&before, &after].map(|text| text.replace('\n', end));
                assert_eq!(with_meter_loss(before.as_bytes(), 211), Some(after.clone().into_bytes()), "{from}");
                let [marked, wanted] = [&before, &after].map(|text| format!("\u{feff}{text}\u{1a}").into_bytes());
                assert_eq!(with_meter_loss(&marked, 211), Some(wanted), "{from}");
                for big in [true, false] {
                    assert_eq!(with_meter_loss(&wide(&before, big), 211), Some(wide(&after, big)), "{from}");
                }
            }
        }
    }

    #[test]
    fn the_line_may_be_the_first_or_the_last() {
        let rest = HOUSE.replace("meter loss 50 cm # as built\n", "");
        let first = |line: &str| format!("\u{feff}{line}\n{rest}").into_bytes();
        let last = |line: &str| format!("{rest}{line}\u{1a}").into_bytes();
        assert_eq!(with_meter_loss(&first("meter loss 50cm"), 7), Some(first("meter loss 7cm")));
        assert_eq!(with_meter_loss(&last("meter loss 50cm"), 7), Some(last("meter loss 7cm")));
    }

    #[test]
    fn metres_have_no_more_decimals_than_they_need() {
        let metres = HOUSE.replace("50 cm #", "0.5 m #");
        for (loss, written) in [(1, "0.01"), (20, "0.2"), (200, "2"), (500, "5"), (105, "1.05")] {
            let wanted = HOUSE.replace("50 cm #", &format!("{written} m #"));
            assert_eq!(with_meter_loss(metres.as_bytes(), loss), Some(wanted.into_bytes()));
        }
    }

    #[test]
    fn comments_of_an_older_code_page_stay() {
        let odd = |line: &str| [b"# \xea\xf3\xf5\xed\xff\0\n", line.as_bytes(), b"\xf1\xec\n"].concat();
        let house = |line: &str| [odd(line), HOUSE.replace("meter loss 50 cm # as built\n", "").into_bytes()].concat();
        let found = with_meter_loss(&house("meter loss 50 cm # "), 7);
        assert_eq!(found, Some(house("meter loss 7 cm # ")));
    }

    #[test]
    fn what_is_no_house_stays_none() {
        for bytes in [&b""[..], b"meter loss 50 cm\n", &[0, 0, 0, 50, 1], HOUSE.replace("50 cm", "50").as_bytes()] {
            assert_eq!(with_meter_loss(bytes, 7), None);
        }
    }
}
