//! The heads that a house asks for with its losses, as `rate`, `choose` and `heads` show them.

use super::charts::Figure;
use super::json::Json;
use super::network::{Demand, for_the_line};
use super::report::Fields;
use office::Heads;
use office::pipes::Pipe;
use office::record::Record;

/// What the ends ask for by the command's walks to the pump, where it is not what the library's heads say.
pub fn difference(record: &Record, pipes: &[Pipe], heads: &Heads) -> Option<String> {
    // Of equals the last counts, which from behind is the lowest number.
    let Some(end) = pipes.iter().rev().max_by_key(|pipe| pipe.asked(record.meter)) else {
        return Some("heads come for a house of which the command can read no section".to_string());
    };
    let (required, own) = (i64::from(heads.required), end.asked(record.meter));
    if required != own {
        return Some(format!("the required head is {required} cm by the library and {own} cm by the command"));
    }
    let (dictating, lowest) = (heads.dictating, end.number);
    let words = || format!("the dictating section is {dictating} by the library and {lowest} by the command");
    (dictating != lowest).then(words)
}

/// What an end asks for beside its path loss, as the parts of a sum.
pub fn parts(record: &Record, end: &Pipe) -> String {
    let (elevation, free) = (end.section.elevation, end.section.free);
    format!("meter loss {} + elevation {elevation} + free head {free}", record.meter)
}

/// How many cm of the delivered head are left over; fewer than none where it is too little.
fn spare(record: &Record, heads: &Heads) -> i64 {
    i64::from(record.delivered) - i64::from(heads.required)
}

/// The pump set that is asked for, on a line of its own.
pub fn set(demand: &Demand, heads: &Heads) -> String {
    format!("pump set: {} ml/s at {} cm{}\n", demand.duty, heads.pump, for_the_line(demand))
}

pub fn figures(record: &Record, heads: &Heads) -> Vec<Figure> {
    let spare = spare(record, heads);
    let spared = if spare < 0 { "cm: TOO LITTLE HEAD" } else { "cm" };
    let cm = |remark: &str| format!("cm{remark}");
    let guaranteed = format!(" over the guaranteed {} cm", record.guaranteed);
    vec![
        ("required head", heads.required.to_string(), cm("")),
        ("pump head", heads.pump.to_string(), cm(&guaranteed)),
        ("delivered head", record.delivered.to_string(), cm("")),
        ("to spare", spare.to_string(), spared.to_string()),
        ("dictating section", heads.dictating.to_string(), String::new()),
    ]
}

pub fn fields(record: &Record, heads: &Heads) -> Fields {
    vec![
        ("suits", Json::Truth(spare(record, heads) >= 0)),
        ("required_head_cm", heads.required.into()),
        ("pump_head_cm", heads.pump.into()),
        ("guaranteed_head_cm", record.guaranteed.into()),
        ("delivered_head_cm", record.delivered.into()),
        ("dictating_section", heads.dictating.into()),
    ]
}

#[cfg(test)]
mod tests {
    use super::*;
    use office::record::Section;

    /// An end with its path loss.
    fn end(number: u8, elevation: i16, free: u16, path_loss: i64) -> Pipe {
        Pipe { number, section: Section { elevation, free, ..Section::default() }, path_loss, ..Pipe::default() }
    }

    /// Sections 2 and 3 ask for 50 + 300 + 200 + 100 and 50 + 320 + 200 + 80, both 650 cm, and section 2 dictates; section 1 asks
    /// for 90.
    #[test]
    fn a_wrong_walk_is_found() {
        let record = Record { meter: 50, ..Record::default() };
        let ends = |second: i64, third: i64| [end(1, 0, 0, 40), end(2, 300, 200, second), end(3, 320, 200, third)];
        let heads = Heads { required: 650, pump: 650, dictating: 2 };
        let found = |heads: &Heads, ends: &[Pipe]| difference(&record, ends, heads);
        assert_eq!(found(&heads, &ends(100, 80)), None);
        let required = |library: i32, own: i32| {
            Some(format!("the required head is {library} cm by the library and {own} cm by the command"))
        };
        let dictating = |library: u8, own: u8| {
            Some(format!("the dictating section is {library} by the library and {own} by the command"))
        };
        // A walk that is short or long at one end or at both.
        assert_eq!(found(&heads, &ends(101, 80)), required(650, 651));
        assert_eq!(found(&heads, &ends(100, 81)), required(650, 651));
        assert_eq!(found(&heads, &ends(99, 79)), required(650, 649));
        assert_eq!(found(&heads, &ends(99, 80)), dictating(2, 3));
        assert_eq!(found(&Heads { required: -650, ..heads }, &ends(100, 80)), required(-650, 650));
        for wrong in [0, 1, 3, 4, 255] {
            assert_eq!(found(&Heads { dictating: wrong, ..heads }, &ends(100, 80)), dictating(wrong, 2));
        }
        assert!(found(&heads, &[]).is_some());
    }

    /// Where every end lies below the pump the greatest may be negative.
    #[test]
    fn a_negative_required_head_is_found_right() {
        let record = Record { meter: 60, ..Record::default() };
        let ends = [end(1, -500, 0, 10), end(2, -800, 200, 90)];
        let heads = Heads { required: -430, pump: 0, dictating: 1 };
        assert_eq!(difference(&record, &ends, &heads), None);
    }
}
