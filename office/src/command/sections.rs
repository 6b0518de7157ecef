//! The sections of a house as a table and for machines: one table for `rate` and `choose`, `losses` and `heads`, each with what is
//! known of the sections there.

use super::charts::{Column, chart, number, words};
use super::json::Json;
use super::network::{from, kinds_of, legend};
use office::kinds;
use office::pipes::{Pipe, UNDER_FIRST_ROW};
use office::taps;

/// What is known of the sections beside their flows and losses.
#[derive(Clone, Copy, PartialEq, Eq)]
pub enum Known {
    SizesAndHeads,
    Sizes,
    Heads,
}

/// What a column or a key is about.
#[derive(Clone, Copy, PartialEq, Eq)]
enum About {
    Section,
    Size,
    Head,
}

impl Known {
    fn has(self, about: About) -> bool {
        match about {
            About::Section => true,
            About::Size => self != Known::Heads,
            About::Head => self != Known::Sizes,
        }
    }
}

/// A column of the table and what it shows of a section.
type Shown = (About, Column, fn(&Pipe) -> String);
/// A key of a section's object and its value.
type Keyed = (About, &'static str, fn(&Pipe) -> Json);

/// Last stands what is to be said of a flow, where the columns of numbers are not parted by it.
const COLUMNS: &[Shown] = &[
    (About::Section, number("section", ""), |pipe| pipe.number.to_string()),
    (About::Section, words("from"), |pipe| from(pipe.section.parent)),
    (About::Section, words("kind"), |pipe| kinds::name(pipe.section.kind)),
    (About::Size, number("size", ""), |pipe| pipe.size.to_string()),
    (About::Size, number("bore", "mm"), |pipe| pipe.bore.to_string()),
    (About::Section, number("length", "m"), |pipe| {
        format!("{}.{}", pipe.section.length / 10, pipe.section.length % 10)
    }),
    (About::Section, number("flow", "ml/s"), |pipe| pipe.flow.to_string()),
    (About::Size, number("velocity", "mm/s"), |pipe| pipe.velocity.to_string()),
    (About::Section, number("loss", "cm"), |pipe| pipe.loss.to_string()),
    (About::Head, number("left", "cm"), |pipe| pipe.left.to_string()),
    (About::Head, number("free", "cm"), |pipe| pipe.section.free.to_string()),
    (About::Head, words(""), mark),
    (About::Section, words(""), remarks),
];

/// The dictating path, and an end with less than its free head.
fn mark(pipe: &Pipe) -> String {
    let short = pipe.left < i64::from(pipe.section.free);
    format!("{}{}", if pipe.dictating { "*" } else { "" }, if short { " SHORT" } else { "" })
}

/// That the rows of the size begin above the flow, and the tap that sets it, which may have many kinds.
fn remarks(pipe: &Pipe) -> String {
    let tap = (!pipe.taps.is_empty()).then(|| taps::words(&pipe.taps));
    let all: Vec<String> = pipe.first_row_mark().into_iter().chain(tap).collect();
    if all.is_empty() { String::new() } else { format!("flow: {}", all.join("; ")) }
}

/// One line a section. A star marks the dictating path.
pub fn table(pipes: &[Pipe], known: Known) -> String {
    let shown = || COLUMNS.iter().filter(|(about, ..)| known.has(*about));
    let columns: Vec<Column> = shown().map(|(_, column, _)| *column).collect();
    let row = |pipe: &Pipe| shown().map(|(.., cell)| cell(pipe)).collect::<Vec<_>>();
    let table = chart(&columns, &pipes.iter().map(row).collect::<Vec<_>>());
    let legend = "left: head left at the end when the delivered head is delivered; * lies on the dictating path\n";
    format!("{table}{}", if known.has(About::Head) { legend } else { "" })
}

/// What the remarks mean: `one tap` where some flow has this mark, and `under the first row` where a line has it.
pub fn legends(pipes: &[Pipe], tapped: bool) -> String {
    let small = pipes.iter().any(Pipe::is_under_first_row);
    legend(tapped) + &if small { format!("{UNDER_FIRST_ROW}\n") } else { String::new() }
}

const KEYS: &[Keyed] = &[
    (About::Section, "section", |pipe| pipe.number.into()),
    (About::Section, "parent", |pipe| pipe.section.parent.into()),
    (About::Size, "size", |pipe| pipe.size.into()),
    (About::Size, "bore_mm", |pipe| pipe.bore.into()),
    (About::Section, "length_dm", |pipe| pipe.section.length.into()),
    (About::Section, "flow_ml_per_s", |pipe| pipe.flow.into()),
    (About::Section, "one_tap_kinds", |pipe| kinds_of(&pipe.taps)),
    (About::Size, "under_first_row", |pipe| Json::Truth(pipe.is_under_first_row())),
    (About::Size, "velocity_mm_per_s", |pipe| pipe.velocity.into()),
    (About::Section, "loss_cm", |pipe| pipe.loss.into()),
    (About::Head, "head_left_cm", |pipe| pipe.left.into()),
    (About::Head, "free_head_cm", |pipe| pipe.section.free.into()),
];

/// An object a section.
pub fn list(pipes: &[Pipe], known: Known) -> Json {
    let keys = || KEYS.iter().filter(|(about, ..)| known.has(*about));
    let one = |pipe: &Pipe| Json::Object(keys().map(|(_, key, value)| (*key, value(pipe))).collect());
    Json::List(pipes.iter().map(one).collect())
}
