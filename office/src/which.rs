//! Which of the readable files a text is, told by its first line.

use crate::cells::{self, Cells, SEPARATORS};
use crate::header;
use crate::readable::{self, TextLine};
use crate::{losses, meters, table};

#[derive(Clone, Copy, Debug, PartialEq, Eq)]
pub enum Which {
    House,
    /// A table of sizes.
    Table,
    /// A list of meters.
    Meters,
    /// A list of losses.
    Losses,
}

impl Which {
    pub fn of(text: &str) -> Which {
        let losses = losses::is_list(text) || is_nearly_losses(text);
        match (meters::is_list(text), losses, table::is_table(text)) {
            (true, _, _) => Which::Meters,
            (false, true, _) => Which::Losses,
            (false, false, true) => Which::Table,
            (false, false, false) => Which::House,
        }
    }

    /// What it is, for a message.
    pub fn name(self) -> &'static str {
        match self {
            Which::House => "a house",
            Which::Table => "a table of sizes",
            Which::Meters => "a list of meters",
            Which::Losses => "a list of losses",
        }
    }
}

/// Whether a text is no house and no table, and its first line is nearly the header of a list of losses. None of these can be
/// packed; as a list its header's mistakes are told, and not that its lines begin no line of a house.
fn is_nearly_losses(text: &str) -> bool {
    let Some(line) = cells::first_line(text) else { return false };
    let of_a_house = |line: &TextLine| readable::begins_a_house(line.content);
    // A section's line in a house has its number.
    let section = line.content.trim_start().to_lowercase().starts_with("section");
    let first = of_a_house(&line) && !section;
    let parted = SEPARATORS.iter().map(|(separator, _)| Cells::of(&line, *separator));
    let other = parted.map(|line| header::likeness(&line, &table::FORM) + meters::likeness(&line)).sum::<usize>();
    header::is_nearly(line.content, &losses::FORM, "loss")
        && other == 0
        && !first
        && !readable::lines(text).filter(|own| own.number > line.number).any(|line| of_a_house(&line))
}
