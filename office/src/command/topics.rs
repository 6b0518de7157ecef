//! What `office help` says beside the commands: the readable files and the refusals.

use super::charts::{chart, words};
use super::new;
use office::measure::Quantity;
use office::{Refusal, house, losses, meters, table};

pub struct Topic {
    pub name: &'static str,
    pub brief: &'static str,
    pub text: fn() -> String,
}

pub const TOPICS: &[Topic] = &[
    Topic { name: "files", brief: "the four readable files, with an example of each", text: files },
    Topic { name: "refusals", brief: "what the library refuses, by number", text: refusals },
];

/// The rules of the files, with the examples and what the library takes between them.
fn files() -> String {
    [
        FILES.to_string(),
        indented(new::HOUSE),
        HOUSE.to_string(),
        listed(&house::quantities()),
        TABLE.to_string(),
        indented(new::TABLE),
        COLUMNS.to_string(),
        listed(&table::quantities()),
        METERS.to_string(),
        indented(new::METERS),
        OF_METERS.to_string(),
        listed(&meters::quantities()),
        LOSSES.to_string(),
        indented(new::LOSSES),
        OF_LOSSES.to_string(),
        listed(&losses::quantities()),
    ]
    .join("\n")
}

const FILES: &str = "\
A house, a table of pipe sizes, a list of meters and a list of losses are plain text, from any editor or saved by a spreadsheet.
`office new house`, `office new table`, `office new meters` and `office new losses` give the examples below as files to start from.

Behind # stands a comment, to the end of the line. How many blanks stand between words doesn't matter, nor do small and
capital letters. A number has a point before decimals and nothing between thousands; one with a comma is refused. A unit is
never left out where there is one.

A house has one line for each field, in any order:
";

const HOUSE: &str = "\
Sections have their numbers written out, from 1 without a gap. A section comes from the pump or from a section with a lower
number. Each has all of its fields, in any order; only a pipe that ends at a branch, `kind none`, has no fixtures and no
free head. A kind that the house does not have gets no line `residents`. `office kinds` lists the kinds.

A set for the cold or the hot line alone has a house of its own, with a line `service cold` or `service hot`, the pipes of that line
and its fixtures. Its residents are all residents of the house: the norms of a line are of its part of their water. Without such a
line the house is for cold and hot water together, which `service total` says in so many words.
";

const TABLE: &str = "\
A table has a header, and below it one line for each row of a size:
";

const COLUMNS: &str = "\
Columns stand in any order, parted by commas, semicolons or tabs; a column `notes` is skipped. Sizes are numbered from the
narrowest bore on, from 1 without a gap, and all have equally many rows. In a size the flows rise from row to row, and
velocities and slopes don't fall. All numbers are whole. Between two rows velocity and slope go by the straight line, under the
first row by the line from zero; a flow over the last row is not served.
";

const METERS: &str = "\
A list of meters has a header too, and below it one line for each meter, 1 to 8:
";

const OF_METERS: &str = "\
Columns stand in any order; `name` may be left out, and a column `notes` is skipped. A type is vane or turbine. A resistance has
up to four decimals; one that is finer is refused and not rounded. A service flow is whole: 6.4 m3/h are 6400 l/h. Where commas
part the cells, a name that begins with a digit stands between quotation marks.
";

const LOSSES: &str = "\
A list of losses has a header too, and below it one line for each section of the house:
";

const OF_LOSSES: &str = "\
Columns stand in any order; a column `notes` is skipped. Each section has one line, in any order, from 1 without a gap. The losses
are in cm and whole, or under `loss m` in m with up to two decimals; one that is finer is refused and not rounded, and the message
names the next that states no less loss. A list has one of the two columns. A column `service` says for which line of the house the
losses are, with total, cold or hot in every row; `heads` takes no losses of another line.
";

/// Quantities with what the library takes, and with their units where these stand behind the number.
fn listed(quantities: &[Quantity]) -> String {
    let measured = quantities.iter().any(|quantity| !quantity.units.is_empty());
    let mut columns = vec![words("field"), words("the library takes")];
    columns.extend(measured.then_some(words("units")));
    let row = |quantity: &Quantity| {
        let mut row = vec![quantity.name.to_string(), quantity.taken.to_string()];
        row.extend(measured.then(|| quantity.units.clone()));
        row
    };
    chart(&columns, &quantities.iter().map(row).collect::<Vec<_>>())
}

/// Lines that stand apart from the words around them.
fn indented(text: &str) -> String {
    text.lines().map(|line| format!("    {line}").trim_end().to_string() + "\n").collect()
}

/// The refusals, a line each.
fn refusals() -> String {
    let lines: String =
        Refusal::all().map(|refusal| format!("{:>2}  {}\n", refusal.number(), refusal.plain())).collect();
    format!("{lines}\n`office help N` says of refusal N what usually leads to it and what to try.\n")
}

/// A refusal by its number: the message, the same in plain words, what leads to it, what to try.
pub fn refusal(number: &str) -> Option<String> {
    let refusal = Refusal::all().find(|refusal| refusal.number().to_string() == number)?;
    let each = |sentences: &[&str]| sentences.iter().map(|sentence| folded("  - ", sentence)).collect::<String>();
    Some(format!(
        "{}\n{}\nUsual causes:\n{}\nWhat to try:\n{}",
        folded("", &refusal.to_string()),
        folded("", refusal.plain()),
        each(refusal.causes()),
        each(refusal.remedies())
    ))
}

/// The width that the help keeps to.
const WIDTH: usize = 120;

/// A text in lines of the help's width, its first line behind `lead` and the others below it.
fn folded(lead: &str, text: &str) -> String {
    let mut lines = vec![lead.to_string()];
    for word in text.split(' ') {
        let full = lines.last().is_some_and(|line| line.chars().count() + 1 + word.chars().count() > WIDTH);
        if full {
            lines.push(" ".repeat(lead.len()));
        }
        let line = lines.last_mut().expect("there is a first line");
        if line.len() > lead.len() {
            line.push(' ');
        }
        line.push_str(word);
    }
    lines.join("\n") + "\n"
}
