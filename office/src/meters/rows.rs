//! The rows of a list of meters.

use super::Packed;
use crate::at::{At, Lines};
use crate::cells::Cells;
use crate::commas;
use crate::echo;
use crate::header::Columns;
use crate::measure;
use crate::meter::{self, Meter};
use crate::mistake::{Mistake, Mistakes};

/// The places of the columns in `FORM`.
const TYPE: usize = 0;
pub const RESISTANCE: usize = 1;
pub const SERVICE: usize = 2;

/// The meters read so far, with the lines and names of the first. One with a mistake in it counts too.
#[derive(Default)]
pub struct Given {
    meters: Vec<Meter>,
    lines: Lines,
    names: Vec<String>,
}

impl Given {
    pub fn is_empty(&self) -> bool {
        self.meters.is_empty()
    }

    /// Takes one row.
    pub fn take(&mut self, row: &Cells, columns: &Columns, mistakes: &mut Mistakes) {
        mistakes.extend(columns.stray(row));
        mistakes.extend(commas::doubtful(row, columns));
        let mut noted = |found: Result<i64, Mistake>| found.map_err(|mistake| mistakes.add(mistake)).unwrap_or(0);
        let design = noted(design(row, columns)) as u8;
        let resistance = noted(advised(row, columns, RESISTANCE, of_resistance)) as u16;
        let service = noted(advised(row, columns, SERVICE, of_service)) as u16;
        self.meters.push(Meter { design, resistance, service });
        // Of a list that is far too long no more is told than which meter is the first too many.
        if self.meters.len() <= meter::MOST + 1 {
            self.lines.note(At::Meter(self.meters.len()), row.line);
            self.names.push(columns.name.map_or(String::new(), |place| echo::shown(&row.written(place))));
        }
    }

    pub fn packed(self) -> Packed {
        let bytes = self.meters.iter().flat_map(Meter::bytes).collect();
        Packed { bytes, lines: self.lines, names: self.names }
    }
}

/// The type by its name. A number is taken only where it is none of document 02's, as `show` writes it for an odd list: 1 and 2
/// may be numbers of the rows as well.
fn design(row: &Cells, columns: &Columns) -> Result<i64, Mistake> {
    let word = row.at(columns.places[TYPE]);
    let plain = word.bytes().all(|b| b.is_ascii_digit());
    let number = word.parse::<u8>().ok().filter(|_| plain);
    match (meter::design(word), number) {
        (Some(design), _) => Ok(design.into()),
        (None, Some(number)) if meter::name(number) == number.to_string() => Ok(number.into()),
        (None, number) => {
            let names: Vec<&str> = meter::types().map(|(name, _)| name).collect();
            let expected = names.join(" or ");
            Err(match (word, number) {
                ("", _) => row.mistake("`type` is empty", expected),
                (_, Some(number)) => {
                    let meant = meter::name(number);
                    let wrong = format!("`{word}` for `type` may be the type {meant} or the number of the row");
                    row.mistake(wrong, format!("{expected}; write {meant} if that is meant"))
                }
                _ => row.mistake(format!("`{word}` is no type of meter"), expected),
            })
        }
    }
}

/// A number, with advice where its bytes don't hold it.
fn advised(row: &Cells, columns: &Columns, column: usize, advice: fn(&str) -> Option<String>) -> Result<i64, Mistake> {
    let text = row.at(columns.places[column]);
    columns.number(row, column).map_err(|mistake| match advice(text) {
        Some(advice) => Mistake { expected: format!("{}; {advice}", mistake.expected), ..mistake },
        None => mistake,
    })
}

/// What to do about a resistance that the bytes don't hold.
fn of_resistance(text: &str) -> Option<String> {
    let measure = &measure::RESISTANCE;
    measure.number(text, measure.decimals()).ok().filter(|value| !measure.holds(*value))?;
    let own = measure.number(text, 0).ok().filter(|own| measure.holds(*own)).map(|own| measure.show(own));
    Some(match own {
        Some(own) => format!("{text} ten-thousandths are {own}; or are resistance and service flow swapped?"),
        None => "a meter of more resistance can't be listed".to_string(),
    })
}

/// What to write for a service flow with a point, which is likely one in m3/h, and for one that the bytes don't hold.
fn of_service(text: &str) -> Option<String> {
    let measure = &measure::SERVICE;
    if text.contains('.') {
        let litres = measure.number(text, 3).ok().filter(|litres| measure.holds(*litres))?;
        return Some(format!("{text} m3/h are {litres} l/h"));
    }
    let over = measure.number(text, 0).is_ok_and(|flow| !measure.holds(flow));
    let most = measure.most;
    over.then(|| format!("{most} may stand for it if it is the service flow: that states no more than the meter has"))
}
