//! Quantities with units: 12.5 m in a readable file, 125 dm in the record. Exact, no floating point. Houses, tables, lists
//! of meters and lists of losses are read by the same rule.

/// A quantity of the readable file and what the record's bytes can hold of it.
pub struct Measure {
    /// The units it may be written in, each with the power of ten that leads to the record's own. The first is shown.
    /// A quantity without units has one, with an empty name.
    pub units: &'static [(&'static str, u32)],
    /// What the record counts, where a message says it.
    pub counts: &'static str,
    /// What the record's bytes hold.
    pub least: i64,
    pub most: i64,
    /// What the library takes: a message promises no more than that.
    pub taken: &'static str,
    /// A plausible value for a message.
    pub example: i64,
    pub manner: Manner,
}

/// How the numbers of a column are written, for messages. Those of a house have their units beside them.
#[derive(Clone, Copy)]
pub struct Manner {
    /// How many decimals one may have; empty where none are kept or the count of what is kept says it.
    pub decimals: &'static str,
    /// One with its power of ten written out; empty where there is none to show.
    pub power: &'static str,
    /// Whether the next greater may stand for one that is finer than the record keeps: more loss may be stated than there is,
    /// never less.
    pub upward: bool,
}

const PLAIN: Manner = Manner { decimals: "", power: "", upward: false };

/// A quantity as help lists it.
pub struct Quantity {
    pub name: &'static str,
    /// The units it may be written in, if it has any.
    pub units: String,
    /// What the library takes.
    pub taken: &'static str,
}

impl Quantity {
    pub fn new(name: &'static str, measure: &Measure) -> Quantity {
        Quantity { name, units: measure.named(), taken: measure.taken }
    }
}

const CENTIMETRES: &[(&str, u32)] = &[("cm", 0), ("m", 2)];
const NONE: &[(&str, u32)] = &[("", 0)];

/// Heads and losses: two bytes, cm.
const fn head(taken: &'static str, example: i64) -> Measure {
    Measure { units: CENTIMETRES, counts: "cm", least: 0, most: 65_535, taken, example, manner: PLAIN }
}

/// A number without a unit.
const fn bare(counts: &'static str, most: i64, taken: &'static str, example: i64) -> Measure {
    Measure { units: NONE, counts, least: 0, most, taken, example, manner: PLAIN }
}

pub const METER: Measure = head("0 to 1000 cm", 50);
pub const GUARANTEED: Measure = head("0 to 6000 cm", 500);
pub const DELIVERED: Measure = head("0 to 6000 cm", 1_200);
pub const FREE: Measure = head("0 to 1000 cm", 200);
/// Elevations: two bytes, cm, signed.
pub const ELEVATION: Measure = Measure { least: -32_768, most: 32_767, ..head("-1000 to 6000 cm", 200) };
/// Lengths: two bytes, dm.
pub const LENGTH: Measure = Measure {
    units: &[("m", 1), ("dm", 0)],
    counts: "dm",
    least: 0,
    most: 65_535,
    taken: "0.1 to 500.0 m",
    example: 125,
    manner: PLAIN,
};
/// Velocities: two bytes, mm/s.
pub const VELOCITY: Measure = Measure {
    units: &[("mm/s", 0), ("m/s", 3)],
    counts: "mm/s",
    least: 0,
    most: 65_535,
    taken: "1 to 3000 mm/s",
    example: 1_500,
    manner: PLAIN,
};
/// Local losses: one byte, tenths.
pub const TENTHS: Measure = Measure { units: &[("", 1)], ..bare("tenths", 255, "0.2 or 0.3", 3) };
pub const HOURS: Measure = bare("", 255, "1 to 24", 24);
/// A section's own number.
pub const SECTION: Measure = bare("", 255, "1 to 63", 1);
pub const JOB_VERSION: Measure = bare("", 255, "1 or 2", 1);
/// Residents, fixtures: two bytes.
pub const COUNT: Measure = bare("", 65_535, "1 to 65535", 24);
/// A stated length: four bytes.
pub const BYTES: Measure = Measure {
    units: &[("bytes", 0)],
    counts: "bytes",
    least: 0,
    most: 4_294_967_295,
    taken: "the record's own length",
    example: 50,
    manner: PLAIN,
};

// The columns of a table; their units stand in its header.
pub const VERSION: Measure = bare("", 255, "1", 1);
pub const SIZE: Measure = bare("", 255, "1 to 12", 1);
pub const BORE: Measure = bare("mm", 65_535, "1 to 65535", 40);
pub const PRICE: Measure = bare("price units", 65_535, "1 to 10000", 900);
pub const FLOW: Measure = bare("ml/s", 4_294_967_295, "1 to 1000000", 1_000);
pub const SPEED: Measure = bare("mm/s", 65_535, "1 to 65535", 800);
pub const SLOPE: Measure = bare("mm/m", 65_535, "1 to 65535", 40);
pub const ROWS: Measure = bare("rows", 255, "2 to 64", 8);
pub const STATED: Measure = bare("bytes", 4_294_967_295, "the catalogue's own length", 47);

// The columns of a list of meters; their units stand in its header.
/// A meter's resistance: two bytes, ten-thousandths of m per (l/s) squared.
pub const RESISTANCE: Measure = Measure {
    units: &[("", 4)],
    // A message that spoke of ten-thousandths would ask for 5000 where 0.5 is meant.
    counts: "",
    least: 0,
    most: 65_535,
    taken: "0.0001 to 6.5535",
    example: 5_000,
    manner: Manner { decimals: "with at most 4 decimals", power: "0.0081 for 8.1E-3", upward: true },
};
pub const SERVICE: Measure = bare("l/h", 65_535, "1 to 65535", 6_400);

// The columns of a list of losses; their units stand in its header.
/// The section that a loss is of, which no bytes hold: what is no section's number is told by the list.
pub const OF_SECTION: Measure = bare("", i64::MAX, "1 to 63", 1);
/// A section's loss: four bytes, cm.
pub const LOSS: Measure = Measure {
    manner: Manner { decimals: "", power: "71 for 7.1E1", upward: true },
    ..bare("cm", 4_294_967_295, "0 to 4259775", 71)
};
/// The same written in m. A message that spoke of whole cm would ask for 4 where 0.04 is meant.
pub const LOSS_IN_METRES: Measure = Measure {
    units: &[("", 2)],
    counts: "",
    taken: "0.00 to 42597.75 m",
    example: 4,
    manner: Manner { decimals: "with at most two decimals, as 0.04", power: "0.04 for 4E-2", upward: true },
    ..LOSS
};

/// Units in Cyrillic letters and the ones they are.
const CYRILLIC: [(&str, &str); 9] = [
    ("см", "cm"),
    ("м", "m"),
    ("дм", "dm"),
    ("мм/с", "mm/s"),
    ("м/с", "m/s"),
    ("мм", "mm"),
    ("мл/с", "ml/s"),
    ("мм/м", "mm/m"),
    ("л/ч", "l/h"),
];

/// A unit in Latin letters.
pub fn latin(unit: &str) -> &str {
    CYRILLIC.iter().find(|(cyrillic, _)| *cyrillic == unit).map_or(unit, |(_, latin)| latin)
}

/// Why a number can't be taken.
#[derive(Clone, Copy, Debug, PartialEq, Eq)]
pub enum Fault {
    NoNumber,
    /// A comma may part thousands or decimals; a guess would be wrong by a factor of 1,000 for one of them.
    Comma,
    /// A sign where nothing below 0 can be meant.
    Sign,
    /// A point where the record keeps whole numbers of the unit given.
    Point,
    /// Three digits behind a point where the record keeps fewer decimals: they may be thousands.
    Thousands,
    /// The same where they can't be thousands, since no thousand begins with 0, and are zeros behind the kept decimals.
    Decimals,
    TooFine,
    TooLong,
}

impl Measure {
    /// The quantity as the readable file shows it.
    pub fn show(&self, value: i64) -> String {
        let (unit, power) = self.units[0];
        let number = shown(value, power);
        if unit.is_empty() { number } else { format!("{number} {unit}") }
    }

    /// The decimals that are kept of the unit that is shown.
    pub fn decimals(&self) -> u32 {
        self.units[0].1
    }

    /// By how much a value passes what the bytes hold, as a number of the unit that is shown.
    pub fn over(&self, value: i64) -> String {
        shown(value - self.most, self.decimals())
    }

    /// The power of ten of a unit, if it is one of this quantity's.
    pub fn power(&self, unit: &str) -> Option<u32> {
        self.units.iter().find(|(name, _)| *name == latin(unit)).map(|(_, power)| *power)
    }

    /// The units for a message.
    pub fn named(&self) -> String {
        self.units.iter().map(|(name, _)| *name).collect::<Vec<_>>().join(" or ")
    }

    /// The quantity in each of its units, for a message: 1200 cm or 12 m.
    pub fn in_each_unit(&self, value: i64) -> String {
        let written = |(unit, power): &(&str, u32)| {
            let number = shown(value, *power);
            let short = if *power == 0 { &number } else { number.trim_end_matches('0').trim_end_matches('.') };
            format!("{short} {unit}")
        };
        self.units.iter().map(written).collect::<Vec<_>>().join(" or ")
    }

    /// A line that would be taken, for a message.
    pub fn example(&self, what: &str) -> String {
        format!("for example `{what} {}`", self.show(self.example))
    }

    /// A number of this quantity in a unit with this power, within what the bytes hold.
    pub fn number(&self, text: &str, power: u32) -> Result<i64, Fault> {
        if self.least == 0 && text.len() > 1 && text.starts_with(['+', '-']) && !text.contains(',') {
            return Err(Fault::Sign);
        }
        whole(text, power)
    }

    /// The numbers that are taken, for a message: whole ones of what the record counts, or so many decimals.
    pub fn whole(&self) -> String {
        let (counts, taken) = (self.counts, self.taken);
        match self.manner.decimals {
            "" if counts.is_empty() => format!("a whole number, {taken}"),
            "" => format!("a whole number of {counts}, {taken}"),
            decimals => format!("{taken}, {decimals}"),
        }
    }

    /// The next number that the record keeps, in words, where it may stand for one that is finer.
    fn no_less(&self, text: &str, power: u32) -> String {
        let above = self.above(text, power).filter(|_| self.manner.upward);
        let above = above.map(|above| format!("{} {}", self.show(above), self.counts));
        above.map_or(String::new(), |above| format!("; {} is the next that states no less loss", above.trim_end()))
    }

    /// The next number that the record keeps above one that is finer.
    fn above(&self, text: &str, power: u32) -> Option<i64> {
        let (whole, part) = text.split_once('.')?;
        let kept = part.get(..power as usize).filter(|_| part.trim_end_matches('0').len() > power as usize)?;
        let below = if power == 0 { whole.to_string() } else { format!("{whole}.{kept}") };
        self.number(&below, power).ok().map(|below| below + 1).filter(|above| self.holds(*above))
    }

    pub fn holds(&self, value: i64) -> bool {
        (self.least..=self.most).contains(&value)
    }

    /// What is wrong with a number, and what is expected; `example` is one that would be taken.
    pub fn fault(&self, fault: Fault, what: &str, text: &str, power: u32, example: &str) -> (String, String) {
        let whole = self.whole();
        let behind = text.split('.').nth(1).unwrap_or("");
        let joined = text.replace('.', "");
        let front = text.split('.').next().unwrap_or("");
        let short = if text.contains('.') { text.trim_end_matches('0').trim_end_matches('.') } else { text };
        let thousands = behind.len() == 3 && begins_a_thousand(front);
        let (no_less, than) = (self.no_less(text, power), format!("loss than {short}"));
        match fault {
            Fault::NoNumber => (format!("`{text}` is no number for `{what}`"), example.to_string()),
            Fault::Comma if power == 0 => {
                (format!("`{text}` for `{what}` has a comma"), format!("{whole}, nothing between thousands"))
            }
            Fault::Comma => (
                format!("`{text}` for `{what}` has a comma"),
                format!("a point before decimals and nothing between thousands, {example}"),
            ),
            Fault::Sign => (format!("`{text}` for `{what}` has a sign"), format!("the number alone, {}", self.taken)),
            Fault::Thousands => (
                format!("`{text}` for `{what}` may be {short} or {joined}"),
                "fewer decimals, and nothing between thousands".to_string() + &no_less.replace("loss", &than),
            ),
            Fault::Decimals => (
                format!("`{text}` for `{what}` has more decimals than the record keeps"),
                format!("{}; write {short} if that is meant", self.taken),
            ),
            Fault::Point if thousands => (
                format!("`{text}` for `{what}` has a point: it may be {front} or {joined}"),
                format!("{whole}, nothing between thousands"),
            ),
            Fault::Point if behind.bytes().all(|b| b == b'0') => {
                (format!("`{text}` for `{what}` has a point"), format!("{whole}; write {front} if that is meant"))
            }
            Fault::Point | Fault::TooFine => {
                (format!("`{text}` for `{what}` is finer than the record keeps"), whole + &no_less)
            }
            Fault::TooLong => (format!("`{text}` for `{what}` has too many digits"), self.taken.to_string()),
        }
    }
}

/// A value in tenths, hundredths and so on, with its decimals.
pub fn shown(value: i64, power: u32) -> String {
    if power == 0 {
        return value.to_string();
    }
    let ten = 10_i64.pow(power);
    let sign = if value < 0 { "-" } else { "" };
    format!("{sign}{}.{:0width$}", value.abs() / ten, value.abs() % ten, width = power as usize)
}

/// Whether digits, with a sign or without, may be what stands before a thousand's three digits.
fn begins_a_thousand(front: &str) -> bool {
    !front.trim_start_matches(['+', '-']).starts_with('0')
}

/// A decimal number times 10 to the power, if that is whole and can mean one thing only.
pub fn whole(text: &str, power: u32) -> Result<i64, Fault> {
    if text.contains(',') {
        return Err(Fault::Comma);
    }
    let (sign, digits) = match text.strip_prefix('-') {
        Some(rest) => (-1, rest),
        None => (1, text.strip_prefix('+').unwrap_or(text)),
    };
    let (whole, part) = digits.split_once('.').unwrap_or((digits, "0"));
    let plain = |text: &str| !text.is_empty() && text.bytes().all(|b| b.is_ascii_digit());
    if !plain(whole) || !plain(part) {
        return Err(Fault::NoNumber);
    }
    if digits.contains('.') && power == 0 {
        return Err(Fault::Point);
    }
    let kept = part.trim_end_matches('0');
    if part.len() == 3 && power < 3 && begins_a_thousand(whole) {
        return Err(Fault::Thousands);
    }
    if kept.len() > power as usize {
        return Err(Fault::TooFine);
    }
    if part.len() == 3 && power < 3 {
        return Err(Fault::Decimals);
    }
    // Twelve digits are more than any field holds and can't overflow.
    if whole.len() > 12 {
        return Err(Fault::TooLong);
    }
    let padded = format!("{whole}{kept:0<width$}", width = power as usize);
    padded.parse::<i64>().map(|value| sign * value).map_err(|_| Fault::NoNumber)
}

#[cfg(test)]
mod tests {
    use super::*;

    #[test]
    fn numbers_are_exact() {
        assert_eq!(whole("12.5", 1), Ok(125));
        assert_eq!(whole("12.50", 1), Ok(125));
        assert_eq!(whole("-0.5", 1), Ok(-5));
        assert_eq!(whole("+7", 0), Ok(7));
        assert_eq!(whole("007", 2), Ok(700));
        assert_eq!(whole("2.000", 3), Ok(2_000));
        assert_eq!(whole("12.55", 1), Err(Fault::TooFine));
        assert_eq!(whole("1,200", 0), Err(Fault::Comma));
        for text in ["", ".", "-", ".5", "7.", "1.2.3", "1-2", "ten", "--1"] {
            assert_eq!(whole(text, 1), Err(Fault::NoNumber), "{text}");
        }
        assert_eq!(whole("9999999999999", 3), Err(Fault::TooLong));
    }

    #[test]
    fn a_point_has_no_place_where_whole_numbers_are_kept() {
        for text in ["1.000", "84.0", "2.5", "310.00"] {
            assert_eq!(COUNT.number(text, 0), Err(Fault::Point), "{text}");
        }
        for text in ["+84", "-84"] {
            assert_eq!(COUNT.number(text, 0), Err(Fault::Sign), "{text}");
            assert_eq!(ELEVATION.number(text, 0).map(i64::abs), Ok(84), "{text}");
        }
        for (text, power) in [("1.000", 1), ("12.500", 1), ("1.000", 2), ("-3.250", 2)] {
            assert_eq!(ELEVATION.number(text, power), Err(Fault::Thousands), "{text}");
        }
        // No thousand begins with 0.
        for (text, power, fault) in
            [("0.505", 2, Fault::TooFine), ("-0.500", 2, Fault::Decimals), ("0.300", 1, Fault::Decimals)]
        {
            assert_eq!(ELEVATION.number(text, power), Err(fault), "{text}");
        }
    }

    #[test]
    fn a_quantity_in_each_of_its_units() {
        assert_eq!(DELIVERED.in_each_unit(1_200), "1200 cm or 12 m");
        assert_eq!(METER.in_each_unit(50), "50 cm or 0.5 m");
        assert_eq!(LENGTH.in_each_unit(125), "12.5 m or 125 dm");
        assert_eq!(VELOCITY.in_each_unit(1_500), "1500 mm/s or 1.5 m/s");
        assert_eq!(BYTES.in_each_unit(50), "50 bytes");
    }

    #[test]
    fn cyrillic_units_are_the_units_they_are() {
        assert_eq!((FREE.power("см"), FREE.power("м"), LENGTH.power("дм")), (Some(0), Some(2), Some(0)));
        assert_eq!((VELOCITY.power("мм/с"), VELOCITY.power("м/с"), FREE.power("дм")), (Some(0), Some(3), None));
        assert_eq!(FREE.power("сm"), None, "two alphabets in one word");
    }

    #[test]
    fn shown_values_are_read_again() {
        for measure in [METER, DELIVERED, FREE, ELEVATION, LENGTH, VELOCITY, TENTHS, HOURS, COUNT, BYTES, FLOW] {
            for value in [measure.least, measure.least + 1, (-9).max(measure.least), 0, 7, 65, measure.most] {
                let text = measure.show(value);
                let number = text.split(' ').next().expect("split gives at least one part");
                assert_eq!(measure.number(number, measure.units[0].1), Ok(value), "{text}");
            }
        }
    }
}
