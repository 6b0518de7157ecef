//! The header of a file of cells: which column stands where.

use crate::cells::{self, Cells, SEPARATORS};
use crate::measure::{Measure, Quantity, latin};
use crate::mistake::{Mistake, Mistakes};

/// A column that a format has, as the header has it: its name and behind that its unit, if it has one.
pub struct Column {
    pub title: &'static str,
    unit: &'static str,
    /// What is measured below it; words have none.
    measure: Option<&'static Measure>,
    /// The same column with its numbers in another unit.
    other: Option<&'static Column>,
}

impl Column {
    /// A column of numbers; its title ends in its unit.
    pub const fn of(title: &'static str, unit: &'static str, measure: &'static Measure) -> Column {
        Column { title, unit, measure: Some(measure), other: None }
    }

    /// The same, or instead of it a column in another unit.
    pub const fn or(self, other: &'static Column) -> Column {
        Column { other: Some(other), ..self }
    }

    /// A column of words.
    pub const fn words(title: &'static str) -> Column {
        Column { title, unit: "", measure: None, other: None }
    }

    /// The column, and the one in another unit that may stand for it.
    fn forms(&self) -> impl Iterator<Item = &Column> {
        [self].into_iter().chain(self.other)
    }

    /// The units for a message.
    fn units(&self) -> String {
        self.forms().map(|column| column.unit).collect::<Vec<_>>().join(" or ")
    }

    fn name(&self) -> &'static str {
        self.title.strip_suffix(self.unit).unwrap_or(self.title).trim_end()
    }
}

/// What a file of cells has: what it is called, its columns in the order in which they are shown, and how a column is called
/// that names a row for people, and one that says which line of a house the rows are of; none where rows have no names, and
/// where they are of no line.
pub struct Form {
    pub what: &'static str,
    pub columns: &'static [Column],
    pub name: Option<&'static str>,
    pub service: Option<&'static str>,
}

impl Form {
    /// The header line with its cells parted so.
    pub fn header(&self, separator: char) -> String {
        self.columns.iter().map(|column| column.title).collect::<Vec<_>>().join(&separator.to_string())
    }

    /// What the columns of numbers measure, in each unit that they may have.
    pub fn quantities(&self) -> impl Iterator<Item = Quantity> {
        let forms = self.columns.iter().flat_map(Column::forms);
        forms.filter_map(|column| Some(Quantity::new(column.title, column.measure?)))
    }

    /// The header and what may stand beside it, for a message.
    fn expected(&self, separator: char) -> String {
        let named = self.name.map_or(String::new(), |name| format!("a column `{name}` names the rows, "));
        let lined = self.service.map_or(String::new(), |service| format!("a column `{service}` says which line, "));
        let others = self.columns.iter().filter_map(|column| column.other.map(|other| (column.title, other.title)));
        let others: String = others.map(|(title, other)| format!("`{other}` in place of `{title}`, ")).collect();
        format!("`{}`; {others}{named}{lined}a column `notes` is skipped", self.header(separator))
    }
}

/// The places of a form's columns in its own order, of the names, of the service, and of the columns that are skipped; and for
/// each cell of the header whether anything stands in it.
pub struct Columns {
    pub places: Vec<usize>,
    /// The form's columns in the units that the header has.
    forms: Vec<&'static Column>,
    pub name: Option<usize>,
    pub service: Option<usize>,
    notes: Vec<usize>,
    titled: Vec<bool>,
}

impl Columns {
    /// The places of names and notes, which hold any words.
    pub fn words(&self) -> impl Iterator<Item = usize> {
        self.name.into_iter().chain(self.notes.iter().copied())
    }

    /// Whether a row may begin with something else than one of the form's own columns: a name, a note, or a cell under an empty
    /// one of the header.
    fn begin_otherwise(&self) -> bool {
        !self.places.contains(&0) && self.service != Some(0)
    }

    /// The places of the columns of numbers, and what each measures.
    pub fn measures(&self) -> impl Iterator<Item = (usize, &'static Measure)> {
        self.places.iter().zip(&self.forms).filter_map(|(place, of)| Some((*place, of.measure?)))
    }

    /// The number that a row has under a column of numbers.
    pub fn number(&self, row: &Cells, column: usize) -> Result<i64, Mistake> {
        let Column { title, measure, .. } = self.forms[column];
        let measure = measure.expect("a column of numbers");
        row.number(self.places[column], title, measure)
    }

    /// A cell of a row that no column stands over. A column that is none of the form's is the header's mistake and not the row's.
    pub fn stray(&self, row: &Cells) -> Option<Mistake> {
        let titled = |place: usize| self.titled.get(place).copied();
        let mut cells = row.cells.iter().enumerate();
        let (place, cell) = cells.find(|(place, cell)| titled(*place) != Some(true) && !cell.is_empty())?;
        let expected = match (titled(place), row.separator) {
            (Some(_), _) => "a name over the column, `notes` if it is for people",
            (None, ',') => "as many cells as the header has; a comma within a number makes two cells of it",
            (None, _) => "as many cells as the header has",
        };
        Some(row.mistake(format!("`{cell}` stands under no column"), expected))
    }
}

/// What a column may be called that is for people alone.
const NOTES: [&str; 6] = ["notes", "note", "remarks", "remark", "comments", "comment"];

/// A header's cell as the format has it: a unit may stand in brackets or behind a comma, in Cyrillic letters, and with its power
/// raised. The brackets within a unit are its own.
fn plain(cell: &str) -> String {
    let level = cell.replace('²', "2").replace("^2", "2");
    let whole = level.replace("м/(л/с)2", "m/(l/s)2").replace("m/(l/s)2", "m/{l/s}2");
    let words = whole.split(|c: char| c.is_whitespace() || "()[],".contains(c)).filter(|word| !word.is_empty());
    words.map(latin).collect::<Vec<_>>().join(" ")
}

/// Whether a line is a header with all columns of the form.
pub fn complete(line: &Cells, form: &Form) -> bool {
    columns(line, form).1.is_empty()
}

/// How many cells of a line begin as the form's columns do.
pub fn likeness(line: &Cells, form: &Form) -> usize {
    line.cells.iter().filter(|cell| meant(&plain(cell), form).is_some()).count()
}

/// Where the header has columns of these names.
fn places_of(names: &[String], titles: &[&str]) -> Vec<usize> {
    (0..names.len()).filter(|place| titles.contains(&names[*place].as_str())).collect()
}

/// The columns of a header line, and all that is wrong with it. Where it can be told which column each is meant for, the rows
/// can be read for their own mistakes too.
fn columns(line: &Cells, form: &Form) -> (Option<Columns>, Mistakes) {
    let names: Vec<String> = line.cells.iter().map(|cell| plain(cell)).collect();
    let expected = form.expected(line.separator);
    // Where a column is missing, one that is unknown is rather that.
    let missing = |own: usize| !names.iter().any(|name| meant(name, form) == Some(own));
    let none_missing = !(0..form.columns.len()).any(missing);
    let mut mistakes = Mistakes::default();
    let notes = places_of(&names, &NOTES);
    let [named, lined] = [form.name, form.service].map(|title| places_of(&names, title.as_slice()));
    let mut places: Vec<Vec<usize>> = form.columns.iter().map(|_| Vec::new()).collect();
    let mut forms: Vec<&'static Column> = form.columns.iter().collect();
    let beside = |place: &usize| [&notes, &named, &lined].iter().any(|known| known.contains(place));
    for (place, name) in names.iter().enumerate().filter(|(place, name)| !name.is_empty() && !beside(place)) {
        let of = |column: &'static Column| column.forms().find(|column| plain(column.title) == *name);
        let known = form.columns.iter().enumerate().find_map(|(column, own)| Some((column, of(own)?)));
        if let Some((column, own)) = known {
            places[column].push(place);
            forms[column] = own;
        } else {
            let meant = meant(name, form).or_else(|| akin_to(name, form).filter(|own| missing(*own)));
            let wrong = unknown(name, &line.cells[place], form, meant);
            let spare = meant.is_none() && none_missing;
            let rename = if spare { "; rename it `notes` if it is for people" } else { "" };
            mistakes.add(line.mistake(wrong, format!("{expected}{rename}")));
            places[meant.unwrap_or(0)].extend(meant.map(|_| place));
        }
    }
    mistakes.extend(form.columns.iter().zip(&places).filter_map(|(column, places)| match &places[..] {
        [] => Some(line.mistake(format!("the header has no column `{}`", column.title), expected.clone())),
        _ => twice(line, column.title, places, &expected).map(|twice| in_both_units(twice, column, &names)),
    }));
    mistakes.extend(form.name.and_then(|name| twice(line, name, &named, &expected)));
    mistakes.extend(form.service.and_then(|service| twice(line, service, &lined, &expected)));
    let each = places.iter().all(|places| places.len() == 1);
    let places = places.into_iter().flatten().collect();
    let titled = names.iter().map(|name| !name.is_empty()).collect();
    let (name, service) = (named.first().copied(), lined.first().copied());
    (each.then_some(Columns { places, forms, name, service, notes, titled }), mistakes)
}

/// The columns of a header line under which rows can be read, and all that is wrong with it and with rows that `#` may hide; or
/// what is wrong, where it can't be told which column is which.
pub fn read(text: &str, header: &Cells, form: &Form) -> Result<(Columns, Mistakes), Mistakes> {
    if let Some(wrong) = parted_otherwise(header, form) {
        return Err(header.mistake(wrong, form.expected(header.separator)).into());
    }
    let (columns, mut mistakes) = columns(header, form);
    let Some(columns) = columns else { return Err(mistakes) };
    if columns.begin_otherwise() {
        mistakes.extend(cells::hidden(text, header));
    }
    Ok((columns, mistakes))
}

/// A column that stands at several places.
fn twice(line: &Cells, column: &str, places: &[usize], expected: &str) -> Option<Mistake> {
    (places.len() > 1).then(|| line.mistake(format!("the column `{column}` is there twice"), expected))
}

/// A column that is there twice, with its units where it is there in each.
fn in_both_units(twice: Mistake, column: &Column, names: &[String]) -> Mistake {
    let there = |column: &&Column| names.contains(&plain(column.title));
    let units: Vec<&str> = column.forms().filter(there).map(|column| column.unit).collect();
    match units.len() > 1 {
        true => Mistake { wrong: format!("{}: both units are there, {}", twice.wrong, units.join(" and ")), ..twice },
        false => twice,
    }
}

fn first(words: &str) -> &str {
    words.split(' ').next().unwrap_or_default()
}

/// The column that a header's cell is likely meant for: the one with the same first word.
fn meant(name: &str, form: &Form) -> Option<usize> {
    form.columns.iter().position(|column| first(column.title) == first(name))
}

/// Whether a word is nearly a column's own: several of it, or a longer word that ends so, as `losses` or `headloss` for `loss`.
fn is_akin(word: &str, own: &str) -> bool {
    word.ends_with(own) || word.strip_prefix(own).is_some_and(|end| ["s", "es"].contains(&end))
}

/// The column that a name is nearly the name of.
fn akin_to(name: &str, form: &Form) -> Option<usize> {
    form.columns.iter().position(|column| name.split(' ').any(|word| is_akin(word, first(column.title))))
}

/// What stands in a name behind the word of its column.
fn behind<'a>(name: &'a str, column: &Column) -> &'a str {
    let words = name.split(' ').find(|word| is_akin(word, first(column.title))).unwrap_or_default();
    name.split_once(words).map_or("", |(_, behind)| behind.trim_start())
}

/// Words of units in which pressures are given, in small letters.
const PRESSURES: [&str; 17] = [
    "pa", "hpa", "kpa", "mpa", "bar", "mbar", "atm", "psi", "wc", "mwc", "ws", "mws", "h2o", "mh2o", "кпа", "бар",
    "вод",
];

/// What a pressure is as a head of water, at 1000 kg/m3 and 9.81 m/s2, rounded up: a loss may be stated greater, never less.
const AS_HEADS: &str = "1 bar = 1020 cm, 1 kPa = 10.2 cm, 1 m of water = 1 m";

/// What is wrong with a name that is no column's, but is likely meant for this one.
fn unknown(name: &str, cell: &str, form: &Form, meant: Option<usize>) -> String {
    let wrong = format!("`{cell}` is no column of a {}", form.what);
    let Some(column) = meant.map(|column| &form.columns[column]) else { return wrong };
    let (unit, pressure) = (behind(name, column), |word: &str| PRESSURES.contains(&word.replace('.', "").as_str()));
    let in_its_unit = column.forms().find(|column| column.unit == unit);
    let units = format!("{wrong}: the {} is in {}", column.name(), column.units());
    match in_its_unit {
        _ if column.unit.is_empty() => format!("{wrong}; `{}` is", column.title),
        _ if name == column.name() => format!("{wrong}: its unit, {}, is missing", column.units()),
        Some(own) => format!("{wrong}; `{}` is", own.title),
        None if unit.is_empty() => format!("{wrong}; `{}` is", column.title),
        None if column.unit == "cm" && unit.split(' ').any(pressure) => format!("{units}; {AS_HEADS}"),
        None => units,
    }
}

/// What is wrong with a header that has none of the separators: something else parts its columns.
fn parted_otherwise(line: &Cells, form: &Form) -> Option<String> {
    let [cell] = &line.cells[..] else { return None };
    let are_begun = |parted: char| {
        let begins = |own: &str| cell.split(parted).any(|part| is_akin(first(&plain(part)), own));
        form.columns.iter().all(|column| begins(first(column.title)))
    };
    let known = |c: char| SEPARATORS.iter().any(|(known, _)| *known == c);
    let signs = cell.chars().filter(|c| !c.is_alphanumeric() && !c.is_whitespace() && !known(*c));
    let sign = signs.into_iter().find(|sign| are_begun(*sign)).map(|sign| format!("`{sign}` does"));
    let found = sign.or_else(|| are_begun(' ').then(|| "blanks do".to_string()))?;
    Some(format!("{found} not part the columns; commas, semicolons or tabs do"))
}

/// Whether a line that is no header of the form is nearly one: it has no digit, which a row has, one of its words is nearly the
/// word of the column `of`, and it has other cells, or the word of another column too.
pub fn is_nearly(line: &str, form: &Form, of: &str) -> bool {
    let small = line.to_lowercase();
    let words: Vec<&str> = small.split(|c: char| !c.is_alphanumeric()).collect();
    let has = |own: &str| words.iter().any(|word| is_akin(word, own));
    let mut others = form.columns.iter().map(|column| first(column.title)).filter(|own| *own != of);
    let parted = small.contains(|c: char| c == '|' || SEPARATORS.iter().any(|(known, _)| *known == c));
    !small.contains(|c: char| c.is_ascii_digit()) && has(of) && (parted || others.any(has))
}
