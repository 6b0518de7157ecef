//! Aligned tables for people.

/// A column: its name, its unit, and whether it holds words (aligned left) or numbers (aligned right).
#[derive(Clone, Copy)]
pub struct Column {
    pub name: &'static str,
    pub unit: &'static str,
    pub words: bool,
}

pub const fn number(name: &'static str, unit: &'static str) -> Column {
    Column { name, unit, words: false }
}

pub const fn words(name: &'static str) -> Column {
    Column { name, unit: "", words: true }
}

/// Names, units and rows under one another, two blanks between columns; no line of units where no column has one.
pub fn chart(columns: &[Column], rows: &[Vec<String>]) -> String {
    let names: Vec<String> = columns.iter().map(|column| column.name.to_string()).collect();
    let units: Vec<String> = columns.iter().map(|column| column.unit.to_string()).collect();
    let units = Some(&units).filter(|units| units.iter().any(|unit| !unit.is_empty()));
    let lines: Vec<&Vec<String>> = [&names].into_iter().chain(units).chain(rows).collect();
    let widths: Vec<usize> = (0..columns.len())
        .map(|place| lines.iter().map(|line| line[place].chars().count()).max().unwrap_or(0))
        .collect();
    let mut text = String::new();
    for line in lines {
        let cells = line.iter().zip(columns).zip(&widths).map(|((cell, column), width)| {
            if column.words { format!("{cell:<width$}") } else { format!("{cell:>width$}") }
        });
        text.push_str(cells.collect::<Vec<_>>().join("  ").trim_end());
        text.push('\n');
    }
    text
}

/// A figure: its name, its number, its unit and a remark.
pub type Figure = (&'static str, String, String);

/// Single figures under one another.
pub fn figures(rows: &[Figure]) -> String {
    let name = rows.iter().map(|row| row.0.chars().count()).max().unwrap_or(0);
    let value = rows.iter().map(|row| row.1.chars().count()).max().unwrap_or(0);
    rows.iter()
        .map(|row| format!("{:<name$}  {:>value$} {}", row.0, row.1, row.2).trim_end().to_string() + "\n")
        .collect()
}
