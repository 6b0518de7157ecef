//! A second reader of readable files, written from `docs/FILES.md` alone: whole lines are matched against the forms that the
//! page has, field by field, and nothing is shared with the package. It gives the fields by name, or nothing where the page
//! refuses the text.

use std::collections::BTreeMap;

/// Fields by name: `hours`, `residents 7`, `section 3 length`, `size 2 row 1 flow`, `meter 1 type`, `loss 3`.
pub type Fields = BTreeMap<String, i64>;

const KINDS: &str = "none dwelling hostel-showers hostel-kitchens hotel-shared hotel-showers hotel-25 hotel-75 hotel-100 hospital \
                     polyclinic offices schools";

/// The lines of a file with their comments gone, or nothing where the bytes are no text.
fn lines(bytes: &[u8]) -> Option<Vec<String>> {
    let mut bytes = match bytes {
        [0xff, 0xfe, rest @ ..] => wide(rest, |two| two[0] as u16 + 256 * two[1] as u16)?,
        [0xfe, 0xff, rest @ ..] => wide(rest, |two| two[1] as u16 + 256 * two[0] as u16)?,
        [0xef, 0xbb, 0xbf, rest @ ..] => rest.to_vec(),
        plain => plain.to_vec(),
    };
    while bytes.last() == Some(&26) {
        bytes.pop();
    }
    let newline = bytes.contains(&10);
    let mut found = Vec::new();
    let mut line = Vec::new();
    for at in 0..=bytes.len() {
        let byte = bytes.get(at).copied();
        if byte.is_none() || byte == Some(if newline { 10 } else { 13 }) {
            if newline && byte.is_some() && line.last() == Some(&13) {
                line.pop();
            }
            found.push(plain_line(&std::mem::take(&mut line))?);
        } else {
            line.extend(byte);
        }
    }
    Some(found)
}

fn wide(bytes: &[u8], unit: impl Fn(&[u8]) -> u16) -> Option<Vec<u8>> {
    let units: Vec<u16> = bytes.chunks(2).map(|two| if two.len() == 2 { unit(two) } else { 0xd800 }).collect();
    String::from_utf16(&units).ok().map(String::into_bytes)
}

fn plain_line(line: &[u8]) -> Option<String> {
    if line.len() > 10_000 || line.contains(&13) {
        return None;
    }
    let cut = line.iter().position(|byte| *byte == b'#');
    let content = String::from_utf8(line[..cut.unwrap_or(line.len())].to_vec()).ok()?;
    if let Some(cut) = cut {
        let behind = String::from_utf8_lossy(&line[cut + 1..]).into_owned();
        let word = |c: Option<char>| c.is_some_and(char::is_alphanumeric);
        if word(content.chars().next_back()) && word(behind.chars().next()) {
            return None;
        }
        if behind.split(|c| matches!(c as u32, 11 | 12 | 28..=30 | 0x85 | 0x2028 | 0x2029)).skip(1).any(is_a_line) {
            return None;
        }
    }
    let odd = |c: char| (c.is_control() && !"\t\u{c}".contains(c)) || "\u{2028}\u{2029}".contains(c);
    if content.contains(odd) {
        return None;
    }
    Some(content.to_lowercase())
}

/// Whether a part of a comment looks like a house's line, a table's row or a meter.
fn is_a_line(part: &str) -> bool {
    let mut part = part.to_lowercase();
    while part.starts_with([' ', '\t']) {
        part.remove(0);
    }
    let parted = part.chars().filter(|c| ",;\t".contains(*c)).count();
    let fields = "local hours meter guaranteed delivered residents version";
    let words = fields.split(' ').chain(["velocity limit", "section ", "section\t", "stated length"]);
    // A list of meters has a column of this name.
    let service = part.starts_with("service") && !part["service".len()..].trim_start().starts_with("flow");
    let meter = part.split([',', ';', '\t']).any(|cell| ["vane", "turbine"].contains(&cell.trim_matches([' ', '"'])));
    (parted >= 2 && meter)
        || (parted >= 1 && "0123456789,;\"".contains(part.chars().next().unwrap_or('x')))
        || service
        || words.into_iter().any(|w| part.starts_with(w))
}

/// A number as the page has it, with so many decimals kept. `signed` is an elevation.
fn number(text: &str, decimals: usize, signed: bool) -> Option<i64> {
    let (minus, text) = match text.chars().next()? {
        '-' if signed => (true, &text[1..]),
        '+' if signed => (false, &text[1..]),
        _ => (false, text),
    };
    let parts: Vec<&str> = text.split('.').collect();
    if parts.iter().any(|part| part.is_empty() || !part.chars().all(|c| c.is_ascii_digit())) || parts.len() > 2 {
        return None;
    }
    let mut behind = String::new();
    if parts.len() == 2 {
        behind = parts[1].to_string();
        if decimals == 0 || (behind.len() == 3 && decimals < 3) {
            return None;
        }
        while behind.len() > decimals {
            if behind.pop() != Some('0') {
                return None;
            }
        }
    }
    while behind.len() < decimals {
        behind.push('0');
    }
    let digits = format!("{}{behind}", parts[0]);
    let digits = digits.trim_start_matches('0');
    if digits.len() > 12 {
        return None;
    }
    let value: i64 = if digits.is_empty() { 0 } else { digits.parse().ok()? };
    Some(if minus { -value } else { value })
}

/// A house's fields.
pub fn house(bytes: &[u8]) -> Option<Fields> {
    let mut fields = Fields::new();
    for line in lines(bytes)? {
        let words = words(&line);
        let words: Vec<&str> = words.iter().map(String::as_str).collect();
        if words.is_empty() {
            continue;
        }
        if words[0] == "section" {
            of_section(&words, &mut fields)?;
            continue;
        }
        let (name, value) = of_house(&words)?;
        if fields.insert(name, value).is_some() {
            return None;
        }
    }
    for name in ["local losses", "hours", "meter loss", "guaranteed head", "delivered head", "velocity limit"] {
        fields.get(name)?;
    }
    let sections = fields.keys().filter(|name| name.ends_with(" parent")).count();
    (1..=sections).all(|number| fields.contains_key(&format!("section {number} parent"))).then_some(())?;
    fields.insert("sections".to_string(), sections as i64);
    let service = fields.get("service").copied();
    let version = *fields.entry("version".to_string()).or_insert(if service.is_some() { 2 } else { 1 });
    let together = match service {
        Some(service) => version == 2 || (version, service) == (1, 0),
        None => version != 2,
    };
    together.then_some(())?;
    fields.entry("service".to_string()).or_insert(0);
    let head = if version == 2 { 41 } else { 40 };
    fields.entry("stated length".to_string()).or_insert(head + 10 * sections as i64);
    for kind in 1..=12 {
        fields.entry(format!("residents {kind}")).or_insert(0);
    }
    Some(fields)
}

/// Words with the colons behind names and the semicolons at words' ends made blanks, character by character.
fn words(line: &str) -> Vec<String> {
    let mut found: Vec<String> = Vec::new();
    let mut colon = false;
    for word in line.replace('\u{2212}', "-").split_whitespace() {
        let name = |text: &str, place: usize, found: &[String]| {
            let number =
                place == 1 && found[0] == "section" && !text.is_empty() && text.chars().all(|c| c.is_ascii_digit());
            text.chars().next().is_some_and(char::is_alphabetic) || number
        };
        if word == ":" && !colon && !found.is_empty() && name(&found[found.len() - 1], found.len() - 1, &found) {
            colon = true;
            continue;
        }
        let mut word = word.to_string();
        if word.len() > 1 && word.ends_with(';') {
            word.pop();
        }
        let cut = word.find(':').filter(|cut| name(&word[..*cut], found.len(), &found));
        let rest = cut.map(|cut| word.split_off(cut).split_off(1));
        found.push(word);
        colon = rest.as_deref() == Some("");
        found.extend(rest.filter(|rest| !rest.is_empty()));
    }
    found
}

/// What the units of a quantity are and how many decimals each keeps.
const LENGTHS: &[(&str, usize)] = &[("m", 1), ("м", 1), ("dm", 0), ("дм", 0)];
const HEADS: &[(&str, usize)] = &[("cm", 0), ("см", 0), ("m", 2), ("м", 2)];
const SPEEDS: &[(&str, usize)] = &[("mm/s", 0), ("мм/с", 0), ("m/s", 3), ("м/с", 3)];

/// A number and its unit in one word or two; the words that follow.
fn quantity<'a>(
    words: &'a [&'a str],
    units: &[(&str, usize)],
    signed: bool,
    least: i64,
    most: i64,
) -> Option<(i64, &'a [&'a str])> {
    let first = *words.first()?;
    let end = first.find(|c: char| !(c.is_ascii_digit() || "+-.,".contains(c))).unwrap_or(first.len());
    let (text, unit, rest) = match end == first.len() {
        true => (first, *words.get(1)?, &words[2..]),
        false => (&first[..end], &first[end..], &words[1..]),
    };
    let decimals = units.iter().find(|(known, _)| *known == unit)?.1;
    let value = number(text, decimals, signed)?;
    (least..=most).contains(&value).then_some((value, rest))
}

fn count(word: &str, most: i64) -> Option<i64> {
    number(word, 0, false).filter(|value| *value <= most)
}

fn kind(word: &str, most: i64) -> Option<i64> {
    let named = KINDS.split_whitespace().position(|known| known == word);
    named.map(|place| place as i64).or_else(|| plain(word).filter(|kind| *kind <= most))
}

/// Digits alone.
fn plain(word: &str) -> Option<i64> {
    (!word.is_empty() && word.chars().all(|c| c.is_ascii_digit())).then(|| word.parse::<u8>().ok())?.map(i64::from)
}

fn of_house(words: &[&str]) -> Option<(String, i64)> {
    let done = |name: &str, found: Option<(i64, &[&str])>| {
        found.filter(|(_, rest)| rest.is_empty()).map(|(value, _)| (name.to_string(), value))
    };
    match words {
        ["local", "losses", tenths] => {
            Some(("local losses".to_string(), number(tenths, 1, false).filter(|k| *k <= 255)?))
        }
        ["hours", hours] => Some(("hours".to_string(), count(hours, 255)?)),
        ["version", version] => Some(("version".to_string(), count(version, 255)?)),
        ["service", service] => {
            let named = ["total", "cold", "hot"].iter().position(|known| known == service);
            let number = || plain(service).filter(|number| *number > 2);
            Some(("service".to_string(), named.map(|place| place as i64).or_else(number)?))
        }
        ["residents", of, people] => {
            let kind = kind(of, 12).filter(|kind| *kind > 0)?;
            Some((format!("residents {kind}"), count(people, 65_535)?))
        }
        ["meter", "loss", rest @ ..] => done("meter loss", quantity(rest, HEADS, false, 0, 65_535)),
        ["guaranteed", "head", rest @ ..] => done("guaranteed head", quantity(rest, HEADS, false, 0, 65_535)),
        ["delivered", "head", rest @ ..] => done("delivered head", quantity(rest, HEADS, false, 0, 65_535)),
        ["velocity", "limit", rest @ ..] => done("velocity limit", quantity(rest, SPEEDS, false, 0, 65_535)),
        ["stated", "length", rest @ ..] => {
            done("stated length", quantity(rest, &[("bytes", 0)], false, 0, 4_294_967_295))
        }
        _ => None,
    }
}

/// A section's field that has a unit.
fn measured<'a>(field: &str, words: &'a [&'a str]) -> Option<(i64, &'a [&'a str])> {
    match field {
        "length" => quantity(words, LENGTHS, false, 0, 65_535),
        "elevation" => quantity(words, HEADS, true, -32_768, 32_767),
        "free" => quantity(words, HEADS, false, 0, 65_535),
        _ => None,
    }
}

fn of_section(words: &[&str], fields: &mut Fields) -> Option<()> {
    let own = plain(words.get(1)?).filter(|own| *own > 0)?;
    let mut rest = &words[2..];
    let mut put =
        |field: &str, value: i64| fields.insert(format!("section {own} {field}"), value).is_none().then_some(());
    let (mut junction, mut taps) = (false, 0);
    let mut needed = 0;
    while let Some((field, behind)) = rest.split_first() {
        let word = *behind.first()?;
        rest = &behind[1..];
        match *field {
            "from" => put("parent", if word == "pump" { 0 } else { plain(word)? })?,
            "kind" => {
                let kind = kind(word, 255)?;
                junction = kind == 0;
                put("kind", kind)?;
            }
            "fixtures" => put("fixtures", count(word, 65_535)?)?,
            _ => {
                let (value, after) = measured(field, behind)?;
                put(field, value)?;
                rest = after;
            }
        }
        match *field {
            "fixtures" | "free" => taps += 1,
            _ => needed += 1,
        }
    }
    if needed != 4 || (taps != 2 && !junction) {
        return None;
    }
    fields.entry(format!("section {own} fixtures")).or_insert(0);
    fields.entry(format!("section {own} free")).or_insert(0);
    Some(())
}

/// A table's fields.
pub fn table(bytes: &[u8]) -> Option<Fields> {
    parted(bytes, rows)
}

/// The fields of a list of meters.
pub fn meters(bytes: &[u8]) -> Option<Fields> {
    parted(bytes, list)
}

/// The fields of a list of losses.
pub fn losses(bytes: &[u8]) -> Option<Fields> {
    parted(bytes, lost)
}

/// A file of cells: the separator that it names, or every one is tried on the whole file, and one must fit.
fn parted(bytes: &[u8], rows: fn(&[String], char) -> Option<Fields>) -> Option<Fields> {
    let lines: Vec<String> = lines(bytes)?.into_iter().filter(|line| !line.trim().is_empty()).collect();
    let first = lines.first()?.trim_matches([' ', '"']);
    if let Some(named) = first.strip_prefix("sep=") {
        let mut chars = named.chars();
        let separator = chars.next().filter(|c| ";,\t".contains(*c) && chars.next().is_none())?;
        return rows(&lines[1..], separator);
    }
    [';', ',', '\t'].into_iter().find_map(|separator| rows(&lines, separator))
}

/// The lines that hold something, cell by cell; nothing where a quotation mark is not closed.
fn filled(lines: &[String], separator: char) -> Option<Vec<Vec<String>>> {
    let parted: Option<Vec<Vec<String>>> = lines.iter().map(|line| cells(line, separator)).collect();
    Some(parted?.into_iter().filter(|line| line.iter().any(|cell| !bare(cell).is_empty())).collect())
}

/// The cells of a line with their quotation marks, by a walk over its characters.
fn cells(line: &str, separator: char) -> Option<Vec<String>> {
    let mut found = vec![String::new()];
    for c in line.chars() {
        let last = found.last_mut().expect("one cell at least");
        if c == separator && !is_open(last) {
            found.push(String::new());
        } else {
            last.push(c);
        }
    }
    let closed = found.last().is_some_and(|last| !is_open(last));
    closed.then(|| found.iter().map(|cell| cell.trim().to_string()).collect())
}

/// Whether a cell begins with a quotation mark and the one that closes it is still to come.
fn is_open(cell: &str) -> bool {
    cell.trim_start().starts_with('"') && cell.chars().filter(|c| *c == '"').count() % 2 == 1
}

fn bared(line: &[String]) -> Vec<String> {
    line.iter().map(|cell| bare(cell)).collect()
}

fn bare(cell: &str) -> String {
    let quoted = cell.len() > 1 && cell.starts_with('"') && cell.ends_with('"');
    if quoted { cell[1..cell.len() - 1].trim().replace("\"\"", "\"") } else { cell.to_string() }
}

/// The column that a header's cell names: 0 to 5, or 6 for notes.
fn column(cell: &str) -> Option<usize> {
    let mut plain = String::new();
    for c in cell.chars() {
        plain.push(if "()[],".contains(c) { ' ' } else { c });
    }
    let words: Vec<&str> = plain.split_whitespace().collect();
    match words.as_slice() {
        ["size"] => Some(0),
        ["bore", "mm" | "мм"] => Some(1),
        ["price"] => Some(2),
        ["flow", "ml/s" | "мл/с"] => Some(3),
        ["velocity", "mm/s" | "мм/с"] => Some(4),
        ["slope", "mm/m" | "мм/м"] => Some(5),
        ["notes" | "note" | "remarks" | "remark" | "comments" | "comment"] => Some(6),
        _ => None,
    }
}

fn rows(lines: &[String], separator: char) -> Option<Fields> {
    let mut fields = Fields::new();
    let mut parted = filled(lines, separator)?.into_iter().map(|line| bared(&line));
    let mut header = parted.next()?;
    while let Some((name, most)) = odd(&header) {
        let value = count(&header[1], most)?;
        if fields.insert(name.to_string(), value).is_some() {
            return None;
        }
        header = parted.next()?;
    }
    let columns: Option<Vec<usize>> =
        header.iter().map(|cell| if cell.is_empty() { Some(7) } else { column(cell) }).collect();
    let columns = columns?;
    (0..6).all(|wanted| columns.iter().filter(|column| **column == wanted).count() == 1).then_some(())?;
    let mut counts: BTreeMap<i64, i64> = BTreeMap::new();
    let mut last = None;
    for line in parted {
        let mut six: [&str; 6] = [""; 6];
        for (place, cell) in line.iter().enumerate().filter(|(_, cell)| !cell.is_empty()) {
            match columns.get(place) {
                Some(column @ 0..=5) => six[*column] = cell,
                Some(6) => {}
                _ => return None,
            }
        }
        last = Some(row(&six, last, &mut counts, &mut fields)?);
    }
    whole_table(fields, &counts)
}

fn odd(line: &[String]) -> Option<(&'static str, i64)> {
    let filled = line.iter().filter(|cell| !cell.is_empty()).count();
    let first = line.first()?;
    if filled != 2 || line.get(1).is_none_or(|cell| cell.is_empty()) {
        return None;
    }
    [("stated length", 4_294_967_295), ("version", 255), ("rows", 255)].into_iter().find(|(name, _)| name == first)
}

/// One row; gives its size. `counts` has the rows of each size so far, -1 for one that shall have none.
fn row(six: &[&str; 6], last: Option<i64>, counts: &mut BTreeMap<i64, i64>, fields: &mut Fields) -> Option<i64> {
    let size = if six[0].is_empty() { last? } else { count(six[0], 255).filter(|size| *size > 0)? };
    let begun = counts.contains_key(&size);
    for (cell, name) in [(six[1], "bore"), (six[2], "price")] {
        let key = format!("size {size} {name}");
        match (cell.is_empty(), fields.get(&key).copied()) {
            (true, Some(_)) => {}
            (true, None) => return None,
            (false, known) => {
                let value = count(cell, 65_535)?;
                if known.is_some_and(|known| known != value) {
                    return None;
                }
                fields.insert(key, value);
            }
        }
    }
    let rows = counts.entry(size).or_insert(0);
    if !begun && six[3..].iter().all(|cell| cell.is_empty()) {
        *rows = -1;
        return Some(size);
    }
    if *rows < 0 || *rows == 255 {
        return None;
    }
    *rows += 1;
    for (cell, name, most) in [(six[3], "flow", 4_294_967_295), (six[4], "velocity", 65_535), (six[5], "slope", 65_535)]
    {
        fields.insert(format!("size {size} row {rows} {name}"), count(cell, most)?);
    }
    Some(size)
}

fn whole_table(mut fields: Fields, counts: &BTreeMap<i64, i64>) -> Option<Fields> {
    let sizes = counts.len() as i64;
    let rows = counts.values().map(|rows| (*rows).max(0)).max().unwrap_or(0);
    let even = counts.values().all(|own| (*own).max(0) == rows);
    (even && counts.keys().copied().eq(1..=sizes)).then_some(())?;
    match fields.get("rows").copied() {
        Some(given) if sizes > 0 && given != rows => return None,
        Some(_) => {}
        None => {
            fields.insert("rows".to_string(), rows);
        }
    }
    let rows = fields["rows"];
    fields.insert("sizes".to_string(), sizes);
    fields.entry("version".to_string()).or_insert(1);
    fields.entry("stated length".to_string()).or_insert(7 + sizes * (4 + 8 * rows));
    Some(fields)
}

/// The column of a list of meters that a header's cell names: 0 type, 1 resistance, 2 service flow, 3 the name, 4 notes.
fn column_of_list(cell: &str) -> Option<usize> {
    let cell = cell.replace('²', "2").replace("^2", "2").replace("м/(л/с)2", "m/(l/s)2").replace("m/(l/s)2", "UNIT");
    let mut plain = String::new();
    for c in cell.chars() {
        plain.push(if "()[],".contains(c) { ' ' } else { c });
    }
    match plain.split_whitespace().collect::<Vec<&str>>().as_slice() {
        ["type"] => Some(0),
        ["resistance", "UNIT"] => Some(1),
        ["service", "flow", "l/h" | "л/ч"] => Some(2),
        ["name"] => Some(3),
        ["notes" | "note" | "remarks" | "remark" | "comments" | "comment"] => Some(4),
        _ => None,
    }
}

/// The header of a list and the meters below it.
fn list(lines: &[String], separator: char) -> Option<Fields> {
    let mut parted = filled(lines, separator)?.into_iter();
    let header = bared(&parted.next()?);
    let columns: Option<Vec<usize>> =
        header.iter().map(|cell| if cell.is_empty() { Some(5) } else { column_of_list(cell) }).collect();
    let columns = columns?;
    let count = |wanted: usize| columns.iter().filter(|column| **column == wanted).count();
    ((0..3).all(|wanted| count(wanted) == 1) && count(3) <= 1).then_some(())?;
    let numbers = columns.iter().position(|column| [1, 2].contains(column))?;
    let mut fields = Fields::new();
    let mut meters = 0;
    for raw in parted {
        meters += 1;
        let line = bared(&raw);
        let mut own = [""; 3];
        for (place, cell) in line.iter().enumerate().filter(|(_, cell)| !cell.is_empty()) {
            match columns.get(place) {
                Some(column @ 0..=2) => own[*column] = cell,
                Some(3 | 4) if separator == ',' && place > numbers && is_number(cell) => return None,
                Some(3 | 4) if separator != ',' || raw[place].starts_with('"') => {}
                Some(3 | 4) if is_beside_a_number(&line, &columns, place, &OF_METERS) => return None,
                Some(3 | 4) => {}
                _ => return None,
            }
        }
        let design = match own[0] {
            "vane" => 1,
            "turbine" => 2,
            other => plain(other).filter(|number| *number != 1 && *number != 2)?,
        };
        fields.insert(format!("meter {meters} type"), design);
        fields.insert(format!("meter {meters} resistance"), number(own[1], 4, false).filter(|own| *own <= 65_535)?);
        fields.insert(format!("meter {meters} service flow"), self::count(own[2], 65_535)?);
    }
    fields.insert("meters".to_string(), Some(meters).filter(|meters| *meters > 0)?);
    Some(fields)
}

/// A number alone, as it stands behind a comma within a number; signs may stand before it.
fn is_number(cell: &str) -> bool {
    let rest: String = cell.chars().skip_while(|c| !c.is_alphanumeric()).collect();
    rest.chars().next().is_some_and(|c| c.is_ascii_digit())
        && rest.chars().all(|c| c.is_ascii_digit() || c == '.' || c.is_whitespace())
}

/// The columns of numbers of a list: which they are, how many decimals each keeps, and the most it holds.
type Kept = [(usize, usize, i64); 2];
const OF_METERS: Kept = [(1, 4, 65_535), (2, 0, 65_535)];

/// Whether a name or a note may be a part of the number before it or behind it.
fn is_beside_a_number(line: &[String], columns: &[usize], place: usize, kept: &Kept) -> bool {
    let number = |at: usize| {
        let whole = line.get(at).filter(|cell| !cell.is_empty() && !cell.contains('.'))?;
        let column = columns.get(at)?;
        kept.iter().find(|(own, ..)| own == column).map(|(_, decimals, most)| (whole, *decimals, *most))
    };
    let cell = &line[place];
    let begins = cell.chars().find(|c| c.is_alphanumeric()).is_some_and(|c| c.is_ascii_digit());
    let last: Vec<char> = cell.chars().rev().take_while(char::is_ascii_digit).collect();
    let last: String = last.into_iter().rev().collect();
    let behind = number(place + 1).is_some_and(|(whole, decimals, most)| {
        let joined = self::number(&format!("{last}.{whole}"), decimals, false);
        is_number(cell) || (decimals > 0 && !last.is_empty() && joined.is_some_and(|value| value <= most))
    });
    behind || (place > 0 && begins && number(place - 1).is_some())
}

/// The column of a list of losses that a header's cell names: 0 section, 1 loss, 2 notes, 4 the service; and the decimals of a loss.
fn column_of_losses(cell: &str) -> Option<(usize, usize)> {
    let plain: String = cell.chars().map(|c| if "()[],".contains(c) { ' ' } else { c }).collect();
    match plain.split_whitespace().collect::<Vec<&str>>().as_slice() {
        [] => Some((3, 0)),
        ["section"] => Some((0, 0)),
        ["loss", "cm" | "см"] => Some((1, 0)),
        ["loss", "m" | "м"] => Some((1, 2)),
        ["service"] => Some((4, 0)),
        ["notes" | "note" | "remarks" | "remark" | "comments" | "comment"] => Some((2, 0)),
        _ => None,
    }
}

/// The header of a list of losses and the sections below it.
fn lost(lines: &[String], separator: char) -> Option<Fields> {
    let mut parted = filled(lines, separator)?.into_iter();
    let header = bared(&parted.next()?);
    let named: Option<Vec<(usize, usize)>> = header.iter().map(|cell| column_of_losses(cell)).collect();
    let (columns, decimals): (Vec<usize>, Vec<usize>) = named?.into_iter().unzip();
    let place = |wanted: usize| {
        let mut all = (0..columns.len()).filter(|place| columns[*place] == wanted);
        all.next().filter(|_| all.next().is_none())
    };
    let (section, loss) = (place(0)?, place(1)?);
    let lined = columns.contains(&4);
    let service = if lined { Some(place(4)?) } else { None };
    let mut services: Vec<String> = Vec::new();
    let kept: Kept = [(0, 0, 63), (1, decimals[loss], 4_294_967_295)];
    let mut fields = Fields::new();
    for raw in parted {
        let line = bared(&raw);
        for (place, cell) in line.iter().enumerate().filter(|(_, cell)| !cell.is_empty()) {
            match columns.get(place) {
                Some(0 | 1 | 4) => {}
                Some(2) if separator != ',' => {}
                Some(2) if place > section.min(loss) && is_number(cell) => return None,
                Some(2) if raw[place].starts_with('"') => {}
                Some(2) if !is_beside_a_number(&line, &columns, place, &kept) => {}
                _ => return None,
            }
        }
        if let Some(place) = service {
            services.push(line.get(place).filter(|word| ["total", "cold", "hot"].contains(&word.as_str()))?.clone());
        }
        let own = count(line.get(section)?, 63).filter(|own| *own > 0)?;
        let value = number(line.get(loss)?, decimals[loss], false).filter(|value| *value <= 4_294_967_295)?;
        fields.insert(format!("loss {own}"), value).is_none().then_some(())?;
    }
    let all = fields.len();
    services.windows(2).all(|two| two[0] == two[1]).then_some(())?;
    (all > 0 && (1..=all).all(|section| fields.contains_key(&format!("loss {section}")))).then_some(())?;
    fields.insert("losses".to_string(), all as i64);
    Some(fields)
}
