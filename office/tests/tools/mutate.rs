//! Texts of houses, tables and lists of meters and losses from a seed: sound ones in several forms, and the same with some letters, words
//! or lines changed.

use office::case::Call;
use office::{generate, house, loss, losses, meters, table};

/// A small generator of numbers, the same in each run.
pub struct Dice(pub u64);

impl Dice {
    pub fn next(&mut self) -> u64 {
        self.0 ^= self.0 << 13;
        self.0 ^= self.0 >> 7;
        self.0 ^= self.0 << 17;
        self.0
    }

    pub fn below(&mut self, bound: usize) -> usize {
        (self.next() % bound.max(1) as u64) as usize
    }

    pub fn pick<'a, T>(&mut self, of: &'a [T]) -> &'a T {
        &of[self.below(of.len())]
    }
}

/// What people and programs put where something else belongs.
const PIECES: &[&str] = &[
    ".",
    ",",
    ";",
    ":",
    "#",
    "-",
    "+",
    " ",
    "\t",
    "\"",
    "0",
    "1",
    "9",
    "00",
    ".0",
    ".000",
    ",5",
    "1.000",
    "1e3",
    "84.0",
    "+84",
    "cm",
    "m",
    "dm",
    "mm/s",
    "m/s",
    "см",
    "м",
    "мм/с",
    "c\u{441}",
    "\u{2212}",
    "\u{a0}",
    "\u{200b}",
    "\u{202e}",
    "\u{9b}",
    "pump",
    "kind",
    "none",
    "hotel-75",
    "offices",
    "section 3",
    "from 1",
    "free",
    "length",
    "fixtures",
    "residents",
    "hours",
    "version,2",
    "version 2",
    "service hot",
    "service",
    "total",
    "stated length 50 bytes",
    "rows,2",
    "sep=;",
    "notes",
    "size",
    "mm)",
    "(mm)",
    "\r",
    "\r\n",
    "\n",
    "\u{1a}",
    "\u{0}",
    "\u{1b}[31m",
    "é",
    "section,",
    "loss cm",
    "loss m",
    "vane",
    "turbine",
    "type",
    "name",
    "resistance m/(l/s)2",
    "²",
    "l/h",
    "0.5",
    "=",
    "''",
    "/",
];

/// A made-up list of meters as `show` writes it, most of them such as the library takes, at times with names.
fn list(dice: &mut Dice) -> String {
    let mut bytes: Vec<u8> = (0..5 * (1 + dice.below(9))).map(|_| dice.next() as u8).collect();
    if dice.below(4) > 0 {
        bytes.iter_mut().step_by(5).for_each(|design| *design = 1 + *design % 2);
    }
    let text = meters::show(&bytes).expect("whole meters");
    let before = dice.below(2) == 0;
    if dice.below(2) == 0 {
        return text;
    }
    let name = *dice.pick(&["DN 50", "DN 50", "1 1/2\"", "\"1 1/2\"\"\"", "no 3", "40"]);
    let named = |(at, line): (usize, &str)| {
        let name = if at == 0 { "name" } else { name };
        let (design, numbers) = line.split_once(',').expect("a type and numbers");
        if before { format!("{design},{name},{numbers}\n") } else { format!("{line},{name}\n") }
    };
    text.lines().enumerate().map(named).collect()
}

/// A made-up list of losses as `show` writes it, most of them such as the library takes, at times in m, with notes or of one line.
fn lost(dice: &mut Dice) -> String {
    let most = *dice.pick(&[900, 900, 900, 5_000_000, 1 << 24, 1 << 32]);
    let own: Vec<u32> = (0..1 + dice.below(14)).map(|_| (dice.next() % most) as u32).collect();
    let text = losses::show(&loss::bytes(&own)).expect("whole losses");
    let metres = |(at, line): (usize, &str)| match line.split_once(',') {
        Some((section, _)) if at > 0 => format!("{section},{}.{:02}\n", own[at - 1] / 100, own[at - 1] % 100),
        _ => "section,loss m\n".to_string(),
    };
    let note = *dice.pick(&["measured", "riser 3", "3 bends", "\"3 bends\"", "40"]);
    let noted = |(at, line): (usize, &str)| format!("{line},{}\n", if at == 0 { "notes" } else { note });
    let lined = |(at, line): (usize, &str)| format!("{},{line}\n", if at == 0 { "service" } else { "cold" });
    match dice.below(6) {
        0 => text.lines().enumerate().map(metres).collect(),
        1 => text.lines().enumerate().map(noted).collect(),
        2 => text.lines().enumerate().map(lined).collect(),
        3 => losses::show_of(&loss::bytes(&own), Some(2)).expect("whole losses"),
        _ => text,
    }
}

/// The examples, made-up lists of meters and losses, and the houses and tables of the made-up orders as `show` writes them.
pub fn sound(dice: &mut Dice, examples: &[String]) -> String {
    if dice.below(3) == 0 {
        return dice.pick(examples).clone();
    }
    if dice.below(4) == 0 {
        return list(dice);
    }
    if dice.below(4) == 0 {
        return lost(dice);
    }
    loop {
        let case = generate::case(21, dice.next() % 20_000);
        let shown = match dice.below(2) == 0 && matches!(case.call, Call::Rate | Call::Choose) {
            true => table::show(&case.cat).ok(),
            false => house::show(&case.job).ok(),
        };
        if let Some(text) = shown.filter(|text| text.len() < 6_000) {
            return text;
        }
    }
}

/// The same text in another form that means the same.
pub fn dressed(dice: &mut Dice, text: &str) -> String {
    let is_table = text.contains("bore mm") || text.contains("service flow") || text.contains("section,loss");
    match dice.below(12) {
        0 => text.replace('\n', "\r\n"),
        1 => text.replace('\n', "\r"),
        2 if is_table => text.replace(',', ";"),
        3 if is_table => text.replace(',', "\t"),
        4 if is_table => format!("sep=;\n{}", text.replace(',', ";")),
        5 if text.contains("bore mm") => text.replace("bore mm", "bore (mm)").replace("flow ml/s", "Flow [ml/s]"),
        5 if text.contains("section,loss") => text.replace("loss cm", "Loss (см)").replace("loss m", "loss [m]"),
        5 if is_table => text.replace("m/(l/s)2", "(m/(l/s)²)").replace("flow l/h", "Flow [л/ч]"),
        2 => text.replace("hours ", "hours: ").replace(" cm", "cm"),
        3 => text.replace(" cm", " см").replace("mm/s", "мм/с"),
        4 => text.replace("section", "Section").replace(" from", ": from"),
        5 => text.replace('\n', ";\n"),
        6 => format!("\u{feff}{text}"),
        7 => format!("{text}\u{1a}"),
        8 => text.to_uppercase(),
        _ => text.to_string(),
    }
}

/// One change: letters put in, taken out or over, digits changed, lines doubled, moved or taken out.
fn change(dice: &mut Dice, text: &mut String) {
    let border =
        |at: usize, text: &str| (0..=at.min(text.len())).rev().find(|at| text.is_char_boundary(*at)).unwrap_or(0);
    let at = border(dice.below(text.len() + 1), text);
    match dice.below(10) {
        0..4 => text.insert_str(at, dice.pick::<&str>(PIECES)),
        4 | 5 => {
            let end = border(at + 1 + dice.below(4), text).max(at);
            text.replace_range(at..end, "");
        }
        6 => {
            let end = border(at + 1 + dice.below(3), text).max(at);
            text.replace_range(at..end, dice.pick::<&str>(PIECES));
        }
        7 | 8 => number(dice, text),
        _ => {
            let mut lines: Vec<&str> = text.split('\n').collect();
            let (one, other) = (dice.below(lines.len()), dice.below(lines.len()));
            match dice.below(3) {
                0 => lines.swap(one, other),
                1 => lines.insert(other, lines[one]),
                _ => {
                    lines.remove(one);
                }
            }
            *text = lines.join("\n");
        }
    }
}

/// What is put before and behind numbers.
const BEFORE: &[&str] = &["+", "-", "0", ".", "1.", "1,", "1 "];
const BEHIND: &[&str] =
    &[".000", ".500", ".0", ".5", ".50", ".", ",5", ",000", " 000", "e3", ":", ";", "#", "%", " м", "m"];

/// One change to a number: a digit of it, or what stands before or behind it.
fn number(dice: &mut Dice, text: &mut String) {
    let digit = |at: usize, text: &str| text.as_bytes().get(at).is_some_and(u8::is_ascii_digit);
    let digits: Vec<usize> = (0..text.len()).filter(|at| digit(*at, text)).collect();
    if digits.is_empty() {
        return;
    }
    let place = digits[dice.below(digits.len())];
    match dice.below(4) {
        0 => text.replace_range(place..place + 1, &dice.below(10).to_string()),
        1 => {
            let start = (0..=place).rev().take_while(|at| digit(*at, text)).last().unwrap_or(place);
            text.insert_str(start, dice.pick::<&str>(BEFORE));
        }
        _ => {
            let end = (place..text.len()).take_while(|at| digit(*at, text)).last().unwrap_or(place) + 1;
            text.insert_str(end, dice.pick::<&str>(BEHIND));
        }
    }
}

/// A text as bytes: mostly changed once or twice, at times not at all, and at times saved as UTF-16 or with other bytes in it.
pub fn mutated(dice: &mut Dice, examples: &[String]) -> Vec<u8> {
    let sound = sound(dice, examples);
    let mut text = dressed(dice, &sound);
    for _ in 0..*dice.pick(&[0, 0, 1, 1, 1, 1, 2, 3]) {
        change(dice, &mut text);
    }
    let mut bytes = text.into_bytes();
    match dice.below(40) {
        0 => {
            let text = String::from_utf8_lossy(&bytes).into_owned();
            bytes = "\u{feff}".encode_utf16().chain(text.encode_utf16()).flat_map(u16::to_le_bytes).collect();
        }
        1 | 2 if !bytes.is_empty() => {
            let at = dice.below(bytes.len());
            bytes[at] = dice.next() as u8;
        }
        3 => bytes.truncate(dice.below(bytes.len() + 1)),
        _ => {}
    }
    bytes
}
