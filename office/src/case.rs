//! One call with all that is lent to it, and the text file that holds it.
//!
//! The file has one line for each part, in any order; blank lines and lines that start with `#` are skipped:
//!
//! ```text
//! call choose
//! job 0000003201030118 003201f404b005dc
//! job 000000000000000000000000004700000000000000000000000700500064025800c8
//! cat 0000002f010202...
//! sizes 02
//! heat 5 1200
//! work 17608 a50f
//! out 5 ff
//! ```
//!
//! `call` is `flow`, `duty`, `meter`, `losses`, `heads`, `rate`, `choose`, `heat` or `copy`. `job`, `meters`, `losses`, `cat` and `sizes`
//! are bytes in hex, where spaces do not count and several lines of one name are joined; a name without a line is empty. `heat` has
//! the cold water's temperature and the stated loss as whole numbers; without the line both are 0. `work` and `out` are the buffers
//! as they are before the call: a length, and bytes in hex that are repeated to fill it (none: zeros).

use std::fmt::Write;

#[derive(Clone, Copy, Debug, PartialEq, Eq)]
pub enum Call {
    Copy,
    Flow,
    Duty,
    Meter,
    Losses,
    Heads,
    Rate,
    Choose,
    Heat,
}

impl Call {
    pub const ALL: [Call; 9] = [
        Call::Copy,
        Call::Flow,
        Call::Duty,
        Call::Meter,
        Call::Losses,
        Call::Heads,
        Call::Rate,
        Call::Choose,
        Call::Heat,
    ];

    pub fn name(self) -> &'static str {
        match self {
            Call::Copy => "copy",
            Call::Flow => "flow",
            Call::Duty => "duty",
            Call::Meter => "meter",
            Call::Losses => "losses",
            Call::Heads => "heads",
            Call::Rate => "rate",
            Call::Choose => "choose",
            Call::Heat => "heat",
        }
    }

    /// Whether it takes a catalogue and a list of sizes.
    pub fn takes_sizes(self) -> bool {
        matches!(self, Call::Losses | Call::Rate)
    }

    /// Whether it takes a catalogue.
    pub fn takes_catalogue(self) -> bool {
        self.takes_sizes() || self == Call::Choose
    }
}

/// A buffer before the call.
#[derive(Clone, Debug, Default, PartialEq, Eq)]
pub struct Buffer {
    pub length: usize,
    /// Repeated to fill the buffer; empty for zeros.
    pub pattern: Vec<u8>,
}

#[derive(Clone, Debug, PartialEq, Eq)]
pub struct Case {
    pub call: Call,
    pub job: Vec<u8>,
    pub meters: Vec<u8>,
    pub losses: Vec<u8>,
    pub cat: Vec<u8>,
    pub sizes: Vec<u8>,
    /// The cold water's temperature, °C, for the heat call.
    pub t: u32,
    /// The stated loss in watts, for the heat call.
    pub loss: u32,
    pub work: Buffer,
    pub out: Buffer,
}

/// No buffer of a call needs more; a file that asks for more is refused before it is filled.
const LONGEST: usize = 1 << 21;

impl Buffer {
    /// Appends the buffer's bytes.
    pub fn fill(&self, bytes: &mut Vec<u8>) {
        let start = bytes.len();
        bytes.extend(self.pattern.iter().take(self.length));
        if bytes.len() == start {
            bytes.resize(start + self.length, 0);
        }
        // Doubling keeps the pattern, as long as only whole turns are copied.
        while bytes.len() - start < self.length {
            let have = bytes.len() - start;
            bytes.extend_from_within(start..start + have.min(self.length - have));
        }
    }
}

impl Case {
    pub fn text(&self) -> String {
        let mut text = format!("call {}\n", self.call.name());
        let lent = [&self.job, &self.meters, &self.losses, &self.cat, &self.sizes];
        for (name, bytes) in LENT.iter().zip(lent) {
            for line in bytes.chunks(48) {
                let _ = writeln!(text, "{name} {}", hex(line));
            }
        }
        if (self.t, self.loss) != (0, 0) {
            let _ = writeln!(text, "heat {} {}", self.t, self.loss);
        }
        for (name, buffer) in [("work", &self.work), ("out", &self.out)] {
            let _ = writeln!(text, "{name} {} {}", buffer.length, hex(&buffer.pattern));
        }
        text
    }

    pub fn parse(text: &str) -> Result<Case, String> {
        let mut call = None;
        let mut parts: [Vec<u8>; LENT.len()] = Default::default();
        let (mut t, mut loss) = (0, 0);
        let (mut work, mut out) = (Buffer::default(), Buffer::default());
        for (line, at) in text.lines().zip(1..) {
            let line = line.trim();
            if line.is_empty() || line.starts_with('#') {
                continue;
            }
            let (name, rest) = line.split_once(char::is_whitespace).unwrap_or((line, ""));
            let wrong = |what: &str| format!("line {at}: {what}");
            match (name, LENT.iter().position(|lent| *lent == name)) {
                (_, Some(place)) => parts[place].extend(unhex(rest).map_err(|what| wrong(&what))?),
                ("call", _) => call = Some(named(rest.trim()).map_err(wrong)?),
                ("heat", _) => (t, loss) = heat(rest).map_err(wrong)?,
                ("work", _) => work = buffer(rest).map_err(|what| wrong(&what))?,
                ("out", _) => out = buffer(rest).map_err(|what| wrong(&what))?,
                _ => return Err(wrong("a line starts with call, job, meters, losses, cat, sizes, heat, work or out")),
            }
        }
        let call = call.ok_or("the file names no call")?;
        let [job, meters, losses, cat, sizes] = parts;
        Ok(Case { call, job, meters, losses, cat, sizes, t, loss, work, out })
    }
}

/// What is lent to be read, by the names of its lines.
const LENT: [&str; 5] = ["job", "meters", "losses", "cat", "sizes"];

fn named(name: &str) -> Result<Call, &'static str> {
    let call = Call::ALL.into_iter().find(|call| call.name() == name);
    call.ok_or("the calls are flow, duty, meter, losses, heads, rate, choose, heat and copy")
}

/// The temperature and the loss of a line.
fn heat(rest: &str) -> Result<(u32, u32), &'static str> {
    let numbers: Option<Vec<u32>> = rest.split_whitespace().map(|word| word.parse().ok()).collect();
    match numbers.as_deref() {
        Some([t, loss]) => Ok((*t, *loss)),
        _ => Err("heat has a temperature and a loss, whole numbers of 0 to 4294967295"),
    }
}

fn buffer(rest: &str) -> Result<Buffer, String> {
    let rest = rest.trim();
    let (length, pattern) = rest.split_once(char::is_whitespace).unwrap_or((rest, ""));
    let length = length.parse().ok().filter(|length| *length <= LONGEST);
    Ok(Buffer { length: length.ok_or(format!("a buffer's length is 0 to {LONGEST}"))?, pattern: unhex(pattern)? })
}

fn hex(bytes: &[u8]) -> String {
    bytes.iter().fold(String::new(), |mut text, byte| {
        let _ = write!(text, "{byte:02x}");
        text
    })
}

fn unhex(text: &str) -> Result<Vec<u8>, String> {
    let digits: Option<Vec<u8>> =
        text.chars().filter(|c| !c.is_whitespace()).map(|c| c.to_digit(16).map(|digit| digit as u8)).collect();
    let digits = digits.ok_or("hex has the digits 0 to 9 and a to f")?;
    if digits.len() % 2 == 1 {
        return Err("hex has two digits for each byte".to_string());
    }
    Ok(digits.chunks(2).map(|two| two[0] * 16 + two[1]).collect())
}

#[cfg(test)]
mod tests {
    use super::*;

    #[test]
    fn text_and_back() {
        let case = Case {
            call: Call::Choose,
            job: (0..=255).collect(),
            meters: (1..=45).collect(),
            losses: (1..=252).rev().collect(),
            cat: vec![7],
            sizes: Vec::new(),
            t: 5,
            loss: u32::MAX,
            work: Buffer { length: 17, pattern: vec![1, 2, 3] },
            out: Buffer { length: 0, pattern: Vec::new() },
        };
        assert_eq!(Case::parse(&case.text()), Ok(case));
        assert_eq!(Case::parse("# nothing\n"), Err("the file names no call".to_string()));
        assert_eq!(Case::parse("call flow\njob 0g"), Err("line 2: hex has the digits 0 to 9 and a to f".to_string()));
        assert_eq!(Case::parse("call flow\njob 012"), Err("line 2: hex has two digits for each byte".to_string()));
        for call in Call::ALL {
            assert_eq!(Case::parse(&format!("call {}", call.name())).map(|case| case.call), Ok(call));
        }
        let joined = Case::parse("call heads\nlosses 00000047 0000\nlosses 0001").expect("a case");
        assert_eq!((joined.losses, joined.job), (vec![0, 0, 0, 71, 0, 0, 0, 1], Vec::new()));
        let asked = |line: &str| Case::parse(&format!("call heat\n{line}")).map(|case| (case.t, case.loss));
        assert_eq!(
            (asked("heat 5 1200"), asked("heat 0 4294967295"), asked("")),
            (Ok((5, 1_200)), Ok((0, u32::MAX)), Ok((0, 0)))
        );
        let wrong = ["heat 5", "heat 5 -1", "heat 5 4294967296", "heat 5 1 2", "heat 5.5 0", "heat"];
        assert!(wrong.iter().all(|line| asked(line).is_err_and(|what| what.starts_with("line 2: heat has"))));
        assert!(Case::parse("call flaw").is_err());
        assert!(Case::parse("call flow\nout 99999999999").is_err());
    }

    #[test]
    fn a_pattern_fills_its_buffer() {
        for length in 0..40 {
            for turn in 0..9 {
                let pattern: Vec<u8> = (1..=turn).collect();
                let expected: Vec<u8> =
                    (0..length).map(|at| if turn == 0 { 0 } else { pattern[at % pattern.len()] }).collect();
                let mut bytes = vec![99];
                Buffer { length, pattern }.fill(&mut bytes);
                assert_eq!(bytes[1..], expected);
            }
        }
    }
}
