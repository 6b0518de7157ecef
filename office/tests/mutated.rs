//! Mutated texts: a second reader agrees with the first on all that is taken, and the command holds whatever it is given.

#[path = "tools/json.rs"]
mod json;
#[path = "tools/mutate.rs"]
mod mutate;
#[path = "tools/plain.rs"]
mod plain;
#[path = "tools/run.rs"]
mod run;

use mutate::{Dice, mutated};
use office::catalogue::Catalogue;
use office::loss;
use office::meter;
use office::record::Record;
use office::which::Which;
use office::{calls as library, generate, house, losses, meters, readable, table};
use plain::Fields;
use run::{read, scratch, top};
use std::io::{BufRead, BufReader, Write};
use std::process::{Child, ChildStdin, ChildStdout, Command, Stdio};

fn examples() -> Vec<String> {
    let files = [
        "house.txt",
        "attic.txt",
        "hotel-hot.txt",
        "table.csv",
        "mistakes/falling-velocity.csv",
        "mistakes/circle.txt",
        "meters.csv",
        "losses.csv",
    ];
    files.map(|file| read(&format!("examples/{file}"))).to_vec()
}

/// What the command makes of a text: a record, and of which kind.
fn packed(bytes: &[u8]) -> Option<(Vec<u8>, Which)> {
    if bytes.is_empty() || readable::is_record(bytes) {
        return None;
    }
    let text = readable::text(bytes).ok()?;
    let which = Which::of(&text);
    let record = match which {
        Which::House => house::pack(&text),
        Which::Table => table::pack(&text),
        Which::Meters => meters::pack(&text),
        Which::Losses => losses::pack(&text),
    };
    record.ok().map(|record| (record, which))
}

/// The canonical text of a record.
fn shown(record: &[u8], which: Which) -> Option<String> {
    match which {
        Which::House => house::show(record).ok(),
        Which::Table => table::show(record).ok(),
        Which::Meters => meters::show(record).ok(),
        Which::Losses => losses::show(record).ok(),
    }
}

fn of_job(bytes: &[u8]) -> Fields {
    let record = Record::read(bytes).expect("a record");
    let mut fields = Fields::new();
    let mut put = |name: String, value: i64| assert!(fields.insert(name, value).is_none());
    put("stated length".into(), record.stated.into());
    put("version".into(), record.version.into());
    put("service".into(), record.service.into());
    put("local losses".into(), record.tenths.into());
    put("hours".into(), record.hours.into());
    put("meter loss".into(), record.meter.into());
    put("guaranteed head".into(), record.guaranteed.into());
    put("delivered head".into(), record.delivered.into());
    put("velocity limit".into(), record.limit.into());
    put("sections".into(), record.sections.len() as i64);
    record.residents.iter().enumerate().for_each(|(at, count)| put(format!("residents {}", at + 1), i64::from(*count)));
    for (number, section) in record.numbered() {
        let mut own = |field: &str, value: i64| put(format!("section {number} {field}"), value);
        own("parent", section.parent.into());
        own("kind", section.kind.into());
        own("fixtures", section.fixtures.into());
        own("length", section.length.into());
        own("elevation", section.elevation.into());
        own("free", section.free.into());
    }
    fields
}

fn of_catalogue(bytes: &[u8]) -> Fields {
    let catalogue = Catalogue::read(bytes).expect("a catalogue");
    let mut fields = Fields::new();
    let mut put = |name: String, value: i64| assert!(fields.insert(name, value).is_none());
    put("stated length".into(), catalogue.stated.into());
    put("version".into(), catalogue.version.into());
    put("rows".into(), catalogue.rows.into());
    put("sizes".into(), catalogue.sizes.len() as i64);
    for (number, size) in (1..).zip(&catalogue.sizes) {
        put(format!("size {number} bore"), size.bore.into());
        put(format!("size {number} price"), size.price.into());
        for (at, row) in (1..).zip(&size.rows) {
            put(format!("size {number} row {at} flow"), row.flow.into());
            put(format!("size {number} row {at} velocity"), row.velocity.into());
            put(format!("size {number} row {at} slope"), row.slope.into());
        }
    }
    fields
}

fn of_meters(bytes: &[u8]) -> Fields {
    let meters = meter::read(bytes).expect("a list of meters");
    let mut fields = Fields::from([("meters".to_string(), meters.len() as i64)]);
    for (place, meter) in (1..).zip(&meters) {
        fields.insert(format!("meter {place} type"), meter.design.into());
        fields.insert(format!("meter {place} resistance"), meter.resistance.into());
        fields.insert(format!("meter {place} service flow"), meter.service.into());
    }
    fields
}

fn of_losses(bytes: &[u8]) -> Fields {
    let losses = loss::read(bytes).expect("a list of losses");
    let own = (1..).zip(&losses).map(|(section, loss): (usize, _)| (format!("loss {section}"), i64::from(*loss)));
    own.chain([("losses".to_string(), losses.len() as i64)]).collect()
}

/// The second reader has the same fields for a text that was taken.
fn read_alike(text: &[u8], record: &[u8], which: Which) {
    let (first, second) = match which {
        Which::House => (of_job(record), plain::house(text)),
        Which::Table => (of_catalogue(record), plain::table(text)),
        Which::Meters => (of_meters(record), plain::meters(text)),
        Which::Losses => (of_losses(record), plain::losses(text)),
    };
    assert_eq!(second, Some(first), "{}\n{text:?}", String::from_utf8_lossy(text));
}

#[test]
fn a_second_reader_reads_the_same() {
    let examples = examples();
    let mut dice = Dice(0x5eed_0013);
    let (mut taken, mut refused, mut differ, mut lists, mut losses) = (0, 0, 0, 0, 0);
    for _ in 0..30_000 {
        let text = mutated(&mut dice, &examples);
        let Some((record, which)) = packed(&text) else {
            refused += 1;
            let second = plain::house(&text).or_else(|| plain::table(&text)).or_else(|| plain::meters(&text));
            let second = second.or_else(|| plain::losses(&text));
            differ += usize::from(second.is_some());
            continue;
        };
        taken += 1;
        lists += usize::from(which == Which::Meters);
        losses += usize::from(which == Which::Losses);
        read_alike(&text, &record, which);
        let shown = shown(&record, which).expect("shown");
        assert_eq!(packed(shown.as_bytes()), Some((record, which)), "{shown}");
    }
    assert!(taken > 6_000 && refused > 6_000 && lists > 1_500 && losses > 1_000, "{taken} {refused} {lists} {losses}");
    // The other way round: what the page lets pass is not refused, but for words of sixty letters.
    assert!(differ * 1_000 <= refused, "{differ} of {refused} texts are refused that the second reader takes");
}

/// A shell under a limit of memory that runs the command, one call after another.
struct Shell {
    child: Child,
    input: ChildStdin,
    output: BufReader<ChildStdout>,
    folder: String,
}

struct Ran {
    status: i32,
    output: Vec<u8>,
    error: String,
}

/// In KB, for the program with all that it links; a few MB of it are its own.
const MEMORY: u32 = 12_000;

impl Shell {
    fn start(name: &str) -> Shell {
        let folder = scratch(name);
        let _ = std::fs::remove_dir_all(&folder);
        std::fs::create_dir_all(&folder).expect("made");
        let mut child = Command::new("sh")
            .current_dir(&folder)
            .env("office", env!("CARGO_BIN_EXE_office"))
            .env("examples", top().join("examples").canonicalize().expect("the examples are there"))
            .stdin(Stdio::piped())
            .stdout(Stdio::piped())
            .spawn()
            .expect("the shell starts");
        let mut input = child.stdin.take().expect("a pipe");
        writeln!(input, "ulimit -v {MEMORY} || exit 9").expect("the shell reads");
        let output = BufReader::new(child.stdout.take().expect("a pipe"));
        Shell { child, input, output, folder }
    }

    fn run(&mut self, words: &str) -> Ran {
        writeln!(self.input, "\"$office\" {words} > o 2> e < /dev/null; echo $?").expect("the shell reads");
        let mut status = String::new();
        self.output.read_line(&mut status).expect("the shell answers");
        let status = status.trim().parse().unwrap_or_else(|_| panic!("{words}: the shell says `{status}`"));
        let output = std::fs::read(format!("{}/o", self.folder)).expect("written");
        let error = String::from_utf8(std::fs::read(format!("{}/e", self.folder)).expect("written")).expect("text");
        assert!((0..=2).contains(&status), "{words}: status {status}\n{error}");
        assert!(!error.contains("panicked") && !error.contains("memory allocation"), "{words}: {error}");
        assert_eq!(status == 2, error.contains("office: "), "{words}: {error}");
        assert!(status != 2 || output.is_empty() || words.contains("--json"), "{words}");
        Ran { status, output, error }
    }

    fn write(&self, name: &str, bytes: &[u8]) {
        std::fs::write(format!("{}/{name}", self.folder), bytes).expect("written");
    }

    fn file(&self, name: &str) -> Option<Vec<u8>> {
        std::fs::read(format!("{}/{name}", self.folder)).ok()
    }

    /// Nothing lies in the folder but what the test put there and the answers that were asked for.
    fn tidy(&self) {
        for file in std::fs::read_dir(&self.folder).expect("the folder is there") {
            let name = file.expect("a file").file_name();
            let known = ["o", "e", "t", "record", "again", "order", "metered"];
            assert!(known.iter().any(|known| *known == name), "{name:?} is no file of the test's");
        }
    }

    fn end(mut self) {
        drop(self.input);
        assert!(self.child.wait().expect("the shell ends").success());
    }
}

/// The calls that a file goes through: those that take a file of its kind, and one that takes another.
fn calls(file: &str, which: Which) -> [String; 6] {
    let sizes = "6,6,6,6,6,6,6,6,6,6,6,6";
    match which {
        Which::House => [
            format!("flow {file}"),
            format!("rate {file} $examples/table.csv {sizes}"),
            format!("choose {file} $examples/table.csv"),
            format!("draw {file} $examples/table.csv"),
            format!("meter {file} $examples/meters.csv"),
            format!("heat {file} --cold-water 5 --loss 1200"),
        ],
        Which::Table => [
            format!("rate $examples/house.txt {file} {sizes}"),
            format!("choose $examples/house.txt {file}"),
            format!("draw $examples/house.txt {file}"),
            format!("draw $examples/house.txt {file} {sizes}"),
            format!("flow {file}"),
            format!("heat {file} --cold-water 5 --loss 1200"),
        ],
        Which::Losses => [
            format!("heads $examples/house.txt {file}"),
            format!("heads $examples/own-case.txt {file}"),
            format!("heads $examples/attic.txt {file}"),
            format!("meter $examples/house.txt {file}"),
            format!("flow {file}"),
            format!("heat {file} --cold-water 5 --loss 1200"),
        ],
        Which::Meters => [
            format!("meter $examples/house.txt {file}"),
            format!("meter $examples/own-case.txt {file}"),
            format!("meter $examples/attic.txt {file}"),
            format!("choose $examples/house.txt {file}"),
            format!("flow {file}"),
            format!("heat {file} --cold-water 5 --loss 1200"),
        ],
    }
}

/// How many of these calls take a file of that kind.
fn own_calls(which: Which) -> usize {
    match which {
        Which::House => 6,
        Which::Table => 4,
        Which::Meters | Which::Losses => 3,
    }
}

/// Runs every command on one text; whether it was packed.
fn every_command(shell: &mut Shell, text: &[u8], turn: usize) -> bool {
    shell.write("t", text);
    for stale in ["record", "again", "metered"] {
        let _ = std::fs::remove_file(format!("{}/{stale}", shell.folder));
    }
    let done = shell.run("pack t -o record");
    let record = shell.file("record");
    assert_eq!(record.is_some(), done.status < 2, "a record is there exactly where one was packed");
    if shell.run("show t").status != 2 {
        assert!(readable::is_record(text), "a text is never a record");
    }
    let which = readable::text(text).map_or(Which::House, |text| Which::of(&text));
    if turn % 5 == 0 {
        let printed = shell.run(&format!("{} --json", calls("t", which)[turn / 5 % 2]));
        if !printed.output.is_empty() {
            assert_eq!(json::parse(&String::from_utf8(printed.output).expect("text")).number("schema"), 1);
        }
    }
    match &record {
        None => calls("t", which).iter().for_each(|words| assert!(shell.run(words).status > 0, "{words}")),
        Some(record) => {
            assert_eq!(packed(text), Some((record.clone(), which)), "{}", String::from_utf8_lossy(text));
            answers_alike(shell, record, which, done.status);
            if which == Which::House {
                metered(shell, text, record);
            }
        }
    }
    shell.tidy();
    record.is_some()
}

/// The house with a meter is written exactly where one qualifies; it is read as the library's record, and differs from the text
/// that was given in one number alone.
fn metered(shell: &mut Shell, text: &[u8], record: &[u8]) {
    let list = meters::pack(&read("examples/meters.csv")).expect("a list");
    let ran = shell.run("meter t $examples/meters.csv -o metered");
    let (written, wanted) = (shell.file("metered"), library::meter(record, &list).ok());
    assert_eq!((written.is_some(), ran.status == 0), (wanted.is_some(), wanted.is_some()), "{}", ran.error);
    let Some((written, wanted)) = written.zip(wanted) else { return };
    assert_eq!(packed(&written), Some((wanted.job, Which::House)), "{}", String::from_utf8_lossy(&written));
    let front = text.iter().zip(&written).take_while(|(one, other)| one == other).count();
    let most = text.len().min(written.len()) - front;
    let pairs = text.iter().rev().zip(written.iter().rev()).take(most);
    let behind = pairs.take_while(|(one, other)| one == other).count();
    for changed in [&text[front..text.len() - behind], &written[front..written.len() - behind]] {
        // In UTF-16 a zero stands beside each digit.
        let number = changed.iter().all(|byte| byte.is_ascii_digit() || b".\0".contains(byte));
        assert!(number && changed.len() < 16, "{}", String::from_utf8_lossy(changed));
    }
}

/// Whether a list of losses says that it is of a cold or a hot line.
fn is_of_a_line(list: &[u8]) -> bool {
    let text = readable::text(list).expect("it was packed");
    losses::read(&text).expect("it was packed").service.is_some_and(|service| service != 0)
}

/// The text in `t` and its record in `record` answer alike, and packing what is shown gives the same bytes.
fn answers_alike(shell: &mut Shell, record: &[u8], which: Which, status: i32) {
    // A record that states a length of 2^24 or more does not begin with 0, and a list may have types that there are not; the
    // message must name that.
    let told = match which {
        Which::Meters => meter::is_list(record),
        Which::Losses => loss::is_list(record) && readable::is_record(record),
        Which::House | Which::Table => readable::is_record(record),
    };
    let name = if told { "record" } else { "--record record" };
    let of_a_line = which == Which::Losses && is_of_a_line(&shell.file("t").expect("written"));
    let others = calls("t", which).into_iter().zip(calls(name, which)).enumerate();
    for (place, (text, binary)) in others {
        let (one, other) = (shell.run(&text), shell.run(&binary));
        if place >= own_calls(which) {
            assert_eq!(one.status, 2, "{text}");
            continue;
        }
        // The record has no place for the line that a list names, and the houses here are of all their water.
        if of_a_line && other.status == 0 {
            assert!(one.status == 2 && one.error.contains(" is not of this house: "), "{text}: {}", one.error);
            continue;
        }
        assert_eq!(one.status, other.status, "{text}: {}", one.error);
        // A refusal's places name the line in one and not in the other, and a record has no names.
        let line = |bytes: &[u8]| bytes.split(|byte| *byte == b'\n').next().map(<[u8]>::to_vec);
        match one.status {
            0 if which != Which::Meters => assert!(one.output == other.output, "{text}"),
            _ => assert_eq!(line(&one.output), line(&other.output), "{text}"),
        }
    }
    // Bytes of version 0 may be a list of losses as well, and are shown as that.
    if which == Which::House && loss::is_list(record) {
        return;
    }
    assert_eq!(shell.run(&format!("show {name} -o again")).status, status);
    let again = shell.file("again").expect("shown");
    assert_eq!(shell.run("pack again").output, record, "{}", String::from_utf8_lossy(&again));
}

/// 5,000 texts through every command, on two shells.
#[test]
fn every_command_holds_on_mutated_texts() {
    let ends: Vec<_> = (0..2_u64)
        .map(|own| {
            std::thread::spawn(move || {
                let examples = examples();
                let mut dice = Dice(0x0ff1_ce00 + own);
                let mut shell = Shell::start(&format!("mutated-{own}"));
                let mut taken = 0;
                for turn in 0..2_500 {
                    let text = mutated(&mut dice, &examples);
                    taken += usize::from(every_command(&mut shell, &text, turn));
                    if turn % 20 == 0 {
                        let mut order = generate::case(22, turn as u64).text();
                        let at = dice.below(order.len());
                        order
                            .replace_range(at..at + 1, dice.pick::<&str>(&["0", "9", "f", " ", "\n", "x", "99999999"]));
                        shell.write("order", order.as_bytes());
                        shell.run("replay order");
                    }
                }
                shell.end();
                taken
            })
        })
        .collect();
    let taken: usize = ends.into_iter().map(|end| end.join().expect("no shell fails")).sum();
    assert!((800..=4_000).contains(&taken), "{taken} of 5000 texts were packed");
}
