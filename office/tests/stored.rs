//! Three ways to an answer, held to each other: the Python model's, which is stored beside the vectors, the Rust model's, and the
//! library's. The test program `crates/vectors` is held to the same stored answers by `rt`.

#[path = "tools/sheet.rs"]
mod sheet;
#[path = "tools/stored.rs"]
mod stored;

use office::case::{Buffer, Call, Case};
use office::model::bytes::put;
use office::model::faults::{Faults, LAST};
use office::model::house::{House, SERVICE, sections_from};
use office::model::{Expected, alpha, judge};
use office::{ffi, replay};
use stored::{Vector, hex, vectors};

/// The vectors with one of these letters; each letter has some.
fn with(letters: &str) -> Vec<Vector> {
    let found: Vec<Vector> = vectors().into_iter().filter(|vector| letters.contains(vector.letter)).collect();
    assert!(letters.chars().all(|letter| found.iter().any(|vector| vector.letter == letter)), "{letters}");
    found
}

/// The call of a letter, where it is one of the library's.
fn call_of(letter: char) -> Option<Call> {
    match letter {
        'c' => Some(Call::Copy),
        'f' => Some(Call::Flow),
        'd' => Some(Call::Duty),
        'm' => Some(Call::Meter),
        'p' => Some(Call::Rate),
        'e' => Some(Call::Losses),
        'h' => Some(Call::Heads),
        't' => Some(Call::Heat),
        'l' | 'k' => Some(Call::Choose),
        _ => None,
    }
}

fn case(call: Call, vector: &Vector) -> Case {
    let lent = |length| Buffer { length, pattern: vec![vector.fill] };
    let second = |taken: bool| if taken { vector.second.clone() } else { Vec::new() };
    let (t, loss) = if call == Call::Heat { heat_asked(vector) } else { (0, 0) };
    Case {
        call,
        job: vector.first.clone(),
        meters: second(call == Call::Meter),
        losses: second(call == Call::Heads),
        cat: second(call.takes_catalogue()),
        sizes: vector.third.clone(),
        t,
        loss,
        work: lent(vector.length),
        out: lent(vector.room),
    }
}

/// What the heat call is asked beside its job: the second part has t and the loss, 4 bytes each.
fn heat_asked(vector: &Vector) -> (u32, u32) {
    let both: [u8; 8] = vector.second[..].try_into().expect("t and the loss have 8 bytes");
    let four = |at: usize| u32::from_be_bytes([both[at], both[at + 1], both[at + 2], both[at + 3]]);
    (four(0), four(4))
}

/// The result buffer with these bytes at its front.
fn buffer(vector: &Vector, result: &[u8]) -> Vec<u8> {
    let mut buffer = vec![vector.fill; vector.room];
    buffer[..result.len()].copy_from_slice(result);
    buffer
}

/// A number and a buffer as they are stored.
fn line(number: u32, buffer: &[u8]) -> String {
    format!("{number:08x} {}", hex(buffer))
}

/// The same of an exported call: of `k`, where several lists are equally cheap, the cost alone, and behind 1 to 15 of choosing
/// whether the workspace is as it was.
fn shown(vector: &Vector, number: u32, buffer: &[u8], kept: bool) -> String {
    let cost = buffer.len().min(4);
    let text = line(number, if vector.letter == 'k' { &buffer[..cost] } else { buffer });
    match vector.letter {
        'l' | 'k' if (1..=15).contains(&number) => format!("{text} {:02x}", u8::from(kept)),
        _ => text,
    }
}

fn by_the_model(call: Call, vector: &Vector) -> String {
    let judged = judge(&case(call, vector));
    let result = match &judged.result {
        Expected::Nothing => Vec::new(),
        Expected::Bytes(bytes) => bytes.clone(),
        Expected::Headed(heads) => heads.bytes(),
        Expected::Rated(rating) => rating.bytes(),
        Expected::Chosen { cost, list } => {
            let mut bytes = Vec::new();
            put(&mut bytes, *cost, 4);
            bytes.extend(list);
            bytes
        }
    };
    shown(vector, judged.number, &buffer(vector, &result), true)
}

fn by_the_library(call: Call, vector: &Vector) -> String {
    let (mut out, mut work) = (buffer(vector, &[]), vec![vector.fill; vector.length]);
    let number = match call {
        Call::Copy => ffi::copy(&vector.first, &mut out),
        Call::Flow => ffi::flow(&vector.first, &mut out),
        Call::Duty => ffi::duty(&vector.first, &mut out),
        Call::Meter => ffi::meter(&vector.first, &vector.second, &mut out),
        Call::Losses => ffi::losses(&vector.first, &vector.second, &vector.third, &mut out),
        Call::Heads => ffi::heads(&vector.first, &vector.second, &mut out),
        Call::Rate => ffi::rate(&vector.first, &vector.second, &vector.third, &mut out),
        Call::Choose => ffi::choose(&vector.first, &vector.second, &mut work, &mut out),
        Call::Heat => {
            let (t, loss) = heat_asked(vector);
            ffi::heat(&vector.first, t, loss, &mut out)
        }
    };
    shown(vector, number, &out, work.iter().all(|byte| *byte == vector.fill))
}

#[test]
fn exported_calls() {
    for vector in with("cfdmpehlkt") {
        let call = call_of(vector.letter).expect("an exported call");
        assert_eq!(by_the_model(call, &vector), vector.answer, "the model: {}", vector.name);
        assert_eq!(by_the_library(call, &vector), vector.answer, "the library: {}", vector.name);
        // The list of a line `k` is judged here: it suits, at the cost that is stored.
        if let Err(what) = replay(&case(call, &vector).text()) {
            panic!("{}: {what}", vector.name);
        }
    }
}

/// Version and service, then the fields in the order of the record, from k on.
fn fields(house: &House) -> Vec<u8> {
    let mut bytes = Vec::new();
    let head = [house.version, house.service, house.k, house.count(), house.hours];
    head.iter().for_each(|value| put(&mut bytes, *value, 1));
    let head = [house.meter, house.guaranteed, house.delivered, house.limit];
    head.iter().chain(&house.residents[1..]).for_each(|value| put(&mut bytes, *value, 2));
    for section in &house.sections {
        [section.parent, section.kind].iter().for_each(|value| put(&mut bytes, *value as i128, 1));
        let rest = [section.fixtures, section.length, section.elevation, section.free];
        rest.iter().for_each(|value| put(&mut bytes, *value, 2));
    }
    bytes
}

/// Reading is not exported; copying gives its number, and the bytes that are written again.
#[test]
fn records_read() {
    for vector in with("r") {
        let house = House::of(&vector.first);
        let number = house.faults().first(&[1, 2, 3, 4, 5, 6, 7]);
        let read = match number {
            0 => format!("{number:08x} {} {}", hex(&fields(&house)), line(0, &vector.first)),
            _ => format!("{number:08x}"),
        };
        assert_eq!(read, vector.answer, "the model: {}", vector.name);
        let again = if number == 0 { line(0, &vector.first) } else { line(number, &buffer(&vector, &[])) };
        assert_eq!(by_the_library(Call::Copy, &vector), again, "the library: {}", vector.name);
    }
}

/// What the writer is given: version, service, and the other fields in the order of the record, sections past S behind them.
struct Given<'a> {
    version: u8,
    service: u8,
    rest: &'a [u8],
}

/// The bytes of k to the residents.
const HEAD: usize = SERVICE - 5;

impl Given<'_> {
    fn of(vector: &Vector) -> Given<'_> {
        Given { version: vector.first[0], service: vector.first[1], rest: &vector.first[2..] }
    }

    /// The record that the fields make. The service of version 1 has no place in it.
    fn record(&self) -> Vec<u8> {
        let from = sections_from(self.version.into());
        let length = from + 10 * usize::from(self.rest[1]);
        let mut bytes = Vec::new();
        put(&mut bytes, length as i128, 4);
        put(&mut bytes, self.version.into(), 1);
        bytes.extend(&self.rest[..HEAD]);
        bytes.extend([self.service].iter().take(from - SERVICE));
        bytes.extend(&self.rest[HEAD..]);
        bytes.resize(length, 0);
        bytes
    }

    /// "With version 1 service must be 0."
    fn service_without_a_place(&self) -> bool {
        self.version == 1 && self.service != 0
    }

    fn faults(&self, room: usize) -> Faults {
        let record = self.record();
        let mut faults = House::of(&record).faults();
        faults.note(3, faults.has(3) || self.service > 2 || self.service_without_a_place());
        faults.note(14, room < record.len());
        faults
    }
}

/// Writing is not exported; copying the record that the fields would make gives its number and its bytes. Of version 1 with a
/// service there is no record.
#[test]
fn fields_written() {
    let mut unwritable = 0;
    for mut vector in with("w") {
        let given = Given::of(&vector);
        let (record, without) = (given.record(), given.service_without_a_place());
        let number = given.faults(vector.room).first(&[2, 3, 5, 6, 7, 14]);
        let written = line(number, &buffer(&vector, if number == 0 { &record } else { &[] }));
        assert_eq!(written, vector.answer, "the model: {}", vector.name);
        unwritable += usize::from(without);
        if !without {
            vector.first = record;
            assert_eq!(by_the_library(Call::Copy, &vector), vector.answer, "the library: {}", vector.name);
        }
    }
    assert!(unwritable > 0, "no line w has version 1 with a service");
}

/// The model has no coefficient past the table, where 8 lets nobody reach.
#[test]
fn coefficients() {
    let mut held = 0;
    for vector in with("a") {
        let m = vector.first.iter().fold(0, |all, byte| all << 8 | i128::from(*byte));
        if m <= 400_000_000 {
            assert_eq!(format!("{:08x}", alpha::alpha(m)), vector.answer, "{}", vector.name);
            held += 1;
        }
    }
    assert!(held > 500, "{held}");
}

/// `tests/sheet.rs` runs the program on the same inputs.
#[test]
fn sheets() {
    for vector in with("s") {
        let text = if vector.room < 4096 { String::new() } else { sheet::of(&vector.sheet_input()).0 };
        assert_eq!(hex(text.as_bytes()), vector.answer, "{}", vector.name);
    }
}

/// All the refusals that apply to a vector, by the model.
fn applying(vector: &Vector) -> Vec<u32> {
    let faults = match vector.letter {
        'r' => House::of(&vector.first).faults(),
        'w' => Given::of(vector).faults(vector.room),
        's' => sheet::of(&vector.sheet_input()).1,
        'a' => Faults::default(),
        letter => judge(&case(call_of(letter).expect("an exported call"), vector)).faults,
    };
    (1..=LAST).filter(|number| faults.has(*number)).collect()
}

/// The refusals that a vector says to hold are by hand. Each call has each of its numbers in a vector where no other one holds;
/// in a sheet 1 never holds alone, and in the heat call 2 never holds without 20, since a version that there is not has no service.
#[test]
fn refusals_that_hold() {
    let mut alone = Vec::new();
    for vector in vectors() {
        let applying = applying(&vector);
        if let Some(holds) = &vector.holds {
            assert_eq!(&applying, holds, "{}", vector.name);
        }
        if let [number] = applying[..] {
            alone.push((vector.letter, number));
        }
    }
    let numbers: [(char, &[u32]); 12] = [
        ('r', &[1, 2, 3, 4, 5, 6, 7]),
        ('w', &[2, 3, 5, 6, 7, 14]),
        ('c', &[1, 2, 3, 4, 5, 6, 7, 14]),
        ('f', &[1, 2, 3, 4, 5, 6, 7, 8, 9, 14]),
        ('d', &[1, 2, 3, 4, 5, 6, 7, 8, 9, 14]),
        ('m', &[1, 2, 3, 4, 5, 6, 7, 8, 9, 14, 17, 18]),
        ('p', &[1, 2, 3, 4, 5, 6, 7, 8, 9, 10, 11, 12, 13, 14]),
        ('e', &[1, 2, 3, 4, 5, 6, 7, 8, 9, 10, 11, 12, 13, 14]),
        ('h', &[1, 2, 3, 4, 5, 6, 7, 8, 9, 14, 19]),
        ('t', &[1, 3, 4, 5, 6, 7, 8, 9, 14, 20, 21]),
        ('s', &[2, 3, 4, 5, 6, 7, 8, 9, 10, 11, 12, 13]),
        ('l', &[1, 2, 3, 4, 5, 6, 7, 8, 9, 10, 11, 14, 15, 16]),
    ];
    for (letter, numbers) in numbers {
        for number in numbers {
            assert!(alone.contains(&(letter, *number)), "no line {letter} has {number} alone");
        }
    }
}
