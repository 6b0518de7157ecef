//! `office meter`: the meter that the library picks from a list, and the house with that meter's loss.

use super::arguments::Arguments;
use super::files::to_a_terminal;
use super::input::{File, Reading, Source};
use super::outcome::{Misuse, Outcome, word};
use super::picked::Picked;
use super::refused::Given;
use super::report;
use office::at::Field;
use office::meter::meter_loss;
use office::{calls, house};

pub fn meter(arguments: &Arguments) -> Result<Outcome, Misuse> {
    if arguments.json && arguments.is_piped() {
        let why = "`-o -` sends the house to standard output, where `--json` has its object; name a file";
        return Err(Misuse::Words(why.to_string()));
    }
    let file = arguments.file(0);
    let read = file.bytes()?;
    let job = file.job_of(read.clone()).map_err(any_loss_does)?;
    let list = arguments.file(1).meters()?;
    let given = Given { job: Some(&job), meters: Some(&list.source), ..Given::default() };
    let found = calls::meter(&job.bytes, &list.source.bytes);
    let picked = match Picked::of(&job.bytes, &list, found) {
        Ok(picked) => picked,
        Err(why) => return report::unanswered(arguments, &why, &given),
    };
    if arguments.is_piped() && read == job.bytes {
        to_a_terminal(arguments)?;
    }
    let house = arguments.out.as_ref().map(|_| with_the_loss(&file, read, &job, &picked.job)).transpose()?;
    let written = arguments.kept().map(|file| word(&file.to_string_lossy()));
    let chart = || picked.chart(written.as_deref()).into_bytes();
    let shown = || house.clone().filter(|_| arguments.is_piped()).unwrap_or_else(chart);
    let answer = report::answer(arguments, &given, || picked.fields(), shown)?;
    Ok(Outcome { kept: house, ..answer })
}

/// A house without its meter loss, which only this command could give it, needs some figure all the same.
fn any_loss_does(misuse: Misuse) -> Misuse {
    let Misuse::Mistakes(name, mut mistakes) = misuse else { return misuse };
    let lacking = house::lacks(Field::Meter);
    for mistake in mistakes.list.iter_mut().filter(|mistake| mistake.wrong == lacking) {
        mistake.expected = "any figure in its range, as `meter loss 0 cm`, since `meter` replaces it".to_string();
    }
    Misuse::Mistakes(name, mistakes)
}

/// The house with the library's meter loss, in the form that was read: a record is the library's own, in a text one number is
/// another. Bytes that would not be read as the library's record are not written.
fn with_the_loss(file: &File, read: Vec<u8>, job: &Source, metered: &[u8]) -> Result<Vec<u8>, Misuse> {
    // A record is lent as it was read, and a text is not.
    let house = match read == job.bytes {
        true => Some(metered.to_vec()),
        false => meter_loss(metered).and_then(|loss| house::with_meter_loss(&read, loss)),
    };
    let by_content = File { reading: Reading::ByContent, ..*file };
    let again = |house: &Vec<u8>| by_content.job_of(house.clone()).is_ok_and(|again| again.bytes == metered);
    house.filter(again).ok_or_else(|| {
        let name = &job.name;
        Misuse::Words(format!("{name} with the meter's loss in it would not be read as the library's record"))
    })
}

#[cfg(test)]
mod tests {
    use super::*;
    use office::at::Lines;
    use std::ffi::OsStr;

    const HOUSE: &str = "local losses 0.3\nhours 24\nmeter loss 50 cm\nguaranteed head 500 cm\ndelivered head 1200 cm\n\
        velocity limit 1500 mm/s\nresidents dwelling 84\n\
        section 1 from pump length 10 m elevation 600 cm kind dwelling fixtures 80 free 200 cm\n";

    fn written(read: &[u8], metered: &[u8]) -> Option<Vec<u8>> {
        let file = File { file: OsStr::new("house"), reading: Reading::ByContent };
        let bytes = house::pack(HOUSE).expect("a house");
        let job = Source { name: "house".to_string(), bytes, lines: Lines::default() };
        with_the_loss(&file, read.to_vec(), &job, metered).ok()
    }

    /// Bytes that would be read as another record than the library's are not written, whatever the library gave.
    #[test]
    fn what_is_not_read_as_the_librarys_record_is_not_written() {
        let job = house::pack(HOUSE).expect("a house");
        let with = |at: usize, byte: u8| {
            let mut other = job.clone();
            other[at] = byte;
            other
        };
        let metered = with(9, 61);
        assert_eq!(written(HOUSE.as_bytes(), &metered), Some(HOUSE.replace("50 cm", "61 cm").into_bytes()));
        assert_eq!(written(&job, &metered), Some(metered));
        // Another field than the meter loss, a length that no house has, and a first byte that makes it no record.
        for other in [with(7, 23), with(49, 7), job[..49].to_vec(), Vec::new()] {
            assert_eq!(written(HOUSE.as_bytes(), &other), None, "{other:?}");
        }
        assert_eq!(written(&job, &with(0, 1)), None, "it would be read as a text");
    }
}
