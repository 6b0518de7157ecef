//! The places of refusals: one is found for every refusal that the library gives, it is the right one, and what it says of
//! the missing head is true.

#[path = "tools/mixed.rs"]
mod mixed;

use mixed::{branch, flat};
use office::at::{At, Field};
use office::case::{Call, Case};
use office::model::faults::LAST;
use office::places::{Asked, Heating, Place, places};
use office::record::{Record, Section};
use office::{Refusal, calls, generate, house, table};

const JOB: &str = "local losses 0.3\nhours 24\nmeter loss 50 cm\nguaranteed head 500 cm\ndelivered head 1200 cm\n\
    velocity limit 1500 mm/s\nresidents hotel-75 71\n\
    section 1 from pump length 10 m elevation 600 cm kind hotel-75 fixtures 80 free 200 cm\n";
const CAT: &str = "size,bore mm,price,flow ml/s,velocity mm/s,slope mm/m\n1,40,900,1000,800,40\n1,40,900,3000,2400,300\n\
    2,50,1300,1000,500,12\n2,50,1300,3000,1500,90\n";

fn job() -> Vec<u8> {
    house::pack(JOB).expect("document 01's own case")
}

fn cat() -> Vec<u8> {
    table::pack(CAT).expect("document 01's own catalogue")
}

/// The own case with some bytes changed.
fn with(bytes: &[u8], edits: &[(usize, u8)]) -> Vec<u8> {
    let mut edited = bytes.to_vec();
    for (at, byte) in edits {
        edited[*at] = *byte;
    }
    edited
}

fn of_job(job: &[u8]) -> (u32, Vec<Place>) {
    let refusal = calls::flow(job).expect_err("refused");
    (refusal.number(), places(&refusal, &Asked { job, ..Asked::default() }))
}

fn check(found: (u32, Vec<Place>), number: u32, at: At, why: &str) {
    let words: Vec<String> = found.1.iter().map(Place::to_string).collect();
    assert_eq!(found.0, number, "{words:?}");
    assert!(found.1.iter().any(|place| place.at == at && place.why.contains(why)), "{number} {why}: {words:?}");
}

#[test]
fn jobs() {
    let own = job();
    let section = At::Section(1);
    check(of_job(&own[..49]), 1, At::Field(Field::Stated), "states 50 bytes and has 49");
    check(of_job(&[]), 1, At::Job, "0 bytes; the least is 40");
    check(of_job(&with(&own, &[(4, 3)])), 2, At::Field(Field::Version), "it is 3, neither 1 nor 2");
    check(of_job(&with(&own, &[(4, 0)])), 2, At::Field(Field::Version), "it is 0, neither 1 nor 2");
    check(of_job(&with(&own, &[(5, 4)])), 3, At::Field(Field::Losses), "4 is outside 2 to 3");
    check(of_job(&with(&own, &[(6, 64)])), 3, At::Field(Field::Sections), "64 is outside 1 to 63");
    check(of_job(&with(&own, &[(7, 25)])), 3, At::Field(Field::Hours), "25 is outside 1 to 24");
    check(of_job(&with(&own, &[(14, 0), (15, 0)])), 3, At::Field(Field::Limit), "0 is outside 1 to 3000 mm/s");
    check(of_job(&with(&own, &[(6, 2)])), 4, At::Field(Field::Sections), "section count 2 asks for 60");
    check(of_job(&with(&own, &[(40, 1)])), 5, section, "hangs from itself");
    check(of_job(&with(&own, &[(40, 9)])), 5, section, "the last section is 1");
    check(of_job(&with(&own, &[(41, 13)])), 5, section, "kind 13 is none of 0 to 12");
    check(of_job(&with(&own, &[(41, 0)])), 5, section, "kind none goes with no fixtures, and it has 80");
    check(of_job(&with(&own, &[(41, 0)])), 5, section, "kind none goes with free head 0");
    check(of_job(&with(&own, &[(43, 0)])), 5, section, "at least one fixture");
    check(of_job(&with(&own, &[(45, 0)])), 5, section, "length 0 dm is outside 1 to 5000");
    check(of_job(&with(&own, &[(46, 0xfc), (47, 0x17)])), 5, section, "elevation -1001 cm");
    check(of_job(&with(&own, &[(48, 0xff)])), 5, section, "free head 65480 cm is outside");
    check(of_job(&with(&own, &[(41, 0), (43, 0), (49, 0)])), 6, section, "no section hangs from it");
    check(
        of_job(&with(&own, &[(29, 0)])),
        7,
        At::Residents(7),
        "none given, but the house has 80 of its fixtures (section 1)",
    );
    check(of_job(&with(&own, &[(17, 1)])), 7, At::Residents(1), "1 given, but no section");
    let crowd = [(28, 255), (29, 255), (42, 255), (43, 255)];
    check(of_job(&with(&own, &crowd)), 8, At::House, "over 400000000");
}

/// The own case as the job of a service, and of a number that is none.
fn served(service: &str) -> Vec<u8> {
    house::pack(&format!("service {service}\n{JOB}")).expect("the own case with a service")
}

#[test]
fn jobs_of_version_2() {
    let (own, hot) = (job(), served("hot"));
    let (service, sections) = (At::Field(Field::Service), At::Field(Field::Sections));
    check(of_job(&served("3")), 3, service, "3 is none of 0 (total), 1 (cold), 2 (hot)");
    check(of_job(&served("255")), 3, service, "255 is none of");
    // Version 1 has no service: its byte 40 is the parent of section 1.
    check(of_job(&with(&own, &[(40, 3)])), 5, At::Section(1), "it hangs from section 3");
    // The other version's length.
    check(
        of_job(&with(&own, &[(4, 2)])),
        4,
        sections,
        "the record has 50 bytes; section count 1 asks for 51 in version 2",
    );
    check(of_job(&with(&own, &[(4, 2)])), 4, sections, "version 1 has as many: is the service's byte missing?");
    check(
        of_job(&with(&hot, &[(4, 1)])),
        4,
        sections,
        "section count 1 asks for 50, and version 2, which has a service",
    );
    check(of_job(&with(&hot, &[(6, 2)])), 4, sections, "section count 2 asks for 61 in version 2");
    // Forty bytes of version 2 end before the service.
    check(
        of_job(&with(&own[..40], &[(3, 40), (4, 2)])),
        4,
        sections,
        "the record has 40 bytes; section count 1 asks for 51",
    );
    check(of_job(&with(&own[..40], &[(3, 40), (4, 2), (7, 25)])), 3, At::Field(Field::Hours), "25 is outside 1 to 24");
    // The sections lie one byte further on.
    check(of_job(&with(&hot, &[(41, 1)])), 5, At::Section(1), "hangs from itself");
    check(of_job(&with(&hot, &[(42, 13)])), 5, At::Section(1), "kind 13 is none of 0 to 12");
}

#[test]
fn heat() {
    let of = |job: &[u8], cold: u32, loss: u32| {
        let refusal = calls::heat(job, cold, loss).expect_err("refused");
        let heating = Some(Heating { cold, loss });
        (refusal.number(), places(&refusal, &Asked { job, heating, ..Asked::default() }))
    };
    let service = At::Field(Field::Service);
    check(
        of(&job(), 5, 0),
        20,
        service,
        "it is total, cold and hot water together, as where none is given; a hot line has a house",
    );
    check(of(&served("total"), 5, 0), 20, service, "it is total, cold and hot water together; ");
    check(of(&served("cold"), 5, 0), 20, service, "it is cold; a hot line has a house of its own, with `service hot`");
    // 20 comes before 21, and 1 to 9 before both.
    check(of(&job(), 31, 1_000_001), 20, service, "as where none is given");
    check(of(&served("hot")[..50], 31, 0), 1, At::Field(Field::Stated), "states 51 bytes and has 50");
    let (cold, loss) = (At::ColdWater, At::HeatLoss);
    check(of(&served("hot"), 31, 0), 21, cold, "31 is outside 0 to 30 degrees C");
    check(of(&served("hot"), 0, 1_000_001), 21, loss, "1000001 is outside 0 to 1000000 W");
    let both = of(&served("hot"), u32::MAX, u32::MAX);
    assert_eq!(both.1.iter().map(|place| place.at).collect::<Vec<_>>(), [cold, loss]);
    assert_eq!(of(&served("hot"), 31, 1_000_000).1.len(), 1);
}

/// A cold line of 80 fixtures carries 8,000,000 millionths in the hour. Of a resident of kind 7 it has Q 130 and O 190, 100,000 × 130
/// / 190 = 68,421.05 for each; 116 residents weigh 7,936,843 and 117 weigh 8,005,264. Of all water it is Q 280 and O 280, 80 residents.
#[test]
fn nine_goes_by_the_norms_of_the_line() {
    for (service, pass, weight) in [("total", 80, 11_700_000_u64), ("cold", 116, 8_005_264), ("hot", 101, 9_236_843)] {
        let job = with(&served(service), &[(29, 117)]);
        let found = of_job(&job);
        check((found.0, found.1.clone()), 9, At::House, &format!("the hour's sum is {weight} millionths"));
        let line = At::Field(Field::Service);
        match service {
            "total" => {
                check((found.0, found.1.clone()), 9, At::Residents(7), &format!("; {pass} residents would pass"));
                assert!(found.1.iter().all(|place| place.at != line));
            }
            // Residents of a line are those of the whole house; with the fixtures that are named it passes.
            _ => {
                check(
                    (found.0, found.1.clone()),
                    9,
                    line,
                    "its residents stay those of the whole house, and its fixtures",
                );
                assert!(
                    !found.1.iter().any(|place| place.why.contains("would pass") || place.why.contains("fewer res"))
                );
                let fixtures = weight.div_ceil(100_000) as u8;
                let why = format!("fixtures of kind hotel-75 carry 8000000; {fixtures} fixtures would do, ");
                check((found.0, found.1.clone()), 9, At::Residents(7), &why);
                assert!(calls::flow(&with(&job, &[(44, fixtures)])).is_ok());
                assert!(calls::flow(&with(&job, &[(44, fixtures - 1)])).is_err());
            }
        }
        assert!(calls::flow(&with(&job, &[(29, pass)])).is_ok(), "{service}");
        assert_eq!(calls::flow(&with(&job, &[(29, pass + 1)])), Err(Refusal::DemandOverFixtures), "{service}");
    }
}

/// The number before these words in the reason of a place.
fn told(place: &Place, behind: &str) -> Option<u16> {
    let front = place.why.split(behind).next().filter(|front| front.len() < place.why.len())?;
    front.split(|c: char| !c.is_ascii_digit()).next_back().and_then(|number| number.parse().ok())
}

/// A house of fixtures that hang on the pump, each line a kind with its residents and fixtures.
fn crowd(kinds: &[(u8, u16, u16)]) -> Record {
    let mut record = Record { version: 1, tenths: 3, hours: 24, delivered: 6_000, limit: 3_000, ..Record::default() };
    for (kind, residents, fixtures) in kinds {
        record.residents[usize::from(*kind) - 1] = *residents;
        record.sections.push(Section { kind: *kind, fixtures: *fixtures, length: 10, ..Section::default() });
    }
    record.stated = record.len() as u32;
    record
}

fn number_of(record: &Record) -> u32 {
    calls::flow(&record.bytes()).err().map_or(0, |refusal| refusal.number())
}

/// What a place says of residents and fixtures holds in the library: so many pass, one more or one fewer doesn't.
fn the_advice_holds(record: &Record, place: &Place, number: u32) -> bool {
    let At::Residents(kind) = place.at else { return false };
    let of = |residents: u16| {
        let mut other = record.clone();
        other.residents[usize::from(kind) - 1] = residents;
        number_of(&other)
    };
    let words = if number == 9 { " residents would pass" } else { " would pass" };
    let passes = told(place, words);
    if let Some(pass) = passes {
        assert_eq!(of(pass), 0, "{place}");
        assert!([8, 9].contains(&of(pass + 1)), "{place}");
    }
    let Some(more) = told(place, " more in section ") else { return passes.is_some() };
    let section: usize = place.why.rsplit(' ').next().and_then(|word| word.parse().ok()).expect("a section");
    let with = |more: u16| {
        let mut other = record.clone();
        other.sections[section - 1].fixtures += more;
        number_of(&other)
    };
    assert_eq!((with(more), with(more - 1)), (0, 9), "{place}");
    true
}

#[test]
fn nine_says_what_would_pass() {
    let own = job();
    check(
        of_job(&with(&own, &[(43, 18)])),
        9,
        At::Section(1),
        "m is 1840741 millionths; the fixtures it serves, 18, carry at most 1800000",
    );
    let few = of_job(&with(&own, &[(43, 70)]));
    check(few.clone(), 9, At::House, "the hour's sum is 7100000 millionths");
    check(few.clone(), 9, At::Residents(7), "71 residents weigh 7100000 millionths, and 70 fixtures of kind hotel-75");
    check(few, 9, At::Residents(7), "70 residents would pass; 71 fixtures would do, 1 more in section 1");
    assert!(calls::flow(&with(&own, &[(43, 71)])).is_ok(), "71 fixtures are enough");
}

/// A hotel of 120 in 160 fixtures has the larger share; the offices of 200 in 36 are the ones that are over.
#[test]
fn nine_blames_the_kind_that_is_over_and_not_the_largest() {
    let record = crowd(&[(7, 120, 160), (11, 200, 36)]);
    let (number, found) = of_job(&record.bytes());
    let blamed: Vec<&Place> = found.iter().filter(|place| matches!(place.at, At::Residents(_))).collect();
    assert_eq!((number, blamed.len(), blamed[0].at), (9, 1, At::Residents(11)), "{found:?}");
    assert!(the_advice_holds(&record, blamed[0], 9), "{found:?}");
}

#[test]
fn nine_from_a_section_alone() {
    let record = crowd(&[(11, 3_200, 50), (11, 3_200, 200)]);
    let found = of_job(&record.bytes());
    assert!(found.1.iter().all(|place| place.at != At::House), "the house itself passes");
    check(found.clone(), 9, At::Section(2), "200, carry at most 20000000");
    check(found, 9, At::Residents(11), "3150 residents would pass; 254 fixtures would do, 4 more in section 1");
}

#[test]
fn the_advice_of_eight_and_nine_holds_in_the_library() {
    let (mut eights, mut nines) = (0, 0);
    for index in 0..30_000 {
        let case = generate::case(13, index);
        let Err(refusal) = calls::flow(&case.job) else { continue };
        if ![8, 9].contains(&refusal.number()) {
            continue;
        }
        let record = Record::read(&case.job).expect("it passed 4");
        let found = places(&refusal, &Asked { job: &case.job, ..Asked::default() });
        assert!(found.iter().any(|place| place.at == At::House || matches!(place.at, At::Residents(_))), "{found:?}");
        let held = found.iter().filter(|place| the_advice_holds(&record, place, refusal.number())).count();
        *if refusal.number() == 8 { &mut eights } else { &mut nines } += usize::from(held > 0);
    }
    assert!(eights > 30 && nines > 100, "{eights} {nines}");
    let own = with(&job(), &[(28, 255), (29, 255), (42, 255), (43, 255)]);
    check(of_job(&own), 8, At::Residents(7), "65535 given, 6553500000 of 6553500000 millionths; 4000 would pass");
}

fn rated(job: &[u8], cat: &[u8], sizes: &[u8]) -> (u32, Vec<Place>) {
    let refusal = calls::rate(job, cat, sizes).expect_err("refused");
    (refusal.number(), places(&refusal, &Asked { job, cat, sizes, ..Asked::default() }))
}

#[test]
fn catalogues_and_lists() {
    let (own, cat) = (job(), cat());
    let longer = [cat.clone(), vec![0]].concat();
    check(rated(&own, &longer, &[2]), 10, At::Catalogue, "it has 48 bytes; size count 2 and row count 2 ask for 47");
    check(rated(&own, &with(&cat, &[(4, 2)]), &[2]), 10, At::Catalogue, "version 2 is not 1");
    // Two files are swapped only where each has the other's place.
    check(rated(&own, &own, &[2]), 10, At::Catalogue, "the length of a job record; a catalogue is expected");
    check(rated(&cat, &own, &[2]), 3, At::Job, "the length of a catalogue; are the two files swapped?");
    check(rated(&cat, &cat, &[2]), 3, At::Job, "the length of a catalogue; a job record is expected");
    check(rated(&own, &with(&cat, &[(9, 0), (10, 0)]), &[2]), 11, At::Size(1), "price 0 is outside 1 to 10000");
    check(
        rated(&own, &with(&cat, &[(28, 40)]), &[2]),
        11,
        At::Size(2),
        "bore 40 mm is not over the size before's 40 mm",
    );
    check(rated(&own, &with(&cat, &[(21, 3), (22, 0xe8)]), &[2]), 11, At::Row(1, 2), "flow 1000 ml/s is not over");
    check(rated(&own, &with(&cat, &[(25, 0), (26, 1)]), &[2]), 11, At::Row(1, 2), "slope 1 mm/m is below the row");
    check(rated(&own, &cat, &[2, 2]), 12, At::List, "given: 2; sections of the house: 1");
    check(rated(&own, &cat, &[3]), 12, At::Entry(1), "3 is none of sizes 1 to 2");
    check(
        rated(&own, &cat, &[1]),
        13,
        At::Section(1),
        "velocity 1642 mm/s at 2052 ml/s in size 1 passes the limit of 1500",
    );
    let small = with(&cat, &[(21, 7), (22, 0xd0)]);
    check(rated(&own, &small, &[1]), 13, At::Section(1), "flow 2052 ml/s is over the last row of size 1, 2000 ml/s");
}

#[test]
fn the_missing_head() {
    let (own, cat) = (with(&job(), &[(12, 3), (13, 0x98)]), cat());
    let refusal = calls::choose(&own, &cat).expect_err("920 cm are one too few");
    let found = (refusal.number(), places(&refusal, &Asked { job: &own, cat: &cat, ..Asked::default() }));
    check(found.clone(), 16, At::Field(Field::Delivered), "no list of sizes needs less than 921 cm, 1 cm more");
    check(found, 16, At::Section(1), "sizes 2");
    let slow = with(&job(), &[(14, 1), (15, 0)]);
    let refusal = calls::choose(&slow, &cat).expect_err("256 mm/s are too slow");
    let found = (refusal.number(), places(&refusal, &Asked { job: &slow, cat: &cat, ..Asked::default() }));
    check(found.clone(), 16, At::Section(1), "at 2052 ml/s the least velocity is 1026 mm/s, in size 2 (50 mm)");
    // 2,052,000 cubic mm a second at 256 mm/s take 8,016 square mm, a bore of 101.02 mm.
    check(found, 16, At::Section(1), "and the limit is 256 mm/s; a bore of about 102 mm would do");
    let small = with(&cat, &[(21, 7), (22, 0xd0), (41, 7), (42, 0xd0)]);
    let refusal = calls::choose(&job(), &small).expect_err("the rows end at 2,000 ml/s");
    let found = (refusal.number(), places(&refusal, &Asked { job: &job(), cat: &small, ..Asked::default() }));
    let why = "no size serves its flow of 2052 ml/s; the greatest flow in the table is 2000 ml/s, and the limit is 1500 mm/s; \
        a bore of about 51 mm would do";
    check(found, 16, At::Section(1), why);
}

/// A table of one size of 20 mm with two rows of these flows and velocities.
fn one_size([first, last]: [&str; 2]) -> Vec<u8> {
    let text = format!("size,bore mm,price,flow ml/s,velocity mm/s,slope mm/m\n1,20,9,{first},40\n1,20,9,{last},40\n");
    table::pack(&text).expect("a table")
}

/// Section 1 serves a bath, an eleventh of the share 25,000 × 300 / (9 × 30), 2,526, and basins, 7,937. With m 10,463 α is 0.2,
/// and the formula gives 10 × (2,526 × 30 + 7,937 × 14) / 10,463, 178.6: 179 ml/s, which either table serves. One tap of the bath
/// draws 300. Section 3 has 300 by the formula, as a bath alone. Between 100 and 500 ml/s the velocity at 300 is halfway,
/// and so it is from zero to 600.
#[test]
fn a_flow_that_one_tap_sets() {
    let job = house::pack(&branch(&["hotel-100"])).expect("a house");
    for (rows, in_list, in_choice) in [
        (
            ["100,1000", "290,1300"],
            "flow 300 ml/s (one tap of hotel-100) is over the last row of size 1, 290 ml/s",
            "no size serves its flow of 300 ml/s (one tap of hotel-100); the greatest flow in the table is 290 ml/s, and",
        ),
        (
            ["100,1000", "500,3000"],
            "velocity 2000 mm/s at 300 ml/s (one tap of hotel-100) in size 1 passes the limit of 1500 mm/s",
            "no size serves it: at 300 ml/s (one tap of hotel-100) the least velocity is 2000 mm/s, in size 1 (20 mm), and",
        ),
        (
            ["600,4000", "700,4000"],
            "velocity 2000 mm/s at 300 ml/s (one tap of hotel-100) in size 1 (under the first row, 600 ml/s) passes the limit of 1500",
            "at 300 ml/s (one tap of hotel-100) the least velocity is 2000 mm/s, in size 1 (20 mm; under the first row, 600 ml/s), and",
        ),
    ] {
        let cat = one_size(rows);
        let refusal = calls::choose(&job, &cat).expect_err("one size");
        let chosen = (refusal.number(), places(&refusal, &Asked { job: &job, cat: &cat, ..Asked::default() }));
        for (found, number, why) in [(rated(&job, &cat, &[1; 4]), 13, in_list), (chosen, 16, in_choice)] {
            check(found.clone(), number, At::Section(1), why);
            check(found.clone(), number, At::Section(3), &why.replace(" (one tap of hotel-100)", ""));
            assert_eq!(found.1.iter().filter(|place| place.why.contains("tap")).count(), 1, "{:?}", found.1);
        }
    }
}

/// The greatest resistance of a list loses 65,535 × 300 × 300 / 100,000,000, 58.98 cm, at the greatest flow that one tap sets:
/// 18 never comes of one tap.
#[test]
fn no_meter_is_refused_for_one_tap() {
    let job = house::pack(&flat()).expect("a house");
    let metered = calls::meter(&job, &[2, 0xff, 0xff, 0xff, 0xff]).expect("a turbine meter may lose 250 cm");
    assert_eq!(Record::read(&metered.job).expect("a record").meter, 59);
}

fn asked(case: &Case) -> Asked<'_> {
    let Case { job, cat, sizes, meters, losses, t, loss, .. } = case;
    Asked { job, cat, sizes, meters, losses, heating: Some(Heating { cold: *t, loss: *loss }) }
}

/// Every refusal of the made-up orders has a place, and its place is of its own kind.
#[test]
fn every_refusal_has_a_place() {
    let mut seen = [0; LAST as usize + 1];
    for index in 0..60_000 {
        let case = generate::case(11, index);
        let refusal = match case.call {
            Call::Copy => calls::copy(&case.job).err(),
            Call::Flow => calls::flow(&case.job).err(),
            Call::Duty => calls::duty(&case.job).err(),
            Call::Meter => calls::meter(&case.job, &case.meters).err(),
            Call::Losses => calls::losses(&case.job, &case.cat, &case.sizes).err(),
            Call::Heads => calls::heads(&case.job, &case.losses).err(),
            Call::Rate => calls::rate(&case.job, &case.cat, &case.sizes).err(),
            Call::Choose => calls::choose(&case.job, &case.cat).err(),
            Call::Heat => calls::heat(&case.job, case.t, case.loss).err(),
        };
        let Some(refusal) = refusal else { continue };
        let found = places(&refusal, &asked(&case));
        assert!(!found.is_empty(), "no place for {refusal}\n{}", case.text());
        seen[refusal.number() as usize] += 1;
        if refusal == Refusal::NoSuitableList {
            the_least_head_is_true(&case.job, &case.cat, &found);
        }
    }
    for number in (1..=13).chain(16..=21) {
        assert!(seen[number] > 20, "refusal {number} came {} times", seen[number]);
    }
}

/// At the head that the place names there is a suitable list, one cm under it there is none.
fn the_least_head_is_true(job: &[u8], cat: &[u8], found: &[Place]) {
    let Some(place) = found.iter().find(|place| place.at == At::Field(Field::Delivered)) else { return };
    let words: Vec<&str> = place.why.split(' ').collect();
    let than = words.iter().position(|word| *word == "than").expect("the sentence has its words");
    let least: u32 = words[than + 1].parse().expect("a head in cm");
    if least > 6_000 {
        return;
    }
    let at = |head: u32| with(job, &[(12, (head >> 8) as u8), (13, head as u8)]);
    assert!(calls::choose(&at(least), cat).is_ok(), "{place}");
    assert_eq!(calls::choose(&at(least - 1), cat), Err(Refusal::NoSuitableList), "{place}");
}

/// A refusal that does not belong to the bytes finds no place or some place, and never stops the program.
#[test]
fn any_bytes_are_taken() {
    for index in 0..20_000 {
        let case = generate::case(12, index);
        for number in 1..=LAST + 1 {
            let refusal = Refusal::from_number(number).expect("a refusal");
            let found = places(&refusal, &asked(&case));
            assert!(found.iter().all(|place| !place.why.is_empty()));
            let Case { job, meters, cat, .. } = &case;
            let none = Asked::default();
            let crossed = places(&refusal, &Asked { job: cat, cat: job, sizes: job, meters: job, losses: job, ..none });
            assert!(crossed.iter().all(|place| !place.why.is_empty()));
            let crossed =
                places(&refusal, &Asked { job: meters, cat: meters, sizes: meters, meters: cat, losses: cat, ..none });
            assert!(crossed.iter().all(|place| !place.why.is_empty()));
        }
    }
}
