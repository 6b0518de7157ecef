//! The odd house, fed from the attic down: every end lies below the pump axis. It goes through every command.

#[path = "tools/json.rs"]
mod json;
#[path = "tools/run.rs"]
mod run;

use json::Value;
use office::case::{Buffer, Call, Case};
use office::record::Record;
use office::{calls, house, table};
use run::{Ran, office, office_with, read, scratch};

const ATTIC: &str = "examples/attic.txt";
const TABLE: &str = "examples/table.csv";

fn packed() -> (Vec<u8>, Vec<u8>) {
    (house::pack(&read(ATTIC)).expect("a house"), table::pack(&read(TABLE)).expect("a table"))
}

fn answered(words: &[&str]) -> Ran {
    let ran = office(words);
    assert_eq!((ran.status, ran.error.as_str()), (0, ""), "{words:?}");
    ran
}

#[test]
fn every_end_lies_below_the_pump() {
    let record = Record::read(&packed().0).expect("a record");
    assert!(record.sections.len() >= 6 && record.sections.iter().all(|section| section.elevation < 0));
}

#[test]
fn pack_and_show() {
    let (job, _) = packed();
    let kept = scratch("attic.job");
    answered(&["pack", ATTIC, "-o", &kept]);
    assert_eq!(std::fs::read(&kept).expect("written"), job);
    let shown = answered(&["show", &kept]).text();
    assert!(shown.contains("elevation -950 cm"), "{shown}");
    assert_eq!(office_with(&["pack", "-"], shown.as_bytes()).output, job);
    let printed = json::parse(&answered(&["show", &kept, "--json"]).text());
    assert_eq!(printed.list("sections")[5].number("elevation_cm"), -950);
}

#[test]
fn flow_rate_and_choose() {
    let (job, cat) = packed();
    let flow = calls::flow(&job).expect("accepted");
    let text = answered(&["flow", ATTIC]).text();
    assert!(text.contains(&format!("{} l/h", flow.hour)) && text.contains(&format!("{}\n", flow.flows[5])), "{text}");
    let choice = calls::choose(&job, &cat).expect("some list suits");
    let rating = calls::rate(&job, &cat, &choice.sizes).expect("rated");
    let list: Vec<String> = choice.sizes.iter().map(u8::to_string).collect();
    let rate = ["rate", ATTIC, TABLE, &list.join(","), "--json"];
    for words in [&["choose", ATTIC, TABLE, "--json"][..], &rate] {
        let printed = json::parse(&answered(words).text());
        assert_eq!(printed.number("required_head_cm"), i64::from(rating.required));
        assert_eq!(printed.number("pump_head_cm"), i64::from(rating.pump));
        assert_eq!(printed.number("cost_tenths"), i64::from(choice.cost), "the command's sum is the library's");
        let last = &printed.list("sections")[5];
        let lost: i64 = [0, 3, 5].iter().map(|place| i64::from(rating.sections[*place].loss)).sum();
        assert_eq!(last.number("head_left_cm"), 400 - 60 - lost + 950, "the head grows downward");
    }
    // At a meter loss and free heads of 0 the house asks for less than nothing, and the pump for nothing.
    let low =
        read(ATTIC).replace("free 200 cm", "free 0 cm").replace("free 150 cm", "free 0 cm").replace("60 cm", "0 cm");
    let low = low.replace("meter loss      0 cm", "meter loss 0 cm").replace("elevation -120 cm", "elevation -420 cm");
    let printed = json::parse(&office_with(&["rate", "-", TABLE, "6,6,6,6,6,6", "--json"], low.as_bytes()).text());
    assert!(printed.number("required_head_cm") < 0, "{printed:?}");
    assert_eq!((printed.number("pump_head_cm"), printed.get("suits")), (0, &Value::Truth(true)));
}

/// With 1 cm for each section the branch at section 1 asks for the most: 60 - 120 + 1.
#[test]
fn given_losses() {
    let list: String = (1..=6).map(|section| format!("{section},1\n")).collect();
    let text = office_with(&["heads", ATTIC, "-"], format!("section,loss cm\n{list}").as_bytes()).text();
    assert!(
        text.contains("\nrequired head: meter loss 60 + elevation -120 + free head 0 + losses 1 = -59 cm\n"),
        "{text}"
    );
    assert!(text.contains("\npump head              0 cm over the guaranteed 100 cm\n"), "{text}");
}

#[test]
fn draw() {
    let drawn = answered(&["draw", ATTIC, TABLE]).text();
    assert!(drawn.contains("House network of 6 sections</title>") && drawn.contains("elevation -950 cm"), "{drawn}");
    assert!(answered(&["draw", ATTIC, TABLE, "6,6,6,6,6,6"]).text().contains("68 mm (size 6)"));
}

#[test]
fn replay_and_the_model() {
    let (job, cat) = packed();
    let buffer = |length: usize| Buffer { length, pattern: vec![0x5a] };
    for call in Call::ALL {
        let (job, cat) = (job.clone(), cat.clone());
        let meters = vec![1, 0, 1, 0xff, 0xff];
        let (losses, sizes) = ([0, 0, 0, 1].repeat(6), vec![6; 6]);
        let order =
            Case { call, job, meters, losses, cat, sizes, t: 0, loss: 0, work: buffer(40_000), out: buffer(700) };
        let ran = office_with(&["replay", "-"], order.text().as_bytes());
        assert_eq!(ran.status, 0, "{}{}", ran.text(), ran.error);
        // The attic feeds all water, which is no hot line.
        let number = if call == Call::Heat { 20 } else { 0 };
        assert!(ran.text().contains(&format!("library and model agree: number {number},")), "{}", ran.text());
    }
}
