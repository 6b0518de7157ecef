//! Houses of mixed use as readable texts, whose flows are worked out by hand. Not every test needs all of them.
#![allow(dead_code)]

const HEAD: &str = "local losses 0.3\nhours 24\nmeter loss 50 cm\nguaranteed head 500 cm\ndelivered head 3000 cm\n\
    velocity limit 1500 mm/s\n";

/// Residents by kind, and sections by parent, kind and fixtures; a section of no kind has no fixtures.
pub fn house(residents: &[(&str, u16)], sections: &[(&str, &str, u16)]) -> String {
    let residents: String = residents.iter().map(|(kind, count)| format!("residents {kind} {count}\n")).collect();
    let section = |(number, (from, kind, fixtures)): (usize, &(&str, &str, u16))| {
        let serves =
            if *kind == "none" { String::new() } else { format!(" fixtures {fixtures} free {} cm", 100 + number) };
        format!("section {number} from {from} length 5 m elevation {} cm kind {kind}{serves}\n", 300 + 10 * number)
    };
    let sections: String = (1..).zip(sections).map(section).collect();
    format!("{HEAD}{residents}{sections}")
}

/// One worker whose eight basins hang on section 1, and of each of these kinds a resident with one fixture there and ten on
/// the pump. Section 1 has all of the offices' share, 25,000 × 40 / (9 × 14), which is 7,937, and an eleventh of the others'.
pub fn branch(kinds: &[&str]) -> String {
    let residents: Vec<(&str, u16)> = kinds.iter().chain(&["offices"]).map(|kind| (*kind, 1)).collect();
    let mut sections = vec![("pump", "none", 0), ("1", "offices", 8)];
    sections.extend(kinds.iter().map(|kind| ("1", *kind, 1)));
    sections.extend(kinds.iter().map(|kind| ("pump", *kind, 10)));
    house(&residents, &sections)
}

/// A flat of one resident and an office of eight workers, each with a pipe of its own from the pump. The flat's share is
/// 25,000 × 200 / (9 × 30), 18,519, the office's 25,000 × 40 × 8 / (9 × 14), 63,493; m is 82,012. Table 2 has 0.320 at 0.082 and
/// 0.323 at 0.084: α is 0.320018. The sum of share × Z is 1,444,472, and the average flow of the house 1,444,472 × 320,018 /
/// (20,000 × 82,012), 281.8: 282 ml/s, where one tap of the flat draws 300.
pub fn flat() -> String {
    house(&[("dwelling", 1), ("offices", 8)], &[("pump", "dwelling", 3), ("pump", "offices", 6)])
}
