//! Document 01's table of norms, and document 02's of the two lines, request L4.

#[derive(Clone, Copy, Debug, PartialEq, Eq)]
pub struct Norm {
    /// Litres per resident on the greatest day.
    pub day: i128,
    /// Tenths of a litre per resident in the greatest hour.
    pub hour: i128,
    /// A fixture's flow in hundredths of l/s.
    pub fixture: i128,
    /// A fixture's flow in l/h.
    pub fixture_hour: i128,
}

const fn norm(day: i128, hour: i128, fixture: i128, fixture_hour: i128) -> Norm {
    Norm { day, hour, fixture, fixture_hour }
}

/// The columns D, Q, Z and O of kinds 1 to 12, of all the water.
pub const NORMS: [Norm; 12] = [
    norm(400, 200, 30, 300), // 1 dwelling, highest class
    norm(100, 104, 20, 100), // 2 hostel, shared showers
    norm(160, 120, 20, 100), // 3 hostel, kitchens and shower blocks
    norm(120, 125, 30, 300), // 4 hotel, shared baths
    norm(230, 190, 20, 115), // 5 hotel, shower in each room
    norm(200, 224, 30, 250), // 6 hotel, baths to 25 %
    norm(250, 280, 30, 280), // 7 hotel, baths 75 %
    norm(300, 300, 30, 300), // 8 hotel, baths 100 %
    norm(115, 84, 20, 100),  // 9 hospital, shared baths
    norm(15, 26, 20, 80),    // 10 polyclinic
    norm(16, 40, 14, 80),    // 11 offices
    norm(20, 27, 14, 100),   // 12 schools
];

/// The services of a job of version 2.
pub const TOTAL: i128 = 0;
pub const COLD: i128 = 1;
pub const HOT: i128 = 2;

/// D and Q of the hot line, kinds 1 to 12.
const HOT_DAY: [i128; 12] = [130, 60, 90, 70, 140, 100, 150, 180, 75, 6, 7, 8];
const HOT_HOUR: [i128; 12] = [109, 63, 75, 82, 120, 104, 150, 160, 54, 12, 20, 12];
/// Z and O of either line.
const LINE_FIXTURE: [i128; 12] = [20, 14, 14, 20, 14, 20, 20, 20, 14, 14, 10, 10];
const LINE_FIXTURE_HOUR: [i128; 12] = [200, 60, 60, 200, 80, 180, 190, 200, 60, 60, 60, 60];

/// The norms of a kind from 1 to 12 in a service. A service that there is not, which 3 refuses, has those of all the water.
pub fn of(service: i128, kind: usize) -> Norm {
    let (place, all) = (kind - 1, NORMS[kind - 1]);
    let line = |day: i128, hour: i128| norm(day, hour, LINE_FIXTURE[place], LINE_FIXTURE_HOUR[place]);
    match service {
        HOT => line(HOT_DAY[place], HOT_HOUR[place]),
        COLD => line(all.day - HOT_DAY[place], all.hour - HOT_HOUR[place]),
        _ => all,
    }
}

#[cfg(test)]
mod tests {
    use super::*;

    /// A column of a service's norms, kind 1 first.
    fn column(service: i128, of_norm: fn(&Norm) -> i128) -> Vec<i128> {
        (1..=12).map(|kind| of_norm(&of(service, kind))).collect()
    }

    /// What is left for the cold line, worked out by hand.
    #[test]
    fn cold_is_total_less_hot() {
        assert_eq!(column(COLD, |norm| norm.day), [270, 40, 70, 50, 90, 100, 100, 120, 40, 9, 9, 12]);
        assert_eq!(column(COLD, |norm| norm.hour), [91, 41, 45, 43, 70, 120, 130, 140, 30, 14, 20, 15]);
    }

    #[test]
    fn a_fixture_of_either_line_draws_alike_and_less_than_of_all_the_water() {
        for kind in 1..=12 {
            let [total, cold, hot] = [TOTAL, COLD, HOT].map(|service| of(service, kind));
            assert_eq!((cold.fixture, cold.fixture_hour), (hot.fixture, hot.fixture_hour), "kind {kind}");
            assert!(hot.fixture < total.fixture && hot.fixture_hour < total.fixture_hour, "kind {kind}");
        }
    }
}
