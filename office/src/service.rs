//! What a job's pump set serves: all water of the house, its cold line or its hot line. Job version 2 has a byte for it; in
//! version 1 it is always all water.

pub const TOTAL: u8 = 0;
pub const COLD: u8 = 1;
pub const HOT: u8 = 2;

/// The names that readable files have, in the order of their numbers.
const NAMES: [&str; 3] = ["total", "cold", "hot"];

/// What may be written, for a message.
pub const TAKEN: &str = "total, cold or hot";

/// A service's name. A byte that document 02 has no service for is shown as its number, so that a refused record can be looked
/// at.
pub fn name(service: u8) -> String {
    NAMES.get(usize::from(service)).map_or_else(|| service.to_string(), |name| name.to_string())
}

/// The service of a name alone.
pub fn named(word: &str) -> Option<u8> {
    NAMES.iter().position(|name| *name == word).map(|at| at as u8)
}

/// The service of a name, or of a number that has none. A number that has a name is not taken: somebody may count the lines
/// from another one.
pub fn service(word: &str) -> Option<u8> {
    match named(word) {
        Some(service) => Some(service),
        None if word.bytes().all(|b| b.is_ascii_digit()) => word.parse().ok().filter(|number| *number > HOT),
        None => None,
    }
}

/// What is served, in words.
pub fn words(service: u8) -> String {
    match service {
        TOTAL => "cold and hot water together".to_string(),
        line => format!("the {} line", name(line)),
    }
}

#[cfg(test)]
mod tests {
    use super::*;

    #[test]
    fn every_service_comes_back() {
        for byte in 0..=255 {
            assert_eq!(service(&name(byte)), Some(byte));
        }
        assert_eq!([TOTAL, COLD, HOT].map(name).join(", "), "total, cold, hot");
    }

    #[test]
    fn nothing_else_is_a_service() {
        for word in ["0", "1", "2", "02", "002", "256", "+3", "-1", "3.0", "", "warm", "hot,", "hottest", "HOT", "dhw"]
        {
            assert_eq!(service(word), None, "{word}");
        }
        assert_eq!(service("003"), Some(3));
    }
}
