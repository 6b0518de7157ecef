//! Table 2 and the coefficient α, both in millionths.

use super::bytes::up;
use std::sync::OnceLock;

/// Table 2 of document 001 as the model beside it extracted it from the print, keys 0.015 to 400.
const PRINT: &str = include_str!("../../../model/table2.csv");

/// The pairs of key and value, by rising key.
pub fn table() -> &'static [(i128, i128)] {
    static TABLE: OnceLock<Vec<(i128, i128)>> = OnceLock::new();
    TABLE.get_or_init(|| {
        let lines = PRINT.lines().skip(1);
        lines
            .map(|line| {
                let (key, value) = line.split_once(',').expect("a key, a comma and a value");
                (key.parse().expect("a whole key"), value.parse().expect("a whole value"))
            })
            .collect()
    })
}

/// α of a sum of shares that 8 lets through: the two neighbours' values weighted by their distances.
pub fn alpha(m: i128) -> i128 {
    if m < 15_000 {
        return 200_000;
    }
    let table = table();
    let after = table.partition_point(|(key, _)| *key <= m);
    let (low, low_value) = table[after - 1];
    if m == low {
        return low_value;
    }
    let (high, high_value) = table[after];
    up(low_value * (high - m) + high_value * (m - low), high - low)
}

#[cfg(test)]
mod tests {
    use super::*;

    #[test]
    fn the_table_is_the_print() {
        assert_eq!(table().len(), 486);
        assert_eq!(table().iter().map(|(key, _)| key).sum::<i128>(), 26_845_270_000);
        assert_eq!(table().iter().map(|(_, value)| value).sum::<i128>(), 6_954_832_000);
        assert!(table().windows(2).all(|two| two[0].0 < two[1].0 && two[0].1 < two[1].1));
    }

    #[test]
    fn known_values() {
        let known = [
            (1, 200_000),
            (14_999, 200_000),
            (15_000, 202_000),
            (15_001, 202_003),
            (65_000, 296_500),
            (66_001, 298_002),
            (1_840_741, 1_367_927),
            (81_500_000, 21_625_000),
            (399_999_999, 91_900_000),
            (400_000_000, 91_900_000),
        ];
        for (m, value) in known {
            assert_eq!(alpha(m), value, "α of {m}");
        }
    }
}
