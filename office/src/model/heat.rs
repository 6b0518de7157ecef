//! Document 02's request L4: the heat flow of formulas 10 and 11 for a hot line, with the refusals 20 and 21.

use super::bytes::{put, up};
use super::demand::Demand;
use super::faults::Faults;
use super::house::House;
use super::norms::HOT;

/// The hot water's temperature, °C.
const HOT_WATER: i128 = 55;
/// The most that may be stated: the cold water's temperature in °C, and the line's loss in watts.
pub const MOST_T: i128 = 30;
pub const MOST_LOSS: i128 = 1_000_000;

/// What is asked beside the job.
#[derive(Clone, Copy)]
pub struct Asked {
    pub t: i128,
    pub loss: i128,
}

impl Asked {
    pub fn of(t: u32, loss: u32) -> Asked {
        Asked { t: t.into(), loss: loss.into() }
    }

    /// Which of 20 and 21 apply, each asked without regard to the other.
    pub fn faults(&self, house: &House) -> Faults {
        let mut faults = Faults::default();
        faults.note(20, house.service != HOT);
        faults.note(21, self.t > MOST_T || self.loss > MOST_LOSS);
        faults
    }

    /// Watts for this many l/h. A litre takes 1.16 W in the hour for each degree, which is 29 W for 25 degrees: whole lots of 25
    /// take a whole number, and only what is over them is rounded.
    pub fn watts(&self, litres: i128) -> i128 {
        let degrees = litres * (HOT_WATER - self.t);
        29 * (degrees / 25) + up(29 * (degrees % 25), 25) + self.loss
    }

    /// The result for an accepted job.
    pub fn bytes(&self, demand: &Demand) -> Vec<u8> {
        let mut bytes = Vec::new();
        [demand.mean_hour(), demand.hour()].iter().for_each(|litres| put(&mut bytes, self.watts(*litres), 4));
        bytes
    }
}

#[cfg(test)]
mod tests {
    use super::*;

    /// 116 × 444 × 50 = 2,575,200; 116 × 444 × 45 = 2,317,680, whose hundredth is 23,176.8; 116 × 2,624 × 25 = 7,609,600.
    #[test]
    fn watts_by_hand() {
        assert_eq!(Asked { t: 5, loss: 0 }.watts(444), 25_752);
        assert_eq!(Asked { t: 10, loss: 0 }.watts(444), 23_177);
        assert_eq!(Asked { t: 10, loss: 3 }.watts(444), 23_180);
        assert_eq!(Asked { t: 30, loss: 1_000_000 }.watts(2_624), 1_076_096);
        assert_eq!(Asked { t: 0, loss: 0 }.watts(1), 64, "63.8");
        // 65,535 residents of each kind on one hour of use, with cold water of 0 °C and the most loss.
        assert_eq!(Asked { t: 0, loss: 1_000_000 }.watts(66_583_560), 4_249_031_128);
    }

    /// The quotient and the remainder come to the formula's quotient, rounded up, for every number of litres that matters.
    #[test]
    fn lots_of_25_and_the_rest() {
        for t in 0..=30 {
            for litres in (0..2_000).chain([137_850, 66_583_560]) {
                let (over, watts) = (116 * litres * (55 - t), Asked { t, loss: 0 }.watts(litres));
                assert!(100 * watts >= over && 100 * (watts - 1) < over, "{litres} l/h at {t} °C");
            }
        }
    }
}
