//! Times of several sides taken in turn, and what they come to.

use std::fmt;
use std::time::{Duration, Instant};

pub type Side<'a> = &'a mut dyn FnMut();

const ROUNDS: usize = 15;
/// In each round a side runs so often, and its best time counts: the others are those in which the machine did something
/// else.
const TRIES: usize = 6;
/// Short calls are repeated for at least this long in one try.
const TRY: Duration = Duration::from_micros(300);

/// The time of one call in nanoseconds, by side and round.
pub fn race(sides: &mut [Side]) -> Vec<Vec<f64>> {
    let calls: Vec<u32> = sides.iter_mut().map(calls_in_a_try).collect();
    let mut times = vec![Vec::new(); sides.len()];
    for _ in 0..ROUNDS {
        for (side, run) in sides.iter_mut().enumerate() {
            let tries = (0..TRIES).map(|_| {
                let start = Instant::now();
                (0..calls[side]).for_each(|_| run());
                start.elapsed().as_nanos() as f64 / f64::from(calls[side])
            });
            times[side].push(tries.fold(f64::INFINITY, f64::min));
        }
    }
    times
}

/// This also warms the caches up.
fn calls_in_a_try(side: &mut Side) -> u32 {
    let start = Instant::now();
    let mut calls = 0;
    while start.elapsed() < TRY {
        side();
        calls += 1;
    }
    calls
}

fn median(times: &[f64]) -> f64 {
    let mut sorted = times.to_vec();
    sorted.sort_by(f64::total_cmp);
    sorted[sorted.len() / 2]
}

/// The median in microseconds, as text.
pub fn micros(times: &[f64]) -> String {
    let micros = median(times) / 1_000.0;
    let places = if micros < 1.0 {
        2
    } else if micros < 100.0 {
        1
    } else {
        0
    };
    format!("{micros:.places$}")
}

/// The least, the middle and the greatest ratio of the rounds.
pub struct Spread {
    least: f64,
    middle: f64,
    greatest: f64,
}

impl Spread {
    pub fn of_ratios(own: &[f64], rival: &[f64]) -> Spread {
        let ratios: Vec<f64> = own.iter().zip(rival).map(|(own, rival)| own / rival).collect();
        Spread {
            least: ratios.iter().copied().fold(f64::INFINITY, f64::min),
            middle: median(&ratios),
            greatest: ratios.iter().copied().fold(0.0, f64::max),
        }
    }
}

impl fmt::Display for Spread {
    fn fmt(&self, f: &mut fmt::Formatter) -> fmt::Result {
        write!(f, "{:.2} ({:.2} to {:.2})", self.middle, self.least, self.greatest)
    }
}
