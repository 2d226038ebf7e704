//! Times calls in rounds, in each of which every subject takes its turn.

use std::time::{Duration, Instant};

/// Rounds of each measurement.
pub const ROUNDS: usize = 101;
/// How long, at least, one subject is timed in one round.
const ROUND: Duration = Duration::from_micros(300);

/// A median with its quartiles.
#[derive(Clone, Copy, Debug)]
pub struct Spread {
    pub lower: f64,
    pub median: f64,
    pub upper: f64,
}

/// The nanoseconds of one call, in each round, of all that took turns, by their places.
pub struct Rounds(Vec<[f64; 4]>);

impl Rounds {
    /// The nanoseconds of one call.
    pub fn nanos(&self, who: impl Into<usize>) -> Spread {
        let who = who.into();
        spread(self.0.iter().map(|round| round[who]))
    }

    /// The time of one over that of another, round by round.
    pub fn ratio(&self, one: impl Into<usize>, other: impl Into<usize>) -> Spread {
        let (one, other) = (one.into(), other.into());
        spread(self.0.iter().map(|round| round[one] / round[other]))
    }
}

/// Times the calls of these, four at most, each of which `run` makes so many times.
pub fn measure<T: Copy>(all: &[T], mut run: impl FnMut(T, u64)) -> Rounds {
    let times: Vec<u64> = all.iter().map(|&who| calibrate(|times| run(who, times))).collect();
    let mut rounds = vec![[f64::NAN; 4]; ROUNDS];
    for (number, round) in rounds.iter_mut().enumerate() {
        for turn in 0..all.len() {
            let who = (turn + number) % all.len();
            let nanos = timed(|times| run(all[who], times), times[who]);
            round[who] = nanos / times[who] as f64;
        }
    }
    Rounds(rounds)
}

/// How many calls fill the time of one round.
fn calibrate(mut run: impl FnMut(u64)) -> u64 {
    let mut times = 1;
    while timed(&mut run, times) < ROUND.as_nanos() as f64 {
        times *= 2;
    }
    times
}

/// The nanoseconds that these calls take together.
fn timed(mut run: impl FnMut(u64), times: u64) -> f64 {
    let start = Instant::now();
    run(times);
    start.elapsed().as_nanos() as f64
}

/// The median and the quartiles of numbers that are there.
fn spread(numbers: impl Iterator<Item = f64>) -> Spread {
    let mut numbers: Vec<f64> = numbers.collect();
    numbers.sort_by(f64::total_cmp);
    let at = |quarters: usize| numbers[quarters * (numbers.len() - 1) / 4];
    Spread { lower: at(1), median: at(2), upper: at(3) }
}
