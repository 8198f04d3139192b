//! The time of one call, what is made of many, and figures drawn at random from a seed.

use std::time::Instant;

pub struct Random(pub u64);

impl Random {
    pub fn next(&mut self, bound: u64) -> u64 {
        self.0 = self.0.wrapping_mul(6364136223846793005).wrapping_add(1442695040888963407);
        (self.0 >> 33) % bound
    }

    pub fn value(&mut self) -> i64 {
        self.next(2_000_000_001) as i64 - 1_000_000_000
    }
}

/// Seconds for one call, from a run of calls that lasts a millisecond or more. The clock is read outside the run, because some calls take no longer than it does.
pub fn seconds(mut call: impl FnMut()) -> f64 {
    let mut calls = 1u32;
    loop {
        let began = Instant::now();
        for _ in 0..calls {
            call();
        }
        let took = began.elapsed().as_secs_f64();
        if took >= 0.001 {
            return took / f64::from(calls);
        }
        calls *= 2;
    }
}

pub fn best(times: &[f64]) -> f64 {
    times.iter().copied().fold(f64::INFINITY, f64::min)
}

/// How many times as long the one takes as the other: the median of the rounds. What is timed in one round is timed under
/// the same conditions, and a round that was disturbed does not count.
pub fn times_as_long(one: &[f64], other: &[f64]) -> f64 {
    let mut ratios: Vec<f64> = one.iter().zip(other).map(|(a, b)| a / b).collect();
    ratios.sort_by(f64::total_cmp);
    ratios[ratios.len() / 2]
}

/// Seconds of the library and of plain Rust, for each round the best of its turns.
#[derive(Default)]
pub struct Times {
    pub proved: Vec<f64>,
    pub plain: Vec<f64>,
}

impl Times {
    /// A round's turns.
    pub fn round(&mut self, ours: &[f64], theirs: &[f64]) {
        self.proved.push(best(ours));
        self.plain.push(best(theirs));
    }

    pub fn ratio(&self) -> f64 {
        times_as_long(&self.proved, &self.plain)
    }
}
