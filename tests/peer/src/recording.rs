//! A recording: samples at rising times, one value and one scale per channel, and the conditions
//! it must meet.

use crate::limits::{LARGEST_VALUE, LAST_TIME, MOST_CHANNELS, MOST_SAMPLES, MOST_SCALE};

/// Whatever a caller may hand in; only `times_broken` and its like say whether it is a recording.
#[derive(Clone, PartialEq, Eq, Debug)]
pub struct Recording {
    pub channels: u64,
    /// One for each channel, where none of 4 and 5 applies.
    pub scales: Vec<u64>,
    pub times: Vec<u64>,
    pub values: Vec<i64>,
}

pub fn channels_broken(channels: u64) -> bool {
    !(1..=MOST_CHANNELS).contains(&channels)
}

/// "Scale 1 to 1,000."
pub fn scale_broken(scale: u64) -> bool {
    !(1..=MOST_SCALE).contains(&scale)
}

impl Recording {
    /// The count of times: what document 01 calls rows.
    pub fn rows(&self) -> usize {
        self.times.len()
    }

    /// The time of a sample, of an accepted recording.
    pub fn time(&self, sample: usize) -> i64 {
        self.times[sample] as i64
    }

    /// "Sample i, channel c stands at place i × channels + c."
    pub fn value(&self, sample: usize, channel: u64) -> i64 {
        self.values[sample * self.channels as usize + channel as usize]
    }

    /// The scale of a channel, of a recording that none of 13 and 5 refuses.
    pub fn scale(&self, channel: u64) -> i64 {
        self.scales[channel as usize] as i64
    }

    /// Refusal 13: of every scale that is passed, be there one for each channel or not.
    pub fn scales_broken(&self) -> bool {
        self.scales.iter().any(|&scale| scale_broken(scale))
    }

    /// Refusal 5: "library callers pass one scale per channel; another count is refused by 5".
    pub fn samples_broken(&self) -> bool {
        let rows = self.rows() as u128;
        rows == 0
            || rows > MOST_SAMPLES as u128
            || self.values.len() as u128 != rows * self.channels as u128
            || self.scales.len() as u128 != self.channels as u128
    }

    /// Refusal 6.
    pub fn times_broken(&self) -> bool {
        self.times.windows(2).any(|pair| pair[0] >= pair[1])
            || self.times.iter().any(|&time| time > LAST_TIME)
    }

    /// Refusal 7.
    pub fn values_broken(&self) -> bool {
        self.values.iter().any(|value| !(-LARGEST_VALUE..=LARGEST_VALUE).contains(value))
    }

    /// Refusal 10.
    pub fn has_gap(&self, step: u64) -> bool {
        self.times.windows(2).any(|pair| pair[1] - pair[0] > step)
    }

    /// Refusal 11: neighbouring values of a channel, of every channel. "Drift is read in the scaled
    /// unit, for jumps" too.
    pub fn has_jump(&self, drift: u64) -> bool {
        (1..self.rows()).any(|sample| {
            (0..self.channels).any(|channel| {
                let before = self.value(sample - 1, channel) as i128;
                let after = self.value(sample, channel) as i128;
                let scaled = self.scale(channel) as i128 * (after - before).abs();
                scaled > 2 * drift as i128
            })
        })
    }
}
