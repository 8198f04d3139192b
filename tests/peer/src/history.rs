//! Histories: courses that the card may have taken between its samples, and all of them, for
//! recordings short enough to try each.

use crate::predicate::Predicates;
use crate::recording::Recording;
use crate::tree::Atom;
use crate::truth::{atom_truth, Places};

/// A number for each channel at each second of the span, one second after the other.
#[derive(Clone, PartialEq, Eq, Debug)]
pub struct History {
    pub first: i64,
    pub channels: usize,
    pub numbers: Vec<i64>,
}

impl History {
    pub fn seconds(&self) -> usize {
        self.numbers.len() / self.channels
    }

    pub fn number(&self, second: usize, channel: u64) -> i64 {
        self.numbers[second * self.channels + channel as usize]
    }
}

/// The least and the most that a place of a history may have; none where samples disagree.
#[derive(Clone, Copy, PartialEq, Eq, Debug)]
pub struct Choice {
    pub least: i64,
    pub most: i64,
}

impl Choice {
    fn count(self) -> u128 {
        (self.most - self.least + 1).max(0) as u128
    }
}

/// What all histories of a recording may choose from, place by place.
#[derive(Clone, Debug)]
pub struct Courses {
    first: i64,
    channels: usize,
    choices: Vec<Choice>,
}

impl Courses {
    /// "Each channel's number at a second differs by at most the drift from that channel's value
    /// at every sample whose time is at most one step from that second, before or after"; "drift is
    /// read in the scaled unit".
    ///
    /// Of an accepted recording: its gaps are at most the step, so every second has such a sample.
    pub fn of(recording: &Recording, step: u64, drift: u64) -> Courses {
        let (first, last) = (recording.time(0), recording.time(recording.rows() - 1));
        let mut choices = Vec::new();
        for second in first..=last {
            for channel in 0..recording.channels {
                choices.push(allowed(recording, second, channel, step as i64, drift as i64));
            }
        }
        Courses { first, channels: recording.channels as usize, choices }
    }

    /// How many histories there are, 0 for a recording without any.
    pub fn count(&self) -> u128 {
        self.choices.iter().fold(1, |count: u128, choice| count.saturating_mul(choice.count()))
    }

    /// The history that takes the given choice at each place.
    pub fn history(&self, choose: impl FnMut(&Choice) -> i64) -> History {
        let numbers = self.choices.iter().map(choose).collect();
        History { first: self.first, channels: self.channels, numbers }
    }

    /// Every history, each once: places count up like the digits of a number.
    pub fn each(&self, mut visit: impl FnMut(&History)) {
        if self.count() == 0 {
            return;
        }
        let mut history = self.history(|choice| choice.least);
        loop {
            visit(&history);
            let numbers = &mut history.numbers;
            let below = |place: &usize| numbers[*place] < self.choices[*place].most;
            let Some(place) = (0..numbers.len()).find(below) else { return };
            numbers[place] += 1;
            for (number, choice) in numbers[..place].iter_mut().zip(&self.choices) {
                *number = choice.least;
            }
        }
    }
}

fn allowed(recording: &Recording, second: i64, channel: u64, step: i64, drift: i64) -> Choice {
    // The most that a number may be off: one more, times the scale, is above the drift.
    let off = drift / recording.scale(channel);
    let near = (0..recording.rows())
        .filter(|&sample| (recording.time(sample) - second).abs() <= step)
        .map(|sample| recording.value(sample, channel));
    let least = near.clone().max().expect("a sample within a step") - off;
    let most = near.min().expect("a sample within a step") + off;
    Choice { least, most }
}

/// Truth over a history: its seconds are the places.
pub struct Seconds<'a> {
    pub predicates: &'a Predicates,
    pub history: &'a History,
}

impl Places for Seconds<'_> {
    fn count(&self) -> usize {
        self.history.seconds()
    }

    fn time(&self, second: usize) -> i64 {
        self.history.first + second as i64
    }

    fn atom(&self, atom: Atom, negated: bool, second: usize) -> bool {
        let number = |channel| self.history.number(second, channel);
        atom_truth(atom, self.predicates, number) != negated
    }
}

#[cfg(test)]
mod tests {
    use super::*;

    fn recording(scale: u64, times: &[u64], values: &[i64]) -> Recording {
        let (times, values) = (times.to_vec(), values.to_vec());
        Recording { channels: 1, scales: vec![scale], times, values }
    }

    /// The definition, asked of one course.
    fn is_history(history: &History, recording: &Recording, step: i64, drift: i64) -> bool {
        (0..history.seconds()).all(|second| {
            (0..recording.rows()).all(|sample| {
                let apart = (history.first + second as i64 - recording.time(sample)).abs();
                let off = (history.number(second, 0) - recording.value(sample, 0)).abs();
                apart > step || recording.scale(0) * off <= drift
            })
        })
    }

    /// All courses over a few numbers, kept or dropped by the definition alone.
    #[test]
    fn the_enumerated_histories_are_all_of_them() {
        for (scale, times, values, step, drift) in [
            (1, &[0u64, 2, 3][..], &[1i64, 2, 1][..], 2, 1),
            (1, &[5, 6, 7], &[0, 1, 3], 1, 2),
            (1, &[0, 1, 2], &[5, 7, 9], 1, 1),
            // The drift a multiple of the scale, one less, in between, and below it.
            (3, &[0, 2, 3], &[1, 2, 1], 2, 3),
            (3, &[0, 2, 3], &[1, 2, 1], 2, 5),
            (3, &[5, 6, 7], &[0, 1, 3], 1, 7),
            (10, &[0, 1, 2], &[5, 5, 5], 1, 9),
            (1_000, &[0, 1, 2], &[5, 5, 6], 1, 1_000),
        ] {
            let recording = recording(scale, times, values);
            let courses = Courses::of(&recording, step, drift);
            let mut listed = Vec::new();
            courses.each(|history| listed.push(history.numbers.clone()));
            assert_eq!(listed.len() as u128, courses.count());
            let seconds = (times[times.len() - 1] - times[0] + 1) as u32;
            let mut wanted = 0;
            for code in 0..16i64.pow(seconds) {
                let numbers =
                    (0..seconds).map(|second| code / 16i64.pow(second) % 16 - 3).collect();
                let history = History { first: times[0] as i64, channels: 1, numbers };
                if is_history(&history, &recording, step as i64, drift as i64) {
                    wanted += 1;
                    assert!(listed.contains(&history.numbers));
                }
            }
            assert_eq!(wanted, listed.len());
        }
    }

    #[test]
    fn a_steep_ramp_has_no_history() {
        for scale in [1, 7] {
            let ramp = recording(scale, &[0, 1, 2], &[5, 7, 9]);
            assert!(!ramp.has_jump(scale));
            assert_eq!(Courses::of(&ramp, 1, scale).count(), 0);
        }
    }
}
