//! Predicates: a channel together with one of five ranges, and the distance of a value from it.

use crate::limits::{LARGEST_VALUE, MOST_CHANNELS, PREDICATES, TOP};
use crate::recording::scale_broken;
use crate::refusal::{when, Refusal};

#[derive(Clone, Copy, PartialEq, Eq, Debug)]
pub enum Range {
    Unset,
    Free,
    AtLeast(i64),
    AtMost(i64),
    Between(i64, i64),
}

#[derive(Clone, Copy, PartialEq, Eq, Debug)]
pub struct Predicate {
    pub channel: u64,
    pub range: Range,
}

pub type Predicates = [Predicate; PREDICATES];

pub const UNSET: Predicate = Predicate { channel: 0, range: Range::Unset };

impl Range {
    fn low(self) -> Option<i64> {
        match self {
            Range::AtLeast(lo) | Range::Between(lo, _) => Some(lo),
            _ => None,
        }
    }

    fn high(self) -> Option<i64> {
        match self {
            Range::AtMost(hi) | Range::Between(_, hi) => Some(hi),
            _ => None,
        }
    }

    pub fn contains(self, value: i64) -> bool {
        self.low().is_none_or(|lo| lo <= value) && self.high().is_none_or(|hi| value <= hi)
    }

    /// "An end out of range or lo > hi."
    fn broken(self) -> bool {
        let out = |end: i64| !(-LARGEST_VALUE..=LARGEST_VALUE).contains(&end);
        self.low().is_some_and(out)
            || self.high().is_some_and(out)
            || matches!(self, Range::Between(lo, hi) if lo > hi)
    }
}

impl Predicate {
    pub fn is_set(&self) -> bool {
        self.range != Range::Unset
    }

    /// The part of refusal 4 that speaks of one predicate; an unset one is never judged.
    pub fn broken(&self, channels: u64) -> bool {
        self.is_set() && (self.channel >= channels || self.range.broken())
    }
}

/// "A distance is multiplied by its channel's scale (free alone stays at TOP)."
pub fn distance(range: Range, scale: i64, value: i64) -> i64 {
    unscaled_distance(range, value).map_or(TOP, |distance| scale * distance)
}

/// "Inside, it is how far the nearest outside number is. Outside, it is minus the distance to the
/// nearest inside number." The nearest outside number is one past an end, the nearest inside number
/// is an end. A range without ends, free, has nothing outside.
pub fn unscaled_distance(range: Range, value: i64) -> Option<i64> {
    let outside = [range.low().map(|lo| lo - 1), range.high().map(|hi| hi + 1)];
    let ends = [range.low(), range.high()];
    if range.contains(value) {
        nearest(outside, value)
    } else {
        nearest(ends, value).map(|distance| -distance)
    }
}

/// The distance as an answer of its own: a predicate that no card takes, a scale and a value that
/// no card has. Refusals 4, 13 and 7.
pub fn judged_distance(predicate: &Predicate, scale: u64, value: i64) -> Result<i64, Refusal> {
    when(predicate.broken(MOST_CHANNELS), Refusal::Predicates)?;
    when(scale_broken(scale), Refusal::Scales)?;
    when(!(-LARGEST_VALUE..=LARGEST_VALUE).contains(&value), Refusal::Values)?;
    Ok(distance(predicate.range, scale as i64, value))
}

fn nearest(numbers: [Option<i64>; 2], value: i64) -> Option<i64> {
    numbers.into_iter().flatten().map(|number| (value - number).abs()).min()
}

#[cfg(test)]
mod tests {
    use super::*;

    /// The sentence itself, by search over all numbers near enough to matter.
    fn searched(range: Range, scale: i64, value: i64) -> i64 {
        let inside = range.contains(value);
        let nearest = (value - 60..=value + 60)
            .filter(|&other| range.contains(other) != inside)
            .map(|other| scale * (other - value).abs())
            .min()
            .unwrap_or(TOP);
        if inside {
            nearest
        } else {
            -nearest
        }
    }

    #[test]
    fn distance_is_the_nearest_number_across_the_end() {
        for value in -20..=20 {
            for lo in -8..=8 {
                let mut ranges = vec![Range::Free, Range::AtLeast(lo), Range::AtMost(lo)];
                ranges.extend((lo..=8).map(|hi| Range::Between(lo, hi)));
                for (range, scale) in ranges.into_iter().flat_map(|r| [(r, 1), (r, 3), (r, 1_000)])
                {
                    let found = distance(range, scale, value);
                    assert_eq!(found, searched(range, scale, value), "{range:?} {scale} {value}");
                    assert_ne!(found, 0);
                }
            }
        }
    }

    #[test]
    fn broken_on_the_exact_limits() {
        let on = |channel, range| Predicate { channel, range };
        assert!(!on(9, Range::Unset).broken(1));
        assert!(on(1, Range::Free).broken(1));
        assert!(!on(0, Range::Between(-LARGEST_VALUE, LARGEST_VALUE)).broken(1));
        assert!(on(0, Range::AtLeast(-LARGEST_VALUE - 1)).broken(1));
        assert!(on(0, Range::AtMost(LARGEST_VALUE + 1)).broken(1));
        assert!(on(0, Range::Between(3, 2)).broken(1));
        assert!(!on(0, Range::Between(3, 3)).broken(1));
    }
}
