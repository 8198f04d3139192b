//! Predicates: a channel together with a range of values.

use crate::names;
use crate::refusal::Refusal;

/// The values that a predicate takes in, its ends counted.
#[derive(Clone, Copy, PartialEq, Eq, Hash, Debug, Default)]
pub enum Range {
    /// No predicate stands at this number.
    #[default]
    Unset,
    /// Every value.
    Free,
    AtLeast(i64),
    AtMost(i64),
    Between(i64, i64),
}

/// A range of one channel's values. An unset predicate's channel is 0.
#[derive(Clone, Copy, PartialEq, Eq, Hash, Debug, Default)]
pub struct Predicate {
    pub channel: u64,
    pub range: Range,
}

impl Predicate {
    /// The distance of a value: how far it is inside the range, or minus how far outside, times the
    /// channel's scale; never 0, and [`crate::TOP`] where the range is free or unset. Refusals 4,
    /// 13 and 7.
    pub fn distance(&self, scale: u64, value: i64) -> Result<i64, Refusal> {
        let mut result = [0];
        let (range, lo, hi) = numbers(self.range);
        Refusal::check(names::distance((range, self.channel, lo, hi), scale, value, &mut result))?;
        Ok(result[0])
    }
}

/// Predicates 0 to 15.
pub type Predicates = [Predicate; names::PREDICATES];

/// Range and channel, lo and hi of each predicate, as the library takes them.
pub(crate) struct Flat {
    pub ranges: [u64; names::RANGES],
    pub ends: [i64; names::ENDS],
}

impl Flat {
    pub const BLANK: Flat = Flat { ranges: [0; names::RANGES], ends: [0; names::ENDS] };
}

/// A range's number and its ends, 0 where it has no such end.
fn numbers(range: Range) -> (u64, i64, i64) {
    match range {
        Range::Unset => (0, 0, 0),
        Range::Free => (1, 0, 0),
        Range::AtLeast(lo) => (2, lo, 0),
        Range::AtMost(hi) => (3, 0, hi),
        Range::Between(lo, hi) => (4, lo, hi),
    }
}

pub(crate) fn to_flat(predicates: &Predicates) -> Flat {
    let mut flat = Flat::BLANK;
    for (p, predicate) in predicates.iter().enumerate() {
        let (range, lo, hi) = numbers(predicate.range);
        flat.ranges[2 * p..2 * p + 2].copy_from_slice(&[range, predicate.channel]);
        flat.ends[2 * p..2 * p + 2].copy_from_slice(&[lo, hi]);
    }
    flat
}

pub(crate) fn of_flat(flat: &Flat) -> Predicates {
    std::array::from_fn(|p| {
        let (lo, hi) = (flat.ends[2 * p], flat.ends[2 * p + 1]);
        let range = match flat.ranges[2 * p] {
            1 => Range::Free,
            2 => Range::AtLeast(lo),
            3 => Range::AtMost(hi),
            4 => Range::Between(lo, hi),
            _ => Range::Unset,
        };
        Predicate { channel: flat.ranges[2 * p + 1], range }
    })
}
