//! A second way to a margin, through truth alone: a margin is at least w exactly when the
//! requirement, with "not" pushed down, is true of the samples once each predicate (or its
//! negation) counts as true only where its own margin is at least w. No smaller, larger, smallest
//! or largest is taken of any margin.

use crate::limits::TOP;
use crate::margin::atom_margin;
use crate::predicate::{unscaled_distance, Predicates};
use crate::recording::Recording;
use crate::tree::{Atom, Shared};
use crate::truth::{Places, Truth};

/// TOP before Change 5.
pub const TOP_BEFORE_SCALES: i64 = 4_000_000_000;

struct AtLeast<'a, M> {
    level: i64,
    margin: &'a M,
    recording: &'a Recording,
}

impl<M: Fn(Atom, usize) -> i64> Places for AtLeast<'_, M> {
    fn count(&self) -> usize {
        self.recording.rows()
    }

    fn time(&self, sample: usize) -> i64 {
        self.recording.time(sample)
    }

    fn atom(&self, atom: Atom, negated: bool, sample: usize) -> bool {
        let margin = (self.margin)(atom, sample);
        (if negated { -margin } else { margin }) >= self.level
    }
}

/// The margin at the first sample of a requirement whose "not" is pushed down.
pub fn margin_by_levels(tree: &Shared, predicates: &Predicates, recording: &Recording) -> i64 {
    let margin = |atom, sample| atom_margin(atom, sample, predicates, recording);
    highest(tree, predicates, recording, TOP, &margin)
}

/// The same before there were scales: distances as they are, and the TOP of then.
pub fn margin_before_scales(tree: &Shared, predicates: &Predicates, recording: &Recording) -> i64 {
    let margin = |atom, sample| match atom {
        Atom::True => TOP_BEFORE_SCALES,
        Atom::Predicate(number) => {
            let value = recording.value(sample, predicates[number].channel);
            unscaled_distance(predicates[number].range, value).unwrap_or(TOP_BEFORE_SCALES)
        }
    };
    highest(tree, predicates, recording, TOP_BEFORE_SCALES, &margin)
}

/// The highest level that the requirement reaches at the first sample, −TOP where it reaches none.
fn highest(
    tree: &Shared,
    predicates: &Predicates,
    recording: &Recording,
    top: i64,
    margin: &impl Fn(Atom, usize) -> i64,
) -> i64 {
    let levels = levels(predicates, recording, top, margin);
    let reached = levels
        .partition_point(|&level| Truth::over(&AtLeast { level, margin, recording }).of(tree)[0]);
    if reached == 0 {
        -top
    } else {
        levels[reached - 1]
    }
}

/// Every margin that an atom or its negation has anywhere, and TOP, rising. Every margin is at
/// least −TOP, also an eventually's over nothing, which no level says; so that one is left out.
fn levels(
    predicates: &Predicates,
    recording: &Recording,
    top: i64,
    margin: &impl Fn(Atom, usize) -> i64,
) -> Vec<i64> {
    let mut levels = vec![top];
    for number in (0..predicates.len()).filter(|&number| predicates[number].is_set()) {
        for sample in 0..recording.rows() {
            let margin = margin(Atom::Predicate(number), sample);
            levels.extend([margin, -margin]);
        }
    }
    levels.retain(|&level| level > -top);
    levels.sort_unstable();
    levels.dedup();
    levels
}
