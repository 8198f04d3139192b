//! Margins and verdicts.

use crate::names;
use crate::predicate::{self, Predicates};
use crate::refusal::Refusal;
use crate::table::{self, Table};
use std::fmt;

/// The margin of what cannot be missed.
pub const TOP: i64 = 4_000_000_000_000;
/// Scales are 1 to this; another one is refused by 13.
pub const MOST_SCALE: u64 = 1_000;

/// Samples: a time for each, rising, and `channels` values for each time. A channel's distances are
/// multiplied by its scale.
#[derive(Clone, Copy, PartialEq, Eq, Debug)]
pub struct Recording<'a> {
    pub channels: u64,
    /// One for each channel.
    pub scales: &'a [u64],
    pub times: &'a [u64],
    pub values: &'a [i64],
}

/// What is shown of every course that the channels may have taken between the samples.
#[derive(Clone, Copy, PartialEq, Eq, Hash, Debug, Default)]
pub enum Verdict {
    #[default]
    NotShown,
    Holds,
    Fails,
}

/// The word that is printed.
impl fmt::Display for Verdict {
    fn fmt(&self, f: &mut fmt::Formatter<'_>) -> fmt::Result {
        f.write_str(match self {
            Verdict::NotShown => "unshown",
            Verdict::Holds => "holds",
            Verdict::Fails => "fails",
        })
    }
}

/// A verdict and what it comes from: the margins of the strengthened requirement and of its
/// strengthened negation.
#[derive(Clone, Copy, PartialEq, Eq, Debug)]
pub struct Judgement {
    pub verdict: Verdict,
    pub hold: i64,
    pub fail: i64,
}

/// Hands on the requirement, the predicates and the recording as flat numbers.
fn call<T>(
    table: &Table,
    predicates: &Predicates,
    recording: &Recording,
    ask: impl FnOnce(&names::Call) -> T,
) -> T {
    let (nodes, flat) = (table::to_flat(table), predicate::to_flat(predicates));
    ask(&names::Call {
        nodes: &nodes,
        count: table.nodes.len() as u64,
        ranges: &flat.ranges,
        ends: &flat.ends,
        channels: recording.channels,
        scales: recording.scales,
        times: recording.times,
        values: recording.values,
    })
}

/// The margin of a recording: by how much it keeps the requirement, or misses it below 0.
/// Refusals 3 to 8 and 13.
///
/// `work` needs nodes × rows cells. Cell k × rows + i ends as node k's margin at sample i, later
/// cells keep their contents; under a refusal all do.
pub fn margin(
    table: &Table,
    predicates: &Predicates,
    recording: &Recording,
    work: &mut [i64],
) -> Result<i64, Refusal> {
    let mut result = [0];
    Refusal::check(call(table, predicates, recording, |c| names::margin(c, work, &mut result)))?;
    Ok(result[0])
}

/// Whether a recording keeps the requirement between its samples too, which are at most `step`
/// seconds apart, if no channel moves, times its scale, by more than `drift` within a step of a
/// sample. Refusals 3 to 11 and 13.
///
/// `work` needs 2 × nodes × rows cells. Row 2k ends as node k's strengthened margins, row 2k + 1 as
/// those of its negation, later cells keep their contents; under a refusal all do.
pub fn verdict(
    table: &Table,
    predicates: &Predicates,
    recording: &Recording,
    step: u64,
    drift: u64,
    work: &mut [i64],
) -> Result<Judgement, Refusal> {
    let mut result = [0; names::RESULT];
    let ask = |c: &names::Call| names::verdict(c, step, drift, work, &mut result);
    Refusal::check(call(table, predicates, recording, ask))?;
    let verdict = match result[0] {
        1 => Verdict::Holds,
        2 => Verdict::Fails,
        _ => Verdict::NotShown,
    };
    Ok(Judgement { verdict, hold: result[1], fail: result[2] })
}
