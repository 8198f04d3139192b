//! Demand 3 by trial: what strengthened margins above the drift say, asked of histories one by
//! one. The demand speaks of the requirement at the first sample; the same is asked here of every
//! node at every sample, so that an error deep in a requirement is not hidden by its root.

use crate::history::{History, Seconds};
use crate::predicate::Predicates;
use crate::recording::Recording;
use crate::table::Table;
use crate::tree::Shared;
use crate::truth::Truth;

/// "Within one step of this time the requirement is true (or false) of every history."
#[derive(Clone, Debug)]
pub struct Claim {
    pub node: usize,
    pub tree: Shared,
    pub sample: usize,
    pub time: i64,
    pub truth: bool,
}

/// The claims of a verdict's work cells: row 2k claims node k, row 2k + 1 its negation.
pub fn claims(table: &Table, recording: &Recording, drift: u64, work: &[i64]) -> Vec<Claim> {
    let rows = recording.rows();
    let mut claims = Vec::new();
    for (node, tree) in table.trees().into_iter().enumerate() {
        for (row, truth) in [(2 * node, true), (2 * node + 1, false)] {
            let above = (0..rows).filter(|sample| work[row * rows + sample] > drift as i64);
            claims.extend(above.map(|sample| Claim {
                node,
                tree: tree.clone(),
                sample,
                time: recording.time(sample),
                truth,
            }));
        }
    }
    claims
}

/// The first claim that the history contradicts, and the second at which it does.
pub fn contradicted<'a>(
    claims: &'a [Claim],
    predicates: &Predicates,
    history: &History,
    step: u64,
) -> Option<(&'a Claim, i64)> {
    let places = Seconds { predicates, history };
    let mut truth = Truth::over(&places);
    for claim in claims {
        let truths = truth.of(&claim.tree);
        for (place, &truth) in truths.iter().enumerate() {
            let second = history.first + place as i64;
            if (second - claim.time).abs() <= step as i64 && truth != claim.truth {
                return Some((claim, second));
            }
        }
    }
    None
}
