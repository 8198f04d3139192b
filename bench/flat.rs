//! Tables and predicates of plain Rust as the library's flat numbers (`include/varmityep.h`).

use crate::names::{ENDS, NODES, RANGES};
use crate::plain::{Node, Predicate, Range};

pub fn flat_nodes(nodes: &[Node]) -> [u64; NODES] {
    let mut flat = [0; NODES];
    for (place, node) in flat.as_chunks_mut().0.iter_mut().zip(nodes) {
        let Node { kind, left, right, lo, hi, open_lo, open_hi } = *node;
        *place = [kind, left as u64, right as u64, lo, hi, open_lo, open_hi];
    }
    flat
}

pub fn flat_predicates(predicates: &[Predicate; 16]) -> ([u64; RANGES], [i64; ENDS]) {
    let (mut ranges, mut ends) = ([0; RANGES], [0; ENDS]);
    for (p, predicate) in predicates.iter().enumerate() {
        let (range, lo, hi) = match predicate.range {
            Range::Unset => (0, 0, 0),
            Range::Free => (1, 0, 0),
            Range::AtLeast(lo) => (2, lo, 0),
            Range::AtMost(hi) => (3, 0, hi),
            Range::Between(lo, hi) => (4, lo, hi),
        };
        (ranges[2 * p], ranges[2 * p + 1], ends[2 * p], ends[2 * p + 1]) =
            (range, predicate.channel as u64, lo, hi);
    }
    (ranges, ends)
}
