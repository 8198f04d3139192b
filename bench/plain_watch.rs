//! A watch in plain Rust, by the algorithm of the proved library: what its speed is compared with.

use crate::plain::{closed, distance, node, nothing, Node, Predicate, TOP};

const NODES: usize = 64;
const CHANNELS: usize = 8;
const LAST_TIME: u64 = 2_000_000_000;
const LARGEST_VALUE: i64 = 1_000_000_000;

/// What is known of each node.
#[derive(Clone)]
struct Known {
    /// Its value at the last row. Nothing asks for that of a node with a window, or over one.
    newest: [i64; NODES],
    /// Its margin at the first row, of the rows so far.
    margin: [i64; NODES],
    /// Of until and release: left's extremum over the rows so far.
    carried: [i64; NODES],
}

/// The smaller or the larger of two.
trait Extreme: Fn(i64, i64) -> i64 {}
impl<F: Fn(i64, i64) -> i64> Extreme for F {}

/// Whether a row so many seconds behind the first is in a node's window, which a watch keeps with
/// both ends counted. A window without end has an end that no row comes to.
fn in_window(node: &Node, since: u64) -> bool {
    node.lo <= since && since <= node.hi
}

impl Known {
    /// Before the first row: extrema over nothing.
    fn fresh(nodes: &[Node]) -> Known {
        let mut known = Known { newest: [0; NODES], margin: [0; NODES], carried: [0; NODES] };
        for (k, node) in nodes.iter().enumerate() {
            let largest = matches!(node.kind, 5 | 7);
            (known.margin[k], known.carried[k]) = (nothing(largest), nothing(!largest));
        }
        known
    }

    /// True, or a predicate.
    fn leaf(&mut self, k: usize, is_first: bool, value: i64) {
        self.newest[k] = value;
        if is_first {
            self.margin[k] = value;
        }
    }

    fn not(&mut self, k: usize, node: &Node) {
        self.newest[k] = -self.newest[node.left];
        self.margin[k] = -self.margin[node.left];
    }

    /// "And", "or".
    fn join(&mut self, k: usize, node: &Node, extreme: impl Extreme) {
        self.newest[k] = extreme(self.newest[node.left], self.newest[node.right]);
        self.margin[k] = extreme(self.margin[node.left], self.margin[node.right]);
    }

    /// Until, release.
    fn bind(
        &mut self,
        k: usize,
        node: &Node,
        since: u64,
        extreme: impl Extreme,
        other: impl Extreme,
    ) {
        if in_window(node, since) {
            let value = other(self.newest[node.right], self.carried[k]);
            self.margin[k] = extreme(self.margin[k], value);
        }
        self.carried[k] = other(self.carried[k], self.newest[node.left]);
    }

    /// Eventually, always: from true or false nothing is carried.
    fn seek(&mut self, k: usize, node: &Node, since: u64, extreme: impl Extreme) {
        if in_window(node, since) {
            self.margin[k] = extreme(self.margin[k], self.newest[node.left]);
        }
    }
}

/// No row is stored.
#[derive(Clone)]
pub struct Watch {
    nodes: [Node; NODES],
    count: usize,
    predicates: [Predicate; 16],
    scales: [i64; CHANNELS],
    channels: usize,
    /// The times of the first and of the last row.
    times: Option<(u64, u64)>,
    known: Known,
}

impl Watch {
    /// A watch that has seen no row, for a table in which no operator with a window stands inside
    /// another, all of it within the limits; one scale for each channel.
    pub fn fresh(nodes: &[Node], predicates: &[Predicate; 16], scales: &[u64]) -> Watch {
        let mut watch = Watch {
            nodes: std::array::from_fn(|k| nodes.get(k).map_or(node(0, 0, 0, 0, 0), closed)),
            count: nodes.len(),
            predicates: *predicates,
            scales: [0; CHANNELS],
            channels: scales.len(),
            times: None,
            known: Known::fresh(nodes),
        };
        for (own, &scale) in watch.scales.iter_mut().zip(scales) {
            *own = scale as i64;
        }
        watch
    }

    /// Takes the next row: 0, or the number of what refuses it; then the watch stays as it is. Like a
    /// library's functions, it is called and not written out where it is called.
    #[inline(never)]
    pub fn row(&mut self, time: u64, values: &[i64]) -> u64 {
        if values.len() != self.channels {
            return 5;
        }
        if time > LAST_TIME || self.times.is_some_and(|(_, last)| time <= last) {
            return 6;
        }
        if !values.iter().all(|value| (-LARGEST_VALUE..=LARGEST_VALUE).contains(value)) {
            return 7;
        }
        let is_first = self.times.is_none();
        let first = self.times.map_or(time, |(first, _)| first);
        self.times = Some((first, time));
        self.take(is_first, time - first, values);
        0
    }

    /// A row so many seconds behind the first.
    fn take(&mut self, is_first: bool, since: u64, values: &[i64]) {
        let Watch { nodes, count, predicates, scales, known, .. } = self;
        for (k, node) in nodes[..*count].iter().enumerate() {
            match node.kind {
                0 => known.leaf(k, is_first, TOP),
                1 => {
                    let Predicate { channel, range } = predicates[node.left];
                    known.leaf(k, is_first, distance(range, scales[channel], values[channel]));
                }
                2 => known.not(k, node),
                3 => known.join(k, node, Ord::min),
                4 => known.join(k, node, Ord::max),
                5 => known.bind(k, node, since, Ord::max, Ord::min),
                6 => known.bind(k, node, since, Ord::min, Ord::max),
                7 => known.seek(k, node, since, Ord::max),
                _ => known.seek(k, node, since, Ord::min),
            }
        }
    }

    /// The root's margin, or the number of what refuses it.
    #[inline(never)]
    pub fn margin(&self) -> Result<i64, u64> {
        match self.times {
            Some(_) => Ok(self.known.margin[self.count - 1]),
            None => Err(5),
        }
    }
}
