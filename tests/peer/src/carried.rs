//! A second way to a watch's margin: each row is looked at once and forgotten, and what is carried
//! from row to row is two numbers for each node. No tree is read, and release is until with all signs
//! changed.

use crate::limits::{NO_END, TOP};
use crate::predicate::{distance, Predicates};
use crate::table::{kind, Node, Table};

/// What is carried of a node.
#[derive(Clone, Copy)]
struct Part {
    /// Of a temporal operator, signed: the smallest of left so far.
    left: i64,
    /// Of a temporal operator, signed: the largest so far, over the window. Of a predicate: its
    /// distance in the first row.
    found: i64,
}

/// Over the rows accepted so far, for a table that no making refuses.
pub struct Carried<'a> {
    table: &'a Table,
    predicates: &'a Predicates,
    scales: &'a [u64],
    /// The first row's time.
    first: Option<u64>,
    parts: Vec<Part>,
}

impl<'a> Carried<'a> {
    pub fn over(table: &'a Table, predicates: &'a Predicates, scales: &'a [u64]) -> Self {
        let parts = vec![Part { left: TOP, found: -TOP }; table.count()];
        Carried { table, predicates, scales, first: None, parts }
    }

    /// Takes the next row, which nothing refuses.
    pub fn take(&mut self, time: u64, values: &[i64]) {
        let distances = self.distances(values);
        if self.first.is_none() {
            for (part, distance) in self.parts.iter_mut().zip(&distances) {
                part.found = distance.unwrap_or(-TOP);
            }
        }
        let since = time - *self.first.get_or_insert(time);
        // What stands inside a temporal operator is read in this row alone.
        let now = self.joined(|k| distances[k].unwrap_or(0));
        for (node, part) in self.table.nodes.iter().zip(&mut self.parts) {
            let Some(sign) = sign(node) else { continue };
            let (left, right) = signed_operands(node, sign, &now);
            if in_window(node, since) {
                part.found = part.found.max(right.min(part.left));
            }
            part.left = part.left.min(left);
        }
    }

    pub fn margin(&self) -> i64 {
        let found = |k: usize| sign(&self.table.nodes[k]).unwrap_or(1) * self.parts[k].found;
        self.joined(found)[self.table.count() - 1]
    }

    /// Each predicate's distance in this row.
    fn distances(&self, values: &[i64]) -> Vec<Option<i64>> {
        let of = |node: &Node| {
            let predicate = self.predicates[node.left as usize];
            let channel = predicate.channel as usize;
            distance(predicate.range, self.scales[channel] as i64, values[channel])
        };
        let nodes = self.table.nodes.iter();
        nodes.map(|node| (node.kind == kind::PREDICATE).then(|| of(node))).collect()
    }

    /// All nodes, where predicates and temporal operators are given.
    fn joined(&self, given: impl Fn(usize) -> i64) -> Vec<i64> {
        let mut joined: Vec<i64> = Vec::new();
        for (k, node) in self.table.nodes.iter().enumerate() {
            let child = |place: u64| joined[place as usize];
            let own = match node.kind {
                kind::TRUE => TOP,
                kind::NOT => -child(node.left),
                kind::AND => child(node.left).min(child(node.right)),
                kind::OR => child(node.left).max(child(node.right)),
                _ => given(k),
            };
            joined.push(own);
        }
        joined
    }
}

/// Whether so many seconds lie in the node's window. An end that is excluded is no such count itself.
fn in_window(node: &Node, since: u64) -> bool {
    let late = node.lo < since || (node.lo == since && node.open_lo == 0);
    let early = since < node.hi || (node.hi == since && node.open_hi == 0);
    late && (early || node.hi == NO_END)
}

/// Of a temporal operator: 1 for until and eventually, −1 for release and always.
fn sign(node: &Node) -> Option<i64> {
    match node.kind {
        kind::UNTIL | kind::EVENTUALLY => Some(1),
        kind::RELEASE | kind::ALWAYS => Some(-1),
        _ => None,
    }
}

/// Left and right in a row; eventually's left is true, and so is always's once its sign is changed.
fn signed_operands(node: &Node, sign: i64, now: &[i64]) -> (i64, i64) {
    let (left, right) = (sign * now[node.left as usize], sign * now[node.right as usize]);
    match node.kind {
        kind::UNTIL | kind::RELEASE => (left, right),
        _ => (TOP, left),
    }
}
