//! A table written as requirement text in plain Rust, by the algorithm of the proved library: what
//! its speed is compared with.

use crate::names::NODE_NUMBERS;
use crate::plain::{obeys, Node, NO_END};

const NODES: u64 = 64;
const ENCLOSINGS: u64 = 32;
/// No text within the limits is longer: 64 nodes of at most 26 bytes.
pub const LONGEST_TEXT: usize = 26 * NODES as usize;

/// The parts of the grammar. Where one is due, it and those behind it stand without parentheses.
#[derive(Clone, Copy, PartialEq, PartialOrd)]
enum Part {
    Alternative,
    Conjunction,
    Bind,
    Unary,
}

fn part_of(kind: u64) -> Part {
    match kind {
        3 => Part::Conjunction,
        4 => Part::Alternative,
        5 | 6 => Part::Bind,
        _ => Part::Unary,
    }
}

/// The parts that are due left and right of a part's operator.
fn beside(part: Part) -> (Part, Part) {
    match part {
        Part::Alternative => (Part::Alternative, Part::Conjunction),
        Part::Conjunction => (Part::Conjunction, Part::Bind),
        Part::Bind | Part::Unary => (Part::Unary, Part::Unary),
    }
}

/// A node of the flat numbers; a place that they do not have reads as 0.
fn node_at(numbers: &[u64], k: usize) -> Node {
    let number = |place: usize| numbers.get(NODE_NUMBERS * k + place).copied().unwrap_or(0);
    let [kind, left, right, lo, hi, open_lo, open_hi]: [u64; NODE_NUMBERS] =
        std::array::from_fn(number);
    Node { kind, left: left as usize, right: right as usize, lo, hi, open_lo, open_hi }
}

/// What a tree is, counted no further than one past the limits.
#[derive(Clone, Copy)]
struct Measure {
    nodes: u64,
    enclosings: u64,
    part: Part,
}

const LEAF: Measure = Measure { nodes: 1, enclosings: 0, part: Part::Unary };

impl Measure {
    /// The enclosings where a part is due.
    fn deep_as(self, due: Part) -> u64 {
        self.enclosings + u64::from(self.part < due)
    }

    /// Of a node over earlier ones.
    fn over(node: &Node, earlier: &[Measure]) -> Measure {
        let part = part_of(node.kind);
        let (nodes, enclosings) = match node.kind {
            0 | 1 => return LEAF,
            3..=6 => {
                let (left, right) = (earlier[node.left], earlier[node.right]);
                let due = beside(part);
                (left.nodes + right.nodes + 1, left.deep_as(due.0).max(right.deep_as(due.1)))
            }
            _ => {
                let child = earlier[node.left];
                (child.nodes + 1, child.deep_as(Part::Unary) + 1)
            }
        };
        Measure { nodes: nodes.min(NODES + 1), enclosings: enclosings.min(ENCLOSINGS + 1), part }
    }
}

/// The measure of the last node. Each node is measured once, after its children.
fn last_measure(nodes: &[Node]) -> Measure {
    let mut measures = [LEAF; NODES as usize];
    for (k, node) in nodes.iter().enumerate() {
        measures[k] = Measure::over(node, &measures);
    }
    measures[nodes.len() - 1]
}

/// A text while it is written.
struct Line {
    bytes: [u8; LONGEST_TEXT],
    length: usize,
}

impl Line {
    fn byte(&mut self, byte: u8) {
        self.bytes[self.length] = byte;
        self.length += 1;
    }

    fn number(&mut self, mut number: u64) {
        let digits = number.checked_ilog10().unwrap_or(0) as usize + 1;
        for digit in self.bytes[self.length..self.length + digits].iter_mut().rev() {
            *digit = b'0' + (number % 10) as u8;
            number /= 10;
        }
        self.length += digits;
    }

    /// An operator's letter, and its window where it has one.
    fn sign(&mut self, node: &Node) {
        self.byte(b"Tp!&|URFG"[node.kind as usize]);
        if node.kind < 5 {
            return;
        }
        self.byte(b"[("[node.open_lo as usize]);
        self.number(node.lo);
        self.byte(b',');
        if node.hi == NO_END {
            self.byte(b'*');
        } else {
            self.number(node.hi);
        }
        self.byte(b"])"[node.open_hi as usize]);
    }

    /// The text of node k where a part is due.
    fn node(&mut self, nodes: &[Node], k: usize, due: Part) {
        let node = &nodes[k];
        match node.kind {
            0 => self.sign(node),
            1 => {
                self.sign(node);
                self.number(node.left as u64);
            }
            3..=6 => self.two(nodes, node, due),
            _ => {
                self.sign(node);
                self.node(nodes, node.left, Part::Unary);
            }
        }
    }

    /// That of a node with two children, in parentheses where it needs them.
    fn two(&mut self, nodes: &[Node], node: &Node, due: Part) {
        let own = part_of(node.kind);
        let (left, right) = beside(own);
        if own < due {
            self.byte(b'(');
        }
        self.node(nodes, node.left, left);
        self.sign(node);
        self.node(nodes, node.right, right);
        if own < due {
            self.byte(b')');
        }
    }
}

/// The length of a table's text, which is written into the front of the slice, or the number of
/// what refuses it; then the slice keeps what it holds.
pub fn write(numbers: &[u64], count: u64, text: &mut [u8]) -> Result<usize, u64> {
    if !(1..=NODES).contains(&count) {
        return Err(3);
    }
    let nodes: Vec<Node> = (0..count as usize).map(|k| node_at(numbers, k)).collect();
    if !nodes.iter().enumerate().all(|(k, node)| obeys(node, k)) {
        return Err(3);
    }
    let measure = last_measure(&nodes);
    if measure.nodes > NODES || measure.enclosings > ENCLOSINGS {
        return Err(14);
    }
    let mut line = Line { bytes: [0; LONGEST_TEXT], length: 0 };
    line.node(&nodes, nodes.len() - 1, Part::Alternative);
    let place = text.get_mut(..line.length).ok_or(15u64)?;
    place.copy_from_slice(&line.bytes[..line.length]);
    Ok(line.length)
}
