//! Requirement tables: nodes of seven numbers, children before parents, the root last.

use crate::limits::{LARGEST_END, MOST_NODES, NO_END, PREDICATES};
use crate::predicate::Predicates;
use crate::tree::{Atom, Shared, Tree};
use crate::window::Window;
use std::rc::Rc;

#[derive(Clone, Copy, PartialEq, Eq, Debug, Default)]
pub struct Node {
    pub kind: u64,
    pub left: u64,
    pub right: u64,
    pub lo: u64,
    pub hi: u64,
    /// "A node gains two marks, 0 or 1, low end excluded and high end excluded."
    pub open_lo: u64,
    pub open_hi: u64,
}

impl Node {
    /// Its window; only of numbers within their limits.
    pub fn window(&self) -> Window {
        Window {
            lo: self.lo as i64,
            hi: if self.hi == NO_END { None } else { Some(self.hi as i64) },
            open_lo: self.open_lo == 1,
            open_hi: self.open_hi == 1,
        }
    }

    /// The node with this window.
    pub fn with(self, window: Window) -> Node {
        Node {
            lo: window.lo as u64,
            hi: window.hi.map_or(NO_END, |hi| hi as u64),
            open_lo: u64::from(window.open_lo),
            open_hi: u64::from(window.open_hi),
            ..self
        }
    }
}

#[derive(Clone, PartialEq, Eq, Debug, Default)]
pub struct Table {
    pub nodes: Vec<Node>,
}

/// The kinds by their numbers.
pub mod kind {
    pub const TRUE: u64 = 0;
    pub const PREDICATE: u64 = 1;
    pub const NOT: u64 = 2;
    pub const AND: u64 = 3;
    pub const OR: u64 = 4;
    pub const UNTIL: u64 = 5;
    pub const RELEASE: u64 = 6;
    pub const EVENTUALLY: u64 = 7;
    pub const ALWAYS: u64 = 8;
}

/// Which of a node's numbers its kind uses; the others must be 0.
struct Uses {
    left_child: bool,
    right_child: bool,
    predicate: bool,
    window: bool,
}

fn uses(kind: u64) -> Option<Uses> {
    let row = |left_child, right_child, predicate, window| {
        Some(Uses { left_child, right_child, predicate, window })
    };
    match kind {
        kind::TRUE => row(false, false, false, false),
        kind::PREDICATE => row(false, false, true, false),
        kind::NOT => row(true, false, false, false),
        kind::AND | kind::OR => row(true, true, false, false),
        kind::UNTIL | kind::RELEASE => row(true, true, false, true),
        kind::EVENTUALLY | kind::ALWAYS => row(true, false, false, true),
        _ => None,
    }
}

impl Table {
    pub fn count(&self) -> usize {
        self.nodes.len()
    }

    /// Refusal 3 where predicates are passed: "a table rule above broken, or a node names a
    /// predicate that is unset or above 15".
    pub fn broken(&self, predicates: &Predicates) -> bool {
        self.broken_alone() || self.nodes.iter().any(|node| names_unset(node, predicates))
    }

    /// Refusal 3 of the table alone. All nodes are looked at, also those that the root doesn't
    /// reach.
    pub fn broken_alone(&self) -> bool {
        self.nodes.is_empty()
            || self.nodes.len() > MOST_NODES
            || self.nodes.iter().enumerate().any(|(k, node)| node_broken(k as u64, node))
    }

    /// The tree of each node, of a table that is not broken.
    pub fn trees(&self) -> Vec<Shared> {
        let mut trees: Vec<Shared> = Vec::new();
        for node in &self.nodes {
            let tree = node_tree(node, &trees);
            trees.push(Rc::new(tree));
        }
        trees
    }

    /// "Nodes stand left, right, parent, none shared."
    pub fn of_tree(tree: &Tree) -> Table {
        let mut table = Table::default();
        append(&mut table.nodes, tree);
        table
    }
}

/// Of a table that is not broken alone.
fn names_unset(node: &Node, predicates: &Predicates) -> bool {
    node.kind == kind::PREDICATE && !predicates[node.left as usize].is_set()
}

fn node_broken(k: u64, node: &Node) -> bool {
    let Some(uses) = uses(node.kind) else { return true };
    let left_fits = if uses.left_child {
        node.left < k
    } else if uses.predicate {
        node.left < PREDICATES as u64
    } else {
        node.left == 0
    };
    let right_fits = if uses.right_child { node.right < k } else { node.right == 0 };
    let window_fits = if uses.window {
        window_fits(node)
    } else {
        [node.lo, node.hi, node.open_lo, node.open_hi] == [0; 4]
    };
    !(left_fits && right_fits && window_fits)
}

/// "A window has lo and hi up to 1,000,000,000, lo ≤ hi, or hi 4,294,967,295 for no end"; its marks are
/// "0 or 1". The limits are those of the ends as they are written.
fn window_fits(node: &Node) -> bool {
    let ends_fit = node.lo <= LARGEST_END && (node.hi <= LARGEST_END || node.hi == NO_END);
    let marks_fit = node.open_lo <= 1 && node.open_hi <= 1;
    ends_fit && marks_fit && !node.window().is_refused()
}

fn node_tree(node: &Node, earlier: &[Shared]) -> Tree {
    let left = || earlier[node.left as usize].clone();
    let right = || earlier[node.right as usize].clone();
    let window = node.window();
    match node.kind {
        kind::TRUE => Tree::Atom(Atom::True),
        kind::PREDICATE => Tree::Atom(Atom::Predicate(node.left as usize)),
        kind::NOT => Tree::Not(left()),
        kind::AND => Tree::And(left(), right()),
        kind::OR => Tree::Or(left(), right()),
        kind::UNTIL => Tree::Until(left(), window, right()),
        kind::RELEASE => Tree::Release(left(), window, right()),
        kind::EVENTUALLY => Tree::Eventually(window, left()),
        kind::ALWAYS => Tree::Always(window, left()),
        _ => unreachable!("the table's rules allow no other kind"),
    }
}

/// Appends the tree's nodes and gives the place of its own.
fn append(nodes: &mut Vec<Node>, tree: &Tree) -> u64 {
    let none = Node::default();
    let node = match tree {
        Tree::Atom(Atom::True) => Node { kind: kind::TRUE, ..none },
        Tree::Atom(Atom::Predicate(number)) => {
            Node { kind: kind::PREDICATE, left: *number as u64, ..none }
        }
        Tree::Not(left) => Node { kind: kind::NOT, left: append(nodes, left), ..none },
        Tree::And(left, right) => both(nodes, kind::AND, left, right),
        Tree::Or(left, right) => both(nodes, kind::OR, left, right),
        Tree::Until(left, window, right) => both(nodes, kind::UNTIL, left, right).with(*window),
        Tree::Release(left, window, right) => both(nodes, kind::RELEASE, left, right).with(*window),
        Tree::Eventually(window, left) => {
            Node { kind: kind::EVENTUALLY, left: append(nodes, left), ..none }.with(*window)
        }
        Tree::Always(window, left) => {
            Node { kind: kind::ALWAYS, left: append(nodes, left), ..none }.with(*window)
        }
    };
    nodes.push(node);
    nodes.len() as u64 - 1
}

fn both(nodes: &mut Vec<Node>, kind: u64, left: &Tree, right: &Tree) -> Node {
    let left = append(nodes, left);
    let right = append(nodes, right);
    Node { kind, left, right, ..Node::default() }
}
