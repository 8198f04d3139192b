//! Tables for the writer: trees of every shape, laid out in every way that the rules allow, broken
//! tables, and tables whose text would be too large.

use super::calls::{any_table, broken_node, over};
use super::prng::Prng;
use super::requirements::{enclosings, least, Taste};
use crate::limits::{MOST_ENCLOSINGS, MOST_NODES};
use crate::table::{kind, Node, Table};
use crate::tree::{Shared, Tree};
use std::rc::Rc;

/// What the writer is given, and what it must make of it.
pub struct Writing {
    pub table: Table,
    /// What refuses it however long the slice is: 3, 14, or 0 for nothing.
    pub number: u64,
    /// The text, where nothing does.
    pub text: String,
    /// Whether the reader gives this very table for some text.
    pub as_read: bool,
}

pub fn writing(rng: &mut Prng) -> Writing {
    let taste = Taste { predicates: named(rng), unit: rng.between(1, 900), reach: 90_000 };
    let (mut table, as_read) = if rng.once_in(10) {
        (any_table(rng, &taste), false)
    } else {
        let tree = if rng.once_in(3) { deep(rng, &taste) } else { sized(rng, &taste) };
        laid_out(rng, &taste, &tree)
    };
    if rng.once_in(6) {
        break_table(rng, &taste, &mut table);
        return Writing { table, number: 3, text: String::new(), as_read: false };
    }
    foretold(table, as_read)
}

/// A table that breaks no rule but perhaps that of 64 nodes.
fn foretold(table: Table, as_read: bool) -> Writing {
    let refused = |table, number| Writing { table, number, text: String::new(), as_read: false };
    if table.count() > MOST_NODES {
        return refused(table, 3);
    }
    if unshared(&table) > MOST_NODES as u64 {
        return refused(table, 14);
    }
    let tree = table.trees().remove(table.count() - 1);
    if enclosings(&tree).0 > MOST_ENCLOSINGS {
        return refused(table, 14);
    }
    Writing { table, number: 0, text: least(&tree), as_read }
}

/// A few predicates, so that many leaves are equal, or all.
fn named(rng: &mut Prng) -> Vec<usize> {
    if rng.once_in(3) {
        (0..16).collect()
    } else {
        (0..1 + rng.below(3)).map(|_| rng.below(16)).collect()
    }
}

/// How often each node is used by the root's tree, counted from the root down; numbers that name no
/// earlier node count for nothing.
pub fn uses(table: &Table) -> Vec<u64> {
    let mut uses = vec![0u64; table.count()];
    if let Some(root) = uses.last_mut() {
        *root = 1;
    }
    for k in (0..table.count()).rev() {
        for child in children(&table.nodes[k]) {
            if child < k as u64 {
                uses[child as usize] = uses[child as usize].saturating_add(uses[k]);
            }
        }
    }
    uses
}

/// The count of nodes of the root's tree.
pub fn unshared(table: &Table) -> u64 {
    uses(table).into_iter().fold(0, u64::saturating_add)
}

/// The nodes that it names.
pub fn children(node: &Node) -> Vec<u64> {
    match node.kind {
        kind::NOT | kind::EVENTUALLY | kind::ALWAYS => vec![node.left],
        kind::AND | kind::OR | kind::UNTIL | kind::RELEASE => vec![node.left, node.right],
        _ => Vec::new(),
    }
}

const ANY: &[u64] = &[
    kind::NOT,
    kind::AND,
    kind::OR,
    kind::UNTIL,
    kind::RELEASE,
    kind::EVENTUALLY,
    kind::ALWAYS,
    kind::AND,
    kind::OR,
];
/// What a tree is made of.
const KINDS: [&[u64]; 8] = [
    ANY,
    ANY,
    ANY,
    &[kind::AND],
    &[kind::OR],
    &[kind::AND, kind::OR],
    &[kind::AND, kind::OR, kind::UNTIL, kind::RELEASE],
    &[kind::NOT, kind::UNTIL, kind::ALWAYS, kind::RELEASE, kind::EVENTUALLY],
];

/// Where the larger operand stands.
#[derive(Clone, Copy)]
enum Lean {
    Left,
    Right,
    Any,
}

/// A tree of one node to a few more than a text may have.
fn sized(rng: &mut Prng, taste: &Taste) -> Shared {
    let nodes = match rng.below(8) {
        0 => rng.pick(&[63, 64, 64, 65, 66]),
        1 => 1 + rng.below(70),
        _ => 1 + rng.below(16),
    };
    let kinds = rng.pick(&KINDS);
    let lean = rng.pick(&[Lean::Left, Lean::Right, Lean::Any, Lean::Any]);
    leaning(rng, taste, kinds, lean, nodes)
}

fn leaning(rng: &mut Prng, taste: &Taste, kinds: &[u64], lean: Lean, nodes: usize) -> Shared {
    if nodes == 1 {
        return taste.tree(rng, 0);
    }
    let kind = rng.pick(kinds);
    let rest = nodes - 1;
    if rest == 1 || is_unary(kind) {
        let inner = leaning(rng, taste, kinds, lean, rest);
        let unary = if is_unary(kind) { kind } else { kind::NOT };
        return under(rng, taste, unary, inner);
    }
    let left = match lean {
        Lean::Left => rest - 1,
        Lean::Right => 1,
        Lean::Any => 1 + rng.below(rest - 1),
    };
    let one = leaning(rng, taste, kinds, lean, left);
    let other = leaning(rng, taste, kinds, lean, rest - left);
    joined(rng, taste, kind, one, other)
}

/// A tree whose text has about as many enclosings as it may have: operators are put round a leaf,
/// on either side, until it has. Those of two operands cost two nodes, so where nodes run short the
/// others are taken.
fn deep(rng: &mut Prng, taste: &Taste) -> Shared {
    let wanted = rng.pick(&[31, 32, 32, 32, 32, 33, 33, 34]);
    let kinds = rng.pick(&KINDS);
    let most = rng.pick(&[MOST_NODES, MOST_NODES, MOST_NODES + 2]);
    let mut tree = taste.tree(rng, 0);
    loop {
        let (depth, size) = (enclosings(&tree).0, tree.size());
        if depth >= wanted || size >= most {
            return tree;
        }
        let tight = size + 2 * (wanted - depth) > most;
        let kind = match rng.below(3) {
            _ if tight => rng.pick(&[kind::NOT, kind::EVENTUALLY, kind::ALWAYS]),
            0 => rng.pick(ANY),
            _ => rng.pick(kinds),
        };
        tree = if is_unary(kind) {
            under(rng, taste, kind, tree)
        } else {
            let leaf = taste.tree(rng, 0);
            let (left, right) = if rng.once_in(2) { (tree, leaf) } else { (leaf, tree) };
            joined(rng, taste, kind, left, right)
        };
    }
}

fn is_unary(kind: u64) -> bool {
    matches!(kind, kind::NOT | kind::EVENTUALLY | kind::ALWAYS)
}

fn under(rng: &mut Prng, taste: &Taste, kind: u64, inner: Shared) -> Shared {
    Rc::new(match kind {
        kind::NOT => Tree::Not(inner),
        kind::EVENTUALLY => Tree::Eventually(taste.window(rng), inner),
        _ => Tree::Always(taste.window(rng), inner),
    })
}

fn joined(rng: &mut Prng, taste: &Taste, kind: u64, left: Shared, right: Shared) -> Shared {
    Rc::new(match kind {
        kind::AND => Tree::And(left, right),
        kind::OR => Tree::Or(left, right),
        kind::UNTIL => Tree::Until(left, taste.window(rng), right),
        _ => Tree::Release(left, taste.window(rng), right),
    })
}

/// The tree as the reader lays it out, or in another order, or with equal parts shared, or with
/// nodes that the root doesn't reach; and whether it is as the reader lays it out.
fn laid_out(rng: &mut Prng, taste: &Taste, tree: &Tree) -> (Table, bool) {
    let as_read = Table::of_tree(tree);
    let too_many = as_read.count() > MOST_NODES;
    if !too_many && rng.once_in(3) {
        return (as_read, true);
    }
    let mut table = as_read.clone();
    // A tree that is too large has room in a table only where parts of it are shared.
    if too_many || rng.once_in(2) {
        let every = if too_many { 1 } else { 1 + rng.below(2) };
        table = with_shared(rng, &table, every);
    }
    if rng.once_in(2) {
        table = reordered(rng, &table);
    }
    if rng.once_in(3) {
        table = with_unreached(rng, taste, table);
    }
    let same = table == as_read;
    (table, same)
}

/// The node with its children at other places.
fn moved(node: &Node, place: impl Fn(u64) -> u64) -> Node {
    let mut moved = *node;
    match children(node).len() {
        0 => {}
        1 => moved.left = place(node.left),
        _ => (moved.left, moved.right) = (place(node.left), place(node.right)),
    }
    moved
}

/// Of equal parts one stands for the others, once in so many times.
fn with_shared(rng: &mut Prng, table: &Table, every: usize) -> Table {
    let mut nodes: Vec<Node> = Vec::new();
    let mut places: Vec<u64> = Vec::new();
    for node in &table.nodes {
        let node = moved(node, |child| places[child as usize]);
        let equal = nodes.iter().position(|other| *other == node).filter(|_| rng.once_in(every));
        places.push(equal.unwrap_or(nodes.len()) as u64);
        if equal.is_none() {
            nodes.push(node);
        }
    }
    Table { nodes }
}

/// Any order in which children stand before parents, and the root last.
fn reordered(rng: &mut Prng, table: &Table) -> Table {
    let root = table.count() - 1;
    let mut places: Vec<Option<u64>> = vec![None; table.count()];
    let mut nodes = Vec::new();
    while nodes.len() < root {
        let ready = |k: &usize| {
            let placed = |child: &u64| places[*child as usize].is_some();
            places[*k].is_none() && children(&table.nodes[*k]).iter().all(placed)
        };
        let ready: Vec<usize> = (0..root).filter(ready).collect();
        let next = rng.pick(&ready);
        places[next] = Some(nodes.len() as u64);
        nodes.push(moved(&table.nodes[next], |child| places[child as usize].unwrap_or(0)));
    }
    nodes.push(moved(&table.nodes[root], |child| places[child as usize].unwrap_or(0)));
    Table { nodes }
}

/// Some nodes more, before the root, which no node that was there before uses.
fn with_unreached(rng: &mut Prng, taste: &Taste, mut table: Table) -> Table {
    for _ in 0..1 + rng.below(4) {
        if table.count() >= MOST_NODES {
            break;
        }
        let place = rng.below(table.count());
        let leaf = taste.tree(rng, 0);
        let mut node = Table::of_tree(&leaf).nodes[0];
        if place > 0 && rng.once_in(2) {
            let (left, right) = (rng.below(place) as u64, rng.below(place) as u64);
            node = over(rng, taste, kind::UNTIL, left, right);
        }
        let behind = |child: u64| child + u64::from(child >= place as u64);
        table.nodes.iter_mut().for_each(|node| *node = moved(node, behind));
        table.nodes.insert(place, node);
    }
    table
}

/// A rule broken: in a node that the root reaches or in another one, or by the count.
fn break_table(rng: &mut Prng, taste: &Taste, table: &mut Table) {
    match rng.below(12) {
        0 => table.nodes.clear(),
        1 => table.nodes.resize(MOST_NODES + 1 + rng.below(2), Node::default()),
        2..=6 => {
            // Room for one node more at least.
            table.nodes.truncate(MOST_NODES - 1);
            *table = with_unreached(rng, taste, table.clone());
            let unreached: Vec<usize> =
                (0..table.count()).filter(|&k| uses(table)[k] == 0).collect();
            let place = rng.pick(&unreached);
            table.nodes[place] = broken_node(rng, place as u64);
        }
        _ => {
            let place = rng.below(table.count());
            table.nodes[place] = broken_node(rng, place as u64);
        }
    }
}
