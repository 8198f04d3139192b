//! Requirement tables.

use crate::names;
use crate::refusal::Refusal;

/// The end of a window that has none: [`Node::hi`].
pub const NO_END: u64 = 4_294_967_295;
/// No text that [`Table::write`] gives is longer, in bytes.
pub const MOST_REQUIREMENT_BYTES: usize = names::REQUIREMENT_BYTES;

/// The kinds of nodes: [`Node::kind`].
pub mod kind {
    pub const TRUE: u64 = 0;
    pub const PREDICATE: u64 = 1;
    pub const NOT: u64 = 2;
    pub const AND: u64 = 3;
    pub const OR: u64 = 4;
    pub const UNTIL: u64 = 5;
    pub const RELEASE: u64 = 6;
    pub const EVENTUALLY: u64 = 7;
    pub const ALWAYS: u64 = 8;
}

/// Seven numbers; those that a kind does not use are 0. [`kind`] has names for the kinds.
///
/// | Kind | Meaning |
/// |---|---|
/// | 0 | true |
/// | 1 | the predicate of number `left` |
/// | 2 | not `left` |
/// | 3, 4 | `left` and `right`, `left` or `right` |
/// | 5, 6 | `left` until `right`, `left` release `right`, in the window `lo` to `hi` |
/// | 7, 8 | eventually `left`, always `left`, in the window `lo` to `hi` |
///
/// A window has `lo` and `hi` up to 1,000,000,000 seconds, or `hi` [`NO_END`]. Both ends are counted,
/// unless they are excluded: `open_lo` 1 reads as from `lo` + 1 on, `open_hi` 1 as up to `hi` − 1; in
/// text `(` and `)` stand for `[` and `]` then, as in `F[0,3600)p0`, before the hour is over. A window
/// that is left empty, or `open_hi` 1 without an end, is refused by 3, and by 2 in text.
#[derive(Clone, Copy, PartialEq, Eq, Hash, Debug, Default)]
pub struct Node {
    pub kind: u64,
    pub left: u64,
    pub right: u64,
    pub lo: u64,
    pub hi: u64,
    /// 1 where the low end is excluded, else 0.
    pub open_lo: u64,
    /// 1 where the high end is excluded, else 0.
    pub open_hi: u64,
}

/// A requirement: 1 to 64 nodes, each behind its children, the root last. Several nodes may use the
/// same one.
#[derive(Clone, PartialEq, Eq, Hash, Debug, Default)]
pub struct Table {
    pub nodes: Vec<Node>,
}

impl Table {
    /// The table as requirement text, such as `F[0,7200]G[0,*]p0`. Refusals 3 and 14.
    ///
    /// Parentheses stand only where the grammar would otherwise read another requirement or none. A
    /// node that several nodes use is written once for each use, and one that the root does not
    /// reach is judged by 3 and not written. So [`read_requirement`] gives back the table where that
    /// is one that a text can give, and otherwise the root's tree as a text gives it: nodes stand
    /// left, right, parent, none shared.
    ///
    /// 3 judges the table alone: which predicates are set is not asked. 14: the tree has more than 64
    /// nodes once each use has its own, or more than 32 of `!`, `G`, `F` and `(` would enclose one
    /// another in the text.
    pub fn write(&self) -> Result<String, Refusal> {
        let mut text = [0; names::REQUIREMENT_BYTES];
        let length = self.write_into(&mut text)?;
        Ok(String::from_utf8_lossy(&text[..length]).into_owned())
    }

    /// The same into lent bytes: the length of the text, which stands in front; the bytes behind it
    /// keep their contents. Refusals 3, 14 and 15 (the text is longer than what is lent), under which
    /// all do. [`MOST_REQUIREMENT_BYTES`] are enough for every text.
    pub fn write_into(&self, text: &mut [u8]) -> Result<usize, Refusal> {
        let written = names::write(&to_flat(self), self.nodes.len() as u64, text);
        Refusal::check(written.number)?;
        Ok(written.length)
    }
}

pub(crate) type Flat = [u64; names::NODES];

/// A node's numbers in their order.
type Numbers = [u64; names::NODE_NUMBERS];

fn numbers(node: &Node) -> Numbers {
    let &Node { kind, left, right, lo, hi, open_lo, open_hi } = node;
    [kind, left, right, lo, hi, open_lo, open_hi]
}

fn node([kind, left, right, lo, hi, open_lo, open_hi]: Numbers) -> Node {
    Node { kind, left, right, lo, hi, open_lo, open_hi }
}

/// The nodes' numbers one behind the other. A node beyond the 64th has no place; the count alone
/// refuses such a table.
pub(crate) fn to_flat(table: &Table) -> Flat {
    let mut flat = [0; names::NODES];
    for (place, node) in flat.as_chunks_mut().0.iter_mut().zip(&table.nodes) {
        *place = numbers(node);
    }
    flat
}

fn of_flat(flat: &Flat, count: u64) -> Table {
    let own = flat.as_chunks().0.iter().take(count as usize);
    Table { nodes: own.copied().map(node).collect() }
}

/// Reads requirement text, such as `F[0,7200]G[0,*]p0`. Refusal 2.
pub fn read_requirement(text: &[u8]) -> Result<Table, Refusal> {
    let (mut flat, mut count) = ([0; names::NODES], [0]);
    Refusal::check(names::requirement(text, &mut flat, &mut count))?;
    Ok(of_flat(&flat, count[0]))
}
