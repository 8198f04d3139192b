//! Requirements written out: the grammar itself is asked where parentheses are needed.

use crate::grammar::read_tree;
use crate::limits::{MOST_ENCLOSINGS, MOST_NODES};
use crate::refusal::{when, Refusal};
use crate::table::{kind, Table};
use crate::tree::{atom, Atom, Shared, Tree};
use crate::window::Window;

/// "The length is returned, 0 under a refusal."
#[derive(Clone, Copy, PartialEq, Eq, Debug)]
pub struct Written {
    pub refusal: Option<Refusal>,
    pub length: usize,
}

/// Entry point: refusals 3, 14 and 15. "A lent text slice receives the bytes and keeps its
/// remainder."
pub fn write_requirement(table: &Table, slice: &mut [u8]) -> Written {
    match judged_text(table, slice.len()) {
        Ok(text) => {
            slice[..text.len()].copy_from_slice(text.as_bytes());
            Written { refusal: None, length: text.len() }
        }
        Err(refusal) => Written { refusal: Some(refusal), length: 0 },
    }
}

/// The text of the root's tree, for a slice of so many bytes. Nothing is unfolded before the count
/// of its nodes is known.
fn judged_text(table: &Table, room: usize) -> Result<String, Refusal> {
    when(table.broken_alone(), Refusal::Table)?;
    when(unshared_count(table) > MOST_NODES as u64, Refusal::TooLarge)?;
    let text = text_of(&table.trees()[table.count() - 1]);
    when(enclosings(&text) > MOST_ENCLOSINGS, Refusal::TooLarge)?;
    when(room < text.len(), Refusal::Room)?;
    Ok(text)
}

/// How many nodes the root's tree has, a shared one counted at each use. The count may double from
/// node to node and be one more: 64 nodes come to 2^64 − 1 at most, which still has room here.
fn unshared_count(table: &Table) -> u64 {
    let mut counts: Vec<u64> = Vec::new();
    for node in &table.nodes {
        let child = |place: u64| counts[place as usize];
        let below = match node.kind {
            kind::TRUE | kind::PREDICATE => 0,
            kind::NOT | kind::EVENTUALLY | kind::ALWAYS => child(node.left),
            _ => child(node.left) + child(node.right),
        };
        counts.push(below + 1);
    }
    counts[table.count() - 1]
}

/// The tree's text, "putting parentheses only where the grammar would otherwise read another tree
/// or none": of two operands each is asked about while `T`, a unary of one letter, stands for the
/// other.
///
/// The reader has limits of its own. It reads none for its 32 enclosings only where this text has
/// more, with that pair or without, and is refused by 14 either way.
pub fn text_of(tree: &Tree) -> String {
    let sign = sign(tree);
    match tree {
        Tree::Atom(_) => sign,
        Tree::Not(left) | Tree::Eventually(_, left) | Tree::Always(_, left) => {
            let text = text_of(left);
            let bare = reads_as(&format!("{sign}{text}"), tree);
            format!("{sign}{}", operand(text, bare))
        }
        Tree::And(left, right)
        | Tree::Or(left, right)
        | Tree::Until(left, _, right)
        | Tree::Release(left, _, right) => {
            let (one, other) = (text_of(left), text_of(right));
            let truth = atom(Atom::True);
            let left_bare = reads_as(&format!("{one}{sign}T"), &over(tree, left, &truth));
            let right_bare = reads_as(&format!("T{sign}{other}"), &over(tree, &truth, right));
            format!("{}{sign}{}", operand(one, left_bare), operand(other, right_bare))
        }
    }
}

/// What stands for the node itself: before its one operand, or between its two.
fn sign(tree: &Tree) -> String {
    match tree {
        Tree::Atom(Atom::True) => "T".to_string(),
        Tree::Atom(Atom::Predicate(number)) => format!("p{number}"),
        Tree::Not(_) => "!".to_string(),
        Tree::And(..) => "&".to_string(),
        Tree::Or(..) => "|".to_string(),
        Tree::Until(_, window, _) => format!("U{}", window_text(*window)),
        Tree::Release(_, window, _) => format!("R{}", window_text(*window)),
        Tree::Eventually(window, _) => format!("F{}", window_text(*window)),
        Tree::Always(window, _) => format!("G{}", window_text(*window)),
    }
}

/// "A window is `[lo,hi]`, hi perhaps `*`"; its marks are "written `(` and `)`".
fn window_text(window: Window) -> String {
    let opening = if window.open_lo { '(' } else { '[' };
    let closing = if window.open_hi { ')' } else { ']' };
    match window.hi {
        Some(hi) => format!("{opening}{},{hi}{closing}", window.lo),
        None => format!("{opening}{},*{closing}", window.lo),
    }
}

/// The same operator of two operands with these.
fn over(tree: &Tree, left: &Shared, right: &Shared) -> Tree {
    let (left, right) = (left.clone(), right.clone());
    match tree {
        Tree::And(..) => Tree::And(left, right),
        Tree::Or(..) => Tree::Or(left, right),
        Tree::Until(_, window, _) => Tree::Until(left, *window, right),
        Tree::Release(_, window, _) => Tree::Release(left, *window, right),
        _ => unreachable!("it has two operands"),
    }
}

fn reads_as(text: &str, tree: &Tree) -> bool {
    read_tree(text.as_bytes()).is_ok_and(|read| read.as_ref() == tree)
}

fn operand(text: String, bare: bool) -> String {
    if bare {
        text
    } else {
        format!("({text})")
    }
}

/// How many of `!`, `G`, `F` and `(` enclose one another, by the text's own letters: as many as are
/// open at once. A window's "`(` is no enclosing".
fn enclosings(text: &str) -> usize {
    let mut open: Vec<char> = Vec::new();
    let mut most = 0;
    for letter in without_windows(text).chars() {
        match letter {
            '!' | 'G' | 'F' | '(' => open.push(letter),
            'T' | 'p' => end_unary(&mut open),
            ')' => {
                open.pop();
                end_unary(&mut open);
            }
            // Numbers, `U`, `R`, `&` and `|` open nothing.
            _ => {}
        }
        most = most.max(open.len());
    }
    most
}

/// The text without its windows: behind each of their letters, all up to the next bracket that closes.
fn without_windows(text: &str) -> String {
    let mut letters = text.chars();
    let mut outside = String::new();
    while let Some(letter) = letters.next() {
        outside.push(letter);
        if matches!(letter, 'U' | 'R' | 'G' | 'F') {
            letters.find(|letter| matches!(letter, ']' | ')'));
        }
    }
    outside
}

/// A unary has ended; so have the `!`, `G` and `F` that stand before it, up to the next `(`.
fn end_unary(open: &mut Vec<char>) {
    while open.last().is_some_and(|letter| *letter != '(') {
        open.pop();
    }
}
