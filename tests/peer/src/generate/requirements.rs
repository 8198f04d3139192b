//! Random requirements as trees, and their text, with parentheses to spare or without.

use super::marks::{at_limits, marked};
use super::prng::Prng;
use crate::tree::{atom, predicate, Atom, Shared, Tree};
use crate::window::Window;
use std::rc::Rc;

/// What requirements are made of.
pub struct Taste {
    /// The predicates they name.
    pub predicates: Vec<usize>,
    /// Windows' ends are near multiples of this; the step, so that contraction is telling.
    pub unit: i64,
    /// Windows' ends are mostly not beyond this.
    pub reach: i64,
}

impl Taste {
    pub fn tree(&self, rng: &mut Prng, operators: usize) -> Shared {
        if operators == 0 {
            return self.leaf(rng);
        }
        let rest = operators - 1;
        let left_part = rng.below(rest + 1);
        let right_part = rest - left_part;
        let operator = rng.below(9);
        if (6..=8).contains(&operator) {
            let inner = self.tree(rng, rest);
            return Rc::new(match operator {
                6 => Tree::Not(inner),
                7 => Tree::Eventually(self.window(rng), inner),
                _ => Tree::Always(self.window(rng), inner),
            });
        }
        let (left, right) = (self.tree(rng, left_part), self.tree(rng, right_part));
        Rc::new(match operator {
            0 => Tree::And(left, right),
            1 => Tree::Or(left, right),
            2 | 3 => Tree::Until(left, self.window(rng), right),
            _ => Tree::Release(left, self.window(rng), right),
        })
    }

    fn leaf(&self, rng: &mut Prng) -> Shared {
        if self.predicates.is_empty() || rng.once_in(20) {
            atom(Atom::True)
        } else {
            predicate(rng.pick(&self.predicates))
        }
    }

    pub fn window(&self, rng: &mut Prng) -> Window {
        if rng.once_in(40) {
            return at_limits(rng);
        }
        // From now, from within a step, from anywhere: contraction treats them apart.
        let lo = match rng.below(4) {
            0 => 0,
            1 => rng.between(1, self.unit),
            _ => self.end(rng) / 2,
        };
        let hi = if rng.once_in(6) { None } else { Some((lo + self.end(rng)).min(1_000_000_000)) };
        marked(rng, Window::closed(lo, hi))
    }

    fn end(&self, rng: &mut Prng) -> i64 {
        let end = if rng.once_in(2) {
            rng.between(0, 6) * self.unit + rng.between(-1, 1)
        } else {
            rng.between(0, self.reach)
        };
        end.clamp(0, 1_000_000_000)
    }
}

/// The grammar's levels: what may stand without parentheses where.
#[derive(Clone, Copy, PartialEq, PartialOrd)]
enum Level {
    Alternative,
    Conjunction,
    Bind,
    Unary,
}

/// The tree's text. Once in `spare` places a pair of parentheses stands that isn't needed.
pub fn written(tree: &Tree, rng: &mut Prng, spare: usize) -> String {
    let mut text = String::new();
    write(&mut text, tree, Level::Alternative, &mut || rng.once_in(spare));
    text
}

/// The tree's text, in which every pair of parentheses is needed.
pub fn least(tree: &Tree) -> String {
    let mut text = String::new();
    write(&mut text, tree, Level::Alternative, &mut || false);
    text
}

/// How many of `!`, `G`, `F` and `(` enclose one another in that text, and how many of `!`, `G` and
/// `F` alone.
pub fn enclosings(tree: &Tree) -> (usize, usize) {
    (enclosings_at(tree, Level::Alternative, 1), enclosings_at(tree, Level::Alternative, 0))
}

/// The same where that level is due; a pair counts for so many.
fn enclosings_at(tree: &Tree, level: Level, pair: usize) -> usize {
    let below = |part: &Tree, level| enclosings_at(part, level, pair);
    let own = match tree {
        Tree::Atom(_) => 0,
        Tree::Not(left) | Tree::Eventually(_, left) | Tree::Always(_, left) => {
            1 + below(left, Level::Unary)
        }
        Tree::Or(left, right) => {
            below(left, Level::Alternative).max(below(right, Level::Conjunction))
        }
        Tree::And(left, right) => below(left, Level::Conjunction).max(below(right, Level::Bind)),
        Tree::Until(left, _, right) | Tree::Release(left, _, right) => {
            below(left, Level::Unary).max(below(right, Level::Unary))
        }
    };
    if level_of(tree) < level {
        own + pair
    } else {
        own
    }
}

fn level_of(tree: &Tree) -> Level {
    match tree {
        Tree::Or(..) => Level::Alternative,
        Tree::And(..) => Level::Conjunction,
        Tree::Until(..) | Tree::Release(..) => Level::Bind,
        _ => Level::Unary,
    }
}

fn write(text: &mut String, tree: &Tree, level: Level, spare: &mut dyn FnMut() -> bool) {
    if level_of(tree) < level || spare() {
        text.push('(');
        write_bare(text, tree, spare);
        text.push(')');
    } else {
        write_bare(text, tree, spare);
    }
}

fn write_bare(text: &mut String, tree: &Tree, spare: &mut dyn FnMut() -> bool) {
    let mut part = |text: &mut String, part: &Tree, level| write(text, part, level, spare);
    match tree {
        Tree::Atom(Atom::True) => text.push('T'),
        Tree::Atom(Atom::Predicate(number)) => text.push_str(&format!("p{number}")),
        Tree::Not(left) => {
            text.push('!');
            part(text, left, Level::Unary);
        }
        // Both group to the left.
        Tree::Or(left, right) => {
            part(text, left, Level::Alternative);
            text.push('|');
            part(text, right, Level::Conjunction);
        }
        Tree::And(left, right) => {
            part(text, left, Level::Conjunction);
            text.push('&');
            part(text, right, Level::Bind);
        }
        Tree::Until(left, window, right) | Tree::Release(left, window, right) => {
            part(text, left, Level::Unary);
            text.push(if matches!(tree, Tree::Until(..)) { 'U' } else { 'R' });
            text.push_str(&window_text(*window));
            part(text, right, Level::Unary);
        }
        Tree::Eventually(window, left) | Tree::Always(window, left) => {
            text.push(if matches!(tree, Tree::Eventually(..)) { 'F' } else { 'G' });
            text.push_str(&window_text(*window));
            part(text, left, Level::Unary);
        }
    }
}

pub fn window_text(window: Window) -> String {
    let text = match window.hi {
        Some(hi) => format!("[{},{hi}]", window.lo),
        None => format!("[{},*]", window.lo),
    };
    let opened = if window.open_lo { text.replace('[', "(") } else { text };
    if window.open_hi {
        opened.replace(']', ")")
    } else {
        opened
    }
}
