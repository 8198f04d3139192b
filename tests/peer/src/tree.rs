//! Requirements as trees. Subtrees may be shared, as a table's nodes may be.

use crate::window::Window;
use std::rc::Rc;

pub type Shared = Rc<Tree>;

/// What is read off the recording alone.
#[derive(Clone, Copy, PartialEq, Eq, Debug)]
pub enum Atom {
    True,
    Predicate(usize),
}

#[derive(Clone, PartialEq, Eq, Debug)]
pub enum Tree {
    Atom(Atom),
    Not(Shared),
    And(Shared, Shared),
    Or(Shared, Shared),
    Until(Shared, Window, Shared),
    Release(Shared, Window, Shared),
    Eventually(Window, Shared),
    Always(Window, Shared),
}

pub fn atom(atom: Atom) -> Shared {
    Rc::new(Tree::Atom(atom))
}

pub fn predicate(number: usize) -> Shared {
    atom(Atom::Predicate(number))
}

impl Tree {
    /// The count of nodes, a shared one counted at each use.
    pub fn size(&self) -> usize {
        match self {
            Tree::Atom(_) => 1,
            Tree::Not(left) | Tree::Eventually(_, left) | Tree::Always(_, left) => 1 + left.size(),
            Tree::And(left, right)
            | Tree::Or(left, right)
            | Tree::Until(left, _, right)
            | Tree::Release(left, _, right) => 1 + left.size() + right.size(),
        }
    }

    /// What stands right inside: left, or left and right.
    pub fn operands(&self) -> Vec<&Shared> {
        match self {
            Tree::Atom(_) => Vec::new(),
            Tree::Not(left) | Tree::Eventually(_, left) | Tree::Always(_, left) => vec![left],
            Tree::And(left, right)
            | Tree::Or(left, right)
            | Tree::Until(left, _, right)
            | Tree::Release(left, _, right) => vec![left, right],
        }
    }

    /// Whether it is itself a temporal operator.
    pub fn is_temporal(&self) -> bool {
        match self {
            Tree::Atom(_) | Tree::Not(_) | Tree::And(..) | Tree::Or(..) => false,
            Tree::Until(..) | Tree::Release(..) | Tree::Eventually(..) | Tree::Always(..) => true,
        }
    }
}
