//! Strengthening, in document 01's two stages: "not" is pushed down, then windows change.

use crate::tree::{Shared, Tree};
use std::collections::HashMap;
use std::rc::Rc;

/// The stages by one step, with what was worked out for a subtree kept, since subtrees may be
/// shared.
pub struct Strengthening {
    step: i64,
    pushed: HashMap<(*const Tree, bool), (Shared, Shared)>,
    widened: HashMap<*const Tree, (Shared, Shared)>,
}

impl Strengthening {
    pub fn by(step: u64) -> Self {
        Strengthening { step: step as i64, pushed: HashMap::new(), widened: HashMap::new() }
    }

    /// The requirement, or its negation, with "not" on predicates and true alone.
    pub fn push(&mut self, tree: &Shared, negated: bool) -> Shared {
        let key = (Rc::as_ptr(tree), negated);
        if let Some((_, pushed)) = self.pushed.get(&key) {
            return pushed.clone();
        }
        let pushed = match (tree.as_ref(), negated) {
            (Tree::Atom(_), false) => tree.clone(),
            (Tree::Atom(_), true) => Rc::new(Tree::Not(tree.clone())),
            (Tree::Not(left), _) => self.push(left, !negated),
            _ => Rc::new(self.push_operator(tree, negated)),
        };
        self.pushed.insert(key, (tree.clone(), pushed.clone()));
        pushed
    }

    /// "And with or, until with release, eventually with always change places, windows kept."
    fn push_operator(&mut self, tree: &Tree, negated: bool) -> Tree {
        let mut push = |child: &Shared| self.push(child, negated);
        match (tree, negated) {
            (Tree::And(left, right), false) | (Tree::Or(left, right), true) => {
                Tree::And(push(left), push(right))
            }
            (Tree::Or(left, right), false) | (Tree::And(left, right), true) => {
                Tree::Or(push(left), push(right))
            }
            (Tree::Until(left, window, right), false)
            | (Tree::Release(left, window, right), true) => {
                Tree::Until(push(left), *window, push(right))
            }
            (Tree::Release(left, window, right), false)
            | (Tree::Until(left, window, right), true) => {
                Tree::Release(push(left), *window, push(right))
            }
            (Tree::Eventually(window, left), false) | (Tree::Always(window, left), true) => {
                Tree::Eventually(*window, push(left))
            }
            (Tree::Always(window, left), false) | (Tree::Eventually(window, left), true) => {
                Tree::Always(*window, push(left))
            }
            (Tree::Atom(_) | Tree::Not(_), _) => {
                unreachable!("atoms and not are no operators here")
            }
        }
    }

    /// Until and eventually windows contracted, release and always windows expanded.
    pub fn windows(&mut self, tree: &Shared) -> Shared {
        if let Some((_, changed)) = self.widened.get(&Rc::as_ptr(tree)) {
            return changed.clone();
        }
        let step = self.step;
        let mut inner = |child: &Shared| self.windows(child);
        let changed = Rc::new(match tree.as_ref() {
            Tree::Atom(atom) => Tree::Atom(*atom),
            Tree::Not(left) => Tree::Not(inner(left)),
            Tree::And(left, right) => Tree::And(inner(left), inner(right)),
            Tree::Or(left, right) => Tree::Or(inner(left), inner(right)),
            Tree::Until(left, window, right) => {
                Tree::Until(inner(left), window.contracted(step), inner(right))
            }
            Tree::Release(left, window, right) => {
                Tree::Release(inner(left), window.expanded(step), inner(right))
            }
            Tree::Eventually(window, left) => {
                Tree::Eventually(window.contracted(step), inner(left))
            }
            Tree::Always(window, left) => Tree::Always(window.expanded(step), inner(left)),
        });
        self.widened.insert(Rc::as_ptr(tree), (tree.clone(), changed.clone()));
        changed
    }

    /// The strengthened requirement, or its strengthened negation.
    pub fn strengthened(&mut self, tree: &Shared, negated: bool) -> Shared {
        let pushed = self.push(tree, negated);
        self.windows(&pushed)
    }
}
