//! What was worked out for a subtree is kept, so that a shared subtree is worked out once: a
//! table of 64 nodes can stand for a tree of 2^63.

use crate::tree::{Shared, Tree};
use std::collections::HashMap;
use std::rc::Rc;

/// Keyed by identity. The subtree is kept beside its value, so that no other takes its address.
pub struct Memo<V> {
    known: HashMap<*const Tree, (Shared, V)>,
}

impl<V: Clone> Memo<V> {
    pub fn new() -> Self {
        Memo { known: HashMap::new() }
    }

    pub fn get(&self, tree: &Shared) -> Option<V> {
        self.known.get(&Rc::as_ptr(tree)).map(|(_, value)| value.clone())
    }

    pub fn keep(&mut self, tree: &Shared, value: V) -> V {
        self.known.insert(Rc::as_ptr(tree), (tree.clone(), value.clone()));
        value
    }
}

impl<V: Clone> Default for Memo<V> {
    fn default() -> Self {
        Self::new()
    }
}
