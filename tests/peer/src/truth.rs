//! Truth of a requirement at places that have times: the samples of a recording, or the seconds
//! of a history. "The table's readings with seconds for samples."
//!
//! Nothing is shared with the margins' reading, because the driver compares the two.

use crate::memo::Memo;
use crate::predicate::Predicates;
use crate::recording::Recording;
use crate::tree::{Atom, Shared, Tree};
use crate::window::Window;
use std::rc::Rc;

pub type Truths = Rc<Vec<bool>>;

/// What truth is taken over: places with times, and what the atoms say there.
pub trait Places {
    fn count(&self) -> usize;
    fn time(&self, place: usize) -> i64;
    /// Whether the atom, or its negation, is true at the place.
    fn atom(&self, atom: Atom, negated: bool, place: usize) -> bool;
}

pub struct Truth<'a, P: Places> {
    places: &'a P,
    known: Memo<Truths>,
}

impl<'a, P: Places> Truth<'a, P> {
    pub fn over(places: &'a P) -> Self {
        Truth { places, known: Memo::new() }
    }

    pub fn of(&mut self, tree: &Shared) -> Truths {
        if let Some(truths) = self.known.get(tree) {
            return truths;
        }
        let truths = match tree.as_ref() {
            Tree::Atom(atom) => self.at_each(|i| self.places.atom(*atom, false, i)),
            Tree::Not(left) => self.not(left),
            Tree::And(left, right) => {
                let (left, right) = (self.of(left), self.of(right));
                self.at_each(|i| left[i] && right[i])
            }
            Tree::Or(left, right) => {
                let (left, right) = (self.of(left), self.of(right));
                self.at_each(|i| left[i] || right[i])
            }
            Tree::Until(left, window, right) => {
                let (left, right) = (self.of(left), self.of(right));
                self.until(|k| left[k], *window, |j| right[j])
            }
            Tree::Release(left, window, right) => {
                let (left, right) = (self.of(left), self.of(right));
                self.release(|k| left[k], *window, |j| right[j])
            }
            Tree::Eventually(window, left) => {
                let left = self.of(left);
                self.until(|_| true, *window, |j| left[j])
            }
            Tree::Always(window, left) => {
                let left = self.of(left);
                self.release(|_| false, *window, |j| left[j])
            }
        };
        self.known.keep(tree, Rc::new(truths))
    }

    fn not(&mut self, left: &Shared) -> Vec<bool> {
        if let Tree::Atom(atom) = left.as_ref() {
            return self.at_each(|i| self.places.atom(*atom, true, i));
        }
        let left = self.of(left);
        self.at_each(|i| !left[i])
    }

    fn at_each(&self, truth: impl Fn(usize) -> bool) -> Vec<bool> {
        (0..self.places.count()).map(truth).collect()
    }

    fn in_window(&self, i: usize, window: Window) -> impl Iterator<Item = usize> + '_ {
        (0..self.places.count())
            .filter(move |&j| window.contains(self.places.time(j) - self.places.time(i)))
    }

    fn until(
        &self,
        left: impl Fn(usize) -> bool,
        window: Window,
        right: impl Fn(usize) -> bool,
    ) -> Vec<bool> {
        self.at_each(|i| self.in_window(i, window).any(|j| right(j) && (i..j).all(&left)))
    }

    fn release(
        &self,
        left: impl Fn(usize) -> bool,
        window: Window,
        right: impl Fn(usize) -> bool,
    ) -> Vec<bool> {
        self.at_each(|i| self.in_window(i, window).all(|j| right(j) || (i..j).any(&left)))
    }
}

/// "A predicate is true inside its range", or "where its channel's number then is inside".
pub fn atom_truth(atom: Atom, predicates: &Predicates, number: impl Fn(u64) -> i64) -> bool {
    match atom {
        Atom::True => true,
        Atom::Predicate(p) => predicates[p].range.contains(number(predicates[p].channel)),
    }
}

/// The samples of an accepted recording.
pub struct Samples<'a> {
    pub predicates: &'a Predicates,
    pub recording: &'a Recording,
}

impl Places for Samples<'_> {
    fn count(&self) -> usize {
        self.recording.rows()
    }

    fn time(&self, sample: usize) -> i64 {
        self.recording.time(sample)
    }

    fn atom(&self, atom: Atom, negated: bool, sample: usize) -> bool {
        let value = |channel| self.recording.value(sample, channel);
        atom_truth(atom, self.predicates, value) != negated
    }
}
