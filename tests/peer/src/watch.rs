//! A margin while the card runs: every row that is accepted is kept, and the definition is taken of
//! them all whenever the margin is asked for.

use crate::limits::{LARGEST_VALUE, LAST_TIME, TOP};
use crate::margin::{atom_margin, largest, smallest, Margins};
use crate::memo::Memo;
use crate::predicate::Predicates;
use crate::recording::{channels_broken, scale_broken, Recording};
use crate::refusal::{when, Refusal};
use crate::table::Table;
use crate::tree::{Shared, Tree};
use crate::window::Window;

/// "A watch is a state for one table, its predicates and scales, and takes one row at a time."
#[derive(Clone, PartialEq, Eq, Debug)]
pub struct Watch {
    /// The root's tree, or what refused the making.
    root: Result<Shared, Refusal>,
    predicates: Predicates,
    /// "The recording made of the rows accepted so far", over 4,096 of them or not.
    accepted: Recording,
}

impl Watch {
    /// "A fresh watch has seen no row." Refusals 3, 4, 13 and 16: "a refused making hands back a watch
    /// that gives the same number to every later call".
    pub fn fresh(table: &Table, predicates: &Predicates, scales: &[u64]) -> Watch {
        // "The count of scales is its channel count."
        let channels = scales.len() as u64;
        let (times, values) = (Vec::new(), Vec::new());
        Watch {
            root: judge(table, predicates, scales),
            predicates: *predicates,
            accepted: Recording { channels, scales: scales.to_vec(), times, values },
        }
    }

    /// What refused the making.
    pub fn refusal(&self) -> Option<Refusal> {
        self.root.as_ref().err().copied()
    }

    /// "A row refused by 5 (unfitting length), 6 or 7 leaves the watch unchanged."
    pub fn row(&mut self, time: u64, values: &[i64]) -> Result<(), Refusal> {
        self.root.as_ref().map_err(|refusal| *refusal)?;
        let last = self.accepted.times.last().copied();
        when(values.len() as u64 != self.accepted.channels, Refusal::Samples)?;
        when(last.is_some_and(|last| time <= last) || time > LAST_TIME, Refusal::Times)?;
        when(values.iter().any(|value| value.unsigned_abs() > MOST), Refusal::Values)?;
        self.accepted.times.push(time);
        self.accepted.values.extend(values);
        Ok(())
    }

    /// "Before the first accepted row the margin is refused by 5."
    pub fn margin(&self) -> Result<i64, Refusal> {
        let root = self.root.as_ref().map_err(|refusal| *refusal)?;
        when(self.accepted.rows() == 0, Refusal::Samples)?;
        Ok(AtFirst::over(&self.predicates, &self.accepted).of(root))
    }
}

/// The size of the largest value.
const MOST: u64 = LARGEST_VALUE as u64;

/// Refusals 3, 4, 13 and 16, in this order; else the root's tree.
fn judge(table: &Table, predicates: &Predicates, scales: &[u64]) -> Result<Shared, Refusal> {
    let channels = scales.len() as u64;
    when(table.broken(predicates), Refusal::Table)?;
    when(
        channels_broken(channels) || predicates.iter().any(|predicate| predicate.broken(channels)),
        Refusal::Predicates,
    )?;
    when(scales.iter().any(|&scale| scale_broken(scale)), Refusal::Scales)?;
    when(nested(table), Refusal::Nested)?;
    Ok(table.trees().remove(table.count() - 1))
}

/// "A temporal operator stands inside another." "Every check looks at all nodes, those that the root
/// doesn't reach included."
fn nested(table: &Table) -> bool {
    let mut known = Memo::new();
    let mut inside =
        |tree: &Shared| tree.operands().iter().any(|inner| has_temporal(inner, &mut known));
    table.trees().iter().any(|tree| tree.is_temporal() && inside(tree))
}

/// Whether the tree is a temporal operator or has one inside, however deep.
fn has_temporal(tree: &Shared, known: &mut Memo<bool>) -> bool {
    if let Some(found) = known.get(tree) {
        return found;
    }
    let found =
        tree.is_temporal() || tree.operands().iter().any(|inner| has_temporal(inner, known));
    known.keep(tree, found)
}

/// "The recording's margin is the root's at sample 0." Where no temporal operator stands inside
/// another, each is asked for at sample 0 alone, and its operands have rows without a window in them:
/// that is what keeps 5,000 rows within reach of a definition that takes everything afresh.
struct AtFirst<'a> {
    predicates: &'a Predicates,
    recording: &'a Recording,
    rows: Margins<'a>,
    known: Memo<i64>,
}

impl<'a> AtFirst<'a> {
    fn over(predicates: &'a Predicates, recording: &'a Recording) -> Self {
        let rows = Margins::over(predicates, recording);
        AtFirst { predicates, recording, rows, known: Memo::new() }
    }

    fn of(&mut self, tree: &Shared) -> i64 {
        if let Some(margin) = self.known.get(tree) {
            return margin;
        }
        let margin = match tree.as_ref() {
            Tree::Atom(atom) => atom_margin(*atom, 0, self.predicates, self.recording),
            Tree::Not(left) => -self.of(left),
            Tree::And(left, right) => self.of(left).min(self.of(right)),
            Tree::Or(left, right) => self.of(left).max(self.of(right)),
            Tree::Until(left, window, right) => {
                let (left, right) = (self.rows.of(left), self.rows.of(right));
                self.until(|k| left[k], *window, |j| right[j])
            }
            Tree::Release(left, window, right) => {
                let (left, right) = (self.rows.of(left), self.rows.of(right));
                self.release(|k| left[k], *window, |j| right[j])
            }
            // "Until from true; release from false."
            Tree::Eventually(window, left) => {
                let left = self.rows.of(left);
                self.until(|_| TOP, *window, |j| left[j])
            }
            Tree::Always(window, left) => {
                let left = self.rows.of(left);
                self.release(|_| -TOP, *window, |j| left[j])
            }
        };
        self.known.keep(tree, margin)
    }

    /// The samples in the window of sample 0.
    fn in_window(&self, window: Window) -> impl Iterator<Item = usize> + '_ {
        let since = |j| self.recording.time(j) - self.recording.time(0);
        (0..self.recording.rows()).filter(move |&j| window.contains(since(j)))
    }

    /// "Largest, over j in the window, of the smaller of right at j and left at every k, i ≤ k < j."
    fn until(
        &self,
        left: impl Fn(usize) -> i64,
        window: Window,
        right: impl Fn(usize) -> i64,
    ) -> i64 {
        largest(self.in_window(window).map(|j| right(j).min(smallest((0..j).map(&left)))))
    }

    /// "Smallest, over j in the window, of the larger of right at j and left at any k, i ≤ k < j."
    fn release(
        &self,
        left: impl Fn(usize) -> i64,
        window: Window,
        right: impl Fn(usize) -> i64,
    ) -> i64 {
        smallest(self.in_window(window).map(|j| right(j).max(largest((0..j).map(&left)))))
    }
}
