//! Margins by the table's third column, and the entry point that judges what it is given.

use crate::limits::TOP;
use crate::memo::Memo;
use crate::predicate::{distance, Predicates};
use crate::recording::{channels_broken, Recording};
use crate::refusal::{when, Refusal};
use crate::table::Table;
use crate::tree::{Atom, Shared, Tree};
use crate::window::Window;
use std::rc::Rc;

/// The margins of one requirement at every sample.
pub type Row = Rc<Vec<i64>>;

/// The margins of requirements over one recording.
pub struct Margins<'a> {
    predicates: &'a Predicates,
    recording: &'a Recording,
    known: Memo<Row>,
}

/// "A largest over nothing is −TOP."
pub fn largest(numbers: impl Iterator<Item = i64>) -> i64 {
    numbers.max().unwrap_or(-TOP)
}

/// "A smallest over nothing is TOP."
pub fn smallest(numbers: impl Iterator<Item = i64>) -> i64 {
    numbers.min().unwrap_or(TOP)
}

pub fn atom_margin(
    atom: Atom,
    sample: usize,
    predicates: &Predicates,
    recording: &Recording,
) -> i64 {
    match atom {
        Atom::True => TOP,
        Atom::Predicate(number) => {
            let predicate = predicates[number];
            let channel = predicate.channel;
            distance(predicate.range, recording.scale(channel), recording.value(sample, channel))
        }
    }
}

impl<'a> Margins<'a> {
    pub fn over(predicates: &'a Predicates, recording: &'a Recording) -> Self {
        Margins { predicates, recording, known: Memo::new() }
    }

    pub fn of(&mut self, tree: &Shared) -> Row {
        if let Some(row) = self.known.get(tree) {
            return row;
        }
        let row = match tree.as_ref() {
            Tree::Atom(atom) => {
                self.at_each(|i| atom_margin(*atom, i, self.predicates, self.recording))
            }
            Tree::Not(left) => {
                let left = self.of(left);
                self.at_each(|i| -left[i])
            }
            Tree::And(left, right) => {
                let (left, right) = (self.of(left), self.of(right));
                self.at_each(|i| left[i].min(right[i]))
            }
            Tree::Or(left, right) => {
                let (left, right) = (self.of(left), self.of(right));
                self.at_each(|i| left[i].max(right[i]))
            }
            Tree::Until(left, window, right) => {
                let (left, right) = (self.of(left), self.of(right));
                self.until(|k| left[k], *window, |j| right[j])
            }
            Tree::Release(left, window, right) => {
                let (left, right) = (self.of(left), self.of(right));
                self.release(|k| left[k], *window, |j| right[j])
            }
            // "Until from true; release from false."
            Tree::Eventually(window, left) => {
                let left = self.of(left);
                self.until(|_| TOP, *window, |j| left[j])
            }
            Tree::Always(window, left) => {
                let left = self.of(left);
                self.release(|_| -TOP, *window, |j| left[j])
            }
        };
        self.known.keep(tree, Rc::new(row))
    }

    fn at_each(&self, margin: impl Fn(usize) -> i64) -> Vec<i64> {
        (0..self.recording.rows()).map(margin).collect()
    }

    fn in_window(&self, i: usize, window: Window) -> impl Iterator<Item = usize> + '_ {
        (0..self.recording.rows())
            .filter(move |&j| window.contains(self.recording.time(j) - self.recording.time(i)))
    }

    /// "Largest, over j in the window, of the smaller of right at j and left at every k, i ≤ k < j."
    fn until(
        &self,
        left: impl Fn(usize) -> i64,
        window: Window,
        right: impl Fn(usize) -> i64,
    ) -> Vec<i64> {
        self.at_each(|i| {
            largest(self.in_window(i, window).map(|j| right(j).min(smallest((i..j).map(&left)))))
        })
    }

    /// "Smallest, over j in the window, of the larger of right at j and left at any k, i ≤ k < j."
    fn release(
        &self,
        left: impl Fn(usize) -> i64,
        window: Window,
        right: impl Fn(usize) -> i64,
    ) -> Vec<i64> {
        self.at_each(|i| {
            smallest(self.in_window(i, window).map(|j| right(j).max(largest((i..j).map(&left)))))
        })
    }
}

/// Refusals 3, 4, 13, 5, 6 and 7, which margin and verdict share.
pub fn judge(table: &Table, predicates: &Predicates, recording: &Recording) -> Result<(), Refusal> {
    let channels = recording.channels;
    when(table.broken(predicates), Refusal::Table)?;
    when(
        channels_broken(channels) || predicates.iter().any(|predicate| predicate.broken(channels)),
        Refusal::Predicates,
    )?;
    when(recording.scales_broken(), Refusal::Scales)?;
    when(recording.samples_broken(), Refusal::Samples)?;
    when(recording.times_broken(), Refusal::Times)?;
    when(recording.values_broken(), Refusal::Values)
}

/// Entry point: refusals 3 to 8 and 13. "Cell k × rows + i ends as its margin at i. Later cells
/// keep their contents."
pub fn margin(
    table: &Table,
    predicates: &Predicates,
    recording: &Recording,
    work: &mut [i64],
) -> Result<i64, Refusal> {
    judge(table, predicates, recording)?;
    when(work.len() < table.count() * recording.rows(), Refusal::Work)?;
    let mut margins = Margins::over(predicates, recording);
    let rows: Vec<Row> = table.trees().iter().map(|tree| margins.of(tree)).collect();
    write(work, &rows);
    Ok(rows[table.count() - 1][0])
}

/// One row after the other, from the first cell on.
pub fn write(work: &mut [i64], rows: &[Row]) {
    let cells = rows.iter().flat_map(|row| row.iter());
    for (place, cell) in work.iter_mut().zip(cells) {
        *place = *cell;
    }
}
