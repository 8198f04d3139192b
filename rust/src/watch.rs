//! A margin while the card runs.

use crate::names;
use crate::predicate::{self, Predicates};
use crate::refusal::Refusal;
use crate::table::{self, Table};

/// The margin of one requirement, row after row. A watch takes one row at a time, stores none, and has
/// no limit of rows; its size is the same however many it has taken.
///
/// After any rows its margin is that of the recording made of those that it accepted: what
/// [`crate::margin()`] gives for it, up to the 4,096 rows that this takes. A row that is refused leaves
/// the watch as it was.
#[derive(Clone, PartialEq, Eq, Debug)]
pub struct Watch {
    numbers: [u64; Watch::NUMBERS],
    cells: [i64; Watch::CELLS],
}

impl Watch {
    /// How many unsigned numbers of 8 bytes a watch is made of.
    pub const NUMBERS: usize = names::WATCH_NUMBERS;
    /// How many signed numbers of 8 bytes it has besides.
    pub const CELLS: usize = names::WATCH_CELLS;

    /// A watch that has seen no row, for a table, its predicates and one scale for each channel.
    ///
    /// Its making may be refused: by 3, 4 (scales not 1 to 8 in number, or a predicate), 13 or 16 (a
    /// temporal operator stands inside another, in a node that the root reaches or in another one).
    /// Such a watch gives the same refusal to every row and every margin; [`Watch::refusal`] tells.
    pub fn fresh(table: &Table, predicates: &Predicates, scales: &[u64]) -> Watch {
        let (nodes, flat) = (table::to_flat(table), predicate::to_flat(predicates));
        let making = names::Making {
            nodes: &nodes,
            count: table.nodes.len() as u64,
            ranges: &flat.ranges,
            ends: &flat.ends,
            scales,
        };
        let mut watch = Watch { numbers: [0; Watch::NUMBERS], cells: [0; Watch::CELLS] };
        // The number is kept in the watch, which has all the room that it needs.
        names::watch_fresh(&making, &mut watch.numbers, &mut watch.cells);
        watch
    }

    /// What refused the making of this watch, and so refuses every row and every margin.
    pub fn refusal(&self) -> Option<Refusal> {
        // 5 is no refusal of a making: it says that no row was accepted yet.
        self.margin().err().filter(|refusal| *refusal != Refusal::Samples)
    }

    /// Takes the next row: a time later than that of the last row accepted, and one value for each
    /// channel. Refusals 5 (another count of values), 6 and 7, under which the watch stays as it was,
    /// or that of its making.
    pub fn row(&mut self, time: u64, values: &[i64]) -> Result<(), Refusal> {
        Refusal::check(names::watch_row(&mut self.numbers, &mut self.cells, time, values))
    }

    /// The margin of the recording that is made of the rows accepted so far. Refusal 5 before the
    /// first of them, or that of the making.
    pub fn margin(&self) -> Result<i64, Refusal> {
        let mut result = [0];
        Refusal::check(names::watch_margin(&self.numbers, &self.cells, &mut result))?;
        Ok(result[0])
    }
}
