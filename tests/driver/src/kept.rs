//! The peer's watches. A watch of the peer keeps every row, for which the slices have no room: so what
//! stands in them is a number, and the watch of that number is kept here. Each state that a watch comes
//! to has a number of its own, so that a copy of the slices is a watch by itself.

use crate::names::{WATCH_CELLS, WATCH_NUMBERS};
use peer::watch::Watch;
use std::cell::RefCell;
use std::collections::VecDeque;

/// So many states are kept, the last ones.
const MOST: usize = 100;

#[derive(Default)]
struct Kept {
    last: u64,
    watches: VecDeque<(u64, Watch)>,
}

thread_local! {
    static KEPT: RefCell<Kept> = RefCell::default();
}

/// Whether both slices have room for a watch.
pub fn fits(numbers: &[u64], cells: &[i64]) -> bool {
    numbers.len() >= WATCH_NUMBERS && cells.len() >= WATCH_CELLS
}

/// Keeps the watch, and writes its number.
pub fn keep(watch: Watch, numbers: &mut [u64], cells: &mut [i64]) {
    KEPT.with_borrow_mut(|kept| {
        kept.last += 1;
        kept.watches.push_back((kept.last, watch));
        if kept.watches.len() > MOST {
            kept.watches.pop_front();
        }
        numbers[..WATCH_NUMBERS].fill(0);
        cells[..WATCH_CELLS].fill(0);
        numbers[0] = kept.last;
    });
}

/// The watch that stands in the slices; none in short ones, or where none was made.
pub fn watch(numbers: &[u64], cells: &[i64]) -> Option<Watch> {
    KEPT.with_borrow(|kept| {
        let number = *numbers.first().filter(|_| fits(numbers, cells))?;
        let (_, watch) = kept.watches.iter().rev().find(|(kept, _)| *kept == number)?;
        Some(watch.clone())
    })
}
