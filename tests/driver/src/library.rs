//! The library as the driver calls it: flat numbers and slices of any length, the same for the
//! proved static library and for the peer in its place. `include/varmityep.h` says what each place
//! holds.
//!
//! A refusal is its number, 0 for none. Whatever is lent is written under 0 alone, as far as it
//! reaches, and keeps its contents under every other number; only a watch that is refused is written
//! too.

use crate::names::{Call, Making, Sheet, Written};

pub use crate::names::{
    COUNTS, ENDS, NODES, NODE_NUMBERS, NUMBERS, PLACES, RANGES, RESULT, SCALES,
};

pub trait Library {
    /// The whole answer: the length of the printed lines together. A refusal is a line too.
    fn answer(&self, text: &[u8], lines: &mut [u8]) -> usize;

    /// Refusal 0, 1 or 12.
    fn sheet(&self, text: &[u8], sheet: Sheet) -> u64;

    /// Refusal 0 or 2.
    fn requirement(&self, text: &[u8], nodes: &mut [u64], count: &mut [u64]) -> u64;

    /// Refusal 0, 3, 14 or 15, and the length of the text, 0 under a refusal.
    fn write(&self, nodes: &[u64], count: u64, text: &mut [u8]) -> Written;

    /// Refusal 0, 1, 4 or 5; measured and filled rows in counts.
    fn rows(
        &self,
        text: &[u8],
        channels: u64,
        times: &mut [u64],
        values: &mut [i64],
        counts: &mut [u64],
    ) -> u64;

    /// Refusal 0, 4, 13 or 7; the distance of a value from the predicate, given as its range,
    /// channel, lo and hi, times the scale, in result.
    fn distance(
        &self,
        predicate: (u64, u64, i64, i64),
        scale: u64,
        value: i64,
        result: &mut [i64],
    ) -> u64;

    /// Refusal 0, 3 to 8 or 13; the margin in result.
    fn margin(&self, call: &Call, work: &mut [i64], result: &mut [i64]) -> u64;

    /// Refusal 0, 3 to 11 or 13; verdict (0 not shown, 1 holds, 2 fails), hold and fail in result.
    fn verdict(
        &self,
        call: &Call,
        step: u64,
        drift: u64,
        work: &mut [i64],
        result: &mut [i64],
    ) -> u64;

    /// Refusal 0, 3, 4, 13, 16 or 8; a watch in numbers and cells, a refused one too, wherever both have
    /// the room.
    fn watch_fresh(&self, making: &Making, numbers: &mut [u64], cells: &mut [i64]) -> u64;

    /// Refusal 0, 8, that of the making, 5, 6 or 7.
    fn watch_row(&self, numbers: &mut [u64], cells: &mut [i64], time: u64, values: &[i64]) -> u64;

    /// Refusal 0, 8, that of the making, or 5; the margin in result.
    fn watch_margin(&self, numbers: &[u64], cells: &[i64], result: &mut [i64]) -> u64;
}
